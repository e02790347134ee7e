//! A silo as text: `name = value unit` a line.

mod depths;
mod elsewhere;
mod hopper;
mod line;
mod product;
mod read;
mod understood;
mod write;

pub use line::Line;
pub use read::{is_silo, read, Text};
pub use understood::{understood, Understood};
pub use write::{runs, write};
