//! `silo`: wall loads of grain silos by ENV 1991-4, for a person at the command line. Every load comes from the proved library.

pub mod basis;
pub mod capacity;
pub mod catalogue;
pub mod checklist;
pub mod commands;
pub mod description;
pub mod discharge;
pub mod doubt;
pub mod draw;
pub mod files;
pub mod fraction;
pub mod hand;
pub mod library;
pub mod message;
pub mod name;
pub mod number;
pub mod patch;
pub mod place;
pub mod report;
pub mod strake;
pub mod text;
pub mod units;
pub mod value;

mod check;
mod content;
mod crc;
mod csv;
mod form;
mod inches;
mod json;
mod likely;
mod source;
mod table;
