//! A second implementation of document 01 and of C-11 and C-13 to C-19 of document 02, written from their text: exact fractions in whole
//! numbers of any size, e^-q and cosines enclosed by their series, every refusal and every load, the order of the list, the page, the patch
//! round a shell, the depths for pressures; and its comparison with a library that offers the calls of `include/silo.h`.

pub mod answers;
pub mod calls;
pub mod catalogue;
pub mod compare;
pub mod cosine;
pub mod depths;
pub mod exponential;
pub mod formulas;
pub mod fraction;
pub mod governing;
pub mod inputs;
pub mod limits;
pub mod linked;
pub mod natural;
pub mod order;
pub mod page;
pub mod printer;
pub mod runs;
pub mod sheet;
pub mod shell;
