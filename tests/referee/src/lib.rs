//! A second implementation of document 01, with asks 1 to 3 and 5 to 8 of
//! document 02, and of the call on alternatives beside ask 9, written from their
//! text.
//!
//! Read is done twice: by derivatives with injection (`posix`) and by the
//! rules of the relation with an automaton for the languages (`relation`).
//! Compile is done by the spans of a text (`notation`), Order by looking back
//! from each token (`pairs`), what a live line can become by derivatives on
//! expressions of another form (`live`), a page line by line (`page`), and what is
//! seen of alternatives by sets of bytes (`apart`).
//! Nothing here calls the library under test.

pub mod apart;
pub mod bench;
pub mod calls;
pub mod live;
pub mod notation;
pub mod order;
pub mod page;
pub mod pairs;
pub mod posix;
pub mod random;
pub mod relation;
pub mod rivals;
pub mod table;
pub mod value;
pub mod wrong;
