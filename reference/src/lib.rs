//! What the programs of this folder share: the heap as an object graph with its cells and pages, the lent words, the reading of lines, the
//! making of scripts, and running two programs on them.

pub mod collecting;
pub mod counted;
pub mod ending;
pub mod flavours;
pub mod forever;
pub mod heap;
pub mod lines;
pub mod malformed;
pub mod pages;
pub mod pair;
pub mod patterns;
pub mod random;
pub mod registers;
pub mod rules;
pub mod scripts;
pub mod sheets;
pub mod single;
pub mod statistics;
pub mod structures;
pub mod words;
pub mod writer;
