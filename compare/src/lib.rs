//! An independent reader and writer of the documents that the link carries, the inputs on which the archive liblomphachit.a is held against them, and
//! what is compared. The program is main.rs; fuzz/ is another over the same comparison.
pub mod archive;
pub mod damage;
pub mod dice;
pub mod differ;
pub mod faults;
pub mod forms;
pub mod heads;
pub mod inputs;
pub mod judge;
pub mod kept;
pub mod lists;
pub mod make;
pub mod reader;
pub mod report;
pub mod shrink;
pub mod tables;
pub mod tails;
pub mod tally;
#[cfg(test)]
mod tests;
pub mod text;
pub mod words;
pub mod writer;
