//! The second program's parts, written from the documents in docs/ alone, and the makers of files for the comparison.
//! They share no code with the proved program.

pub mod book;
pub mod day;
pub mod days;
pub mod files;
pub mod listing;
pub mod programs;
pub mod record;
pub mod refusal;
pub mod text;
