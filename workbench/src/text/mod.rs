//! The text form of books: words, statements, their meaning, and back.

pub mod check;
pub mod lexer;
pub mod parser;
pub mod printer;
pub mod sides;
