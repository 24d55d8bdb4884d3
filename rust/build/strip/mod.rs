//! Turns Rattle source into Rust: contracts become comments, and what only the kit has is adapted.
//!
//! Every line keeps its number, so a message of the compiler names the line of the source. Source
//! that isn't understood is a [`Fault`] with its file and line; nothing is guessed.

// Each script and the tests use a part of this module.
#![allow(dead_code, unused_imports)]

mod edits;
mod fault;
mod items;
mod lexer;
mod operand;
mod translate;
mod tree;

pub use edits::Edits;
pub use fault::Fault;
pub use items::{Item, Kind};
pub use lexer::TokenKind;
pub use operand::operand;
pub use translate::{Change, Options, Source, sign_cast, translated};
pub use tree::write_crates;
