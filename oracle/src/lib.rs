//! The Rust lexer, unchanged, and an executable reading of document 01 on top of it.

extern crate alloc;

pub mod call;
pub mod case;
pub mod examples;
pub mod format;
pub mod generate;
pub mod kept;
pub mod numbers;
pub mod original;
pub mod page;
pub mod reading;

use original::types;
