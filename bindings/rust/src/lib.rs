//! Feed script pages: a proved reader of scripts, and pages that keep their line and token records through edits.
//!
//! The calls of the static library `liblexpage.a` in Rust. What the library promises is proved of every text and every
//! list of edits: after each edit, text and records are exactly those of a fresh reading of the edited text, and the
//! number of lines read again is the one that the stop rule defines. Numbers in these pages (refusals 1 to 7, kinds 0 to
//! 92) are those of the specification, `document 01`.
//!
//! ```
//! use lexpage::{Page, TokenKind};
//!
//! let mut page = Page::read(b"let x = 1\nlet y = 2\n")?;
//! let edited = page.edit(8..9, b"600")?;
//! assert_eq!(edited.reread, 1);
//! assert_eq!(page.text(), b"let x = 600\nlet y = 2\n");
//!
//! let numbers: Vec<usize> = page.tokens().filter(|t| t.kind == TokenKind::Num).map(|t| t.position).collect();
//! assert_eq!(numbers, [8, 20]);
//! # Ok::<(), lexpage::Refusal>(())
//! ```
//!
//! A refused edit changes nothing, and says why:
//!
//! ```
//! use lexpage::{Page, Refusal};
//!
//! let mut page = Page::read(b"open && dry")?;
//! let refusal = page.edit(6..7, b"").unwrap_err();
//! assert_eq!(refusal.to_string(), "line 1, column 6: expected '&&' (E0002)");
//! assert_eq!(refusal.number(), 3);
//! assert_eq!(page.text(), b"open && dry");
//! # Ok::<(), Refusal>(())
//! ```
//!
//! [`Page`] owns its buffers and grows them. The module [`lent`] has the same calls on buffers that the caller lends;
//! nothing there allocates, and without the feature `alloc` the crate needs no allocator at all. It never needs `std`.
#![no_std]
#![deny(missing_docs)]
// The documentation speaks of `Page` also where it is left out.
#![cfg_attr(not(feature = "alloc"), allow(rustdoc::broken_intra_doc_links))]

#[cfg(feature = "alloc")]
extern crate alloc;

mod declarations;
mod ffi;
mod kind;
pub mod lent;
mod number;
#[cfg(feature = "alloc")]
mod page;
mod record;
mod refusal;

pub use kind::{Group, TokenKind};
pub use lent::{byte_value, number_parts, panel_column};
pub use number::{Number, Suffix};
#[cfg(feature = "alloc")]
pub use page::{report, Page, Tokens};
pub use record::{Edited, Header, Line, Token};
pub use refusal::{Buffer, Code, Detail, Failure, Refusal};

/// The most bytes that a text may have.
pub const MAX_BYTES: usize = 1_048_576;

/// The most levels that may be open at once.
pub const MAX_LEVELS: usize = 16;

/// The words of a line record.
pub const LINE_WORDS: usize = 5 + MAX_LEVELS;

/// The words of a token record.
pub const TOKEN_WORDS: usize = 5;
