//! The check of packed images: one station (an enclave) or a whole line (a federate), over a pack, its batch text and its house text.
//!
//! Any three byte slices get an answer. What else can be asked: which reactor a mode belongs to ([`mode_owner`]), what a reaction reaches
//! ([`reached_in_bytes`], [`reached_in_bits`]), what a line would be with another row ([`preview_record`], [`change_record`]), a pack of the other byte order
//! ([`convert_enclave`], [`convert_federate`]), small scope trees ([`first_tree`], [`next_tree`]), and a [`Tally`] of answers of lines. `examples/` has a host
//! for each. The code behind it is proved (`crates/image_check`); what its boundary assumes is said in `bindings/c/image_check.h`, and a slice of Rust's brings
//! all of it but the stack: [`STACK`], [`CHANGE_STACK`] and [`REACH_STACK`].
//!
//! A no is a [`Refusal`], an error with its numbers by name, which is shown as a sentence:
//!
//! ```
//! use image_check::{check_federate, Answer, Refusal};
//!
//! let answer = check_federate(&[0; 63], b"", b"");
//! assert_eq!(answer, Answer::Refused(Refusal::Length));
//! assert_eq!(answer.to_string(), "refused 1");
//! assert_eq!(Refusal::Length.to_string(), "line.pack is empty, too long, or not a whole number of 64-byte records.");
//! ```
#![deny(missing_docs, unsafe_code)]

#[cfg(not(all(target_arch = "x86_64", target_os = "linux")))]
compile_error!("libimage_check.a is for x86-64 Linux");

mod changes;
mod checks;
mod conversions;
mod library;
mod names;
mod numbers;
mod owner;
mod reached;
mod refusal;
mod scope_trees;
mod tallies;

pub use changes::{change_record, preview_record, CHANGE_STACK};
pub use checks::{check_enclave, check_federate, check_federate_night, check_rising, Answer};
pub use conversions::{convert_enclave, convert_federate};
pub use names::{Field, IdKind, IdentityPlace, RouteDirection, Table, Text};
pub use numbers::Numbers;
pub use owner::{mode_owner, Owner};
pub use reached::{reached_in_bits, reached_in_bytes, Reached, REACH_STACK};
pub use refusal::Refusal;
pub use scope_trees::{first_tree, next_tree, Next};
pub use tallies::{Fraction, Tally};

/// Bytes of stack that are enough for one call; a thread of Rust's has more unless it is asked for fewer.
pub const STACK: usize = 1 << 19;
