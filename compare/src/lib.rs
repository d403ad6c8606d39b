//! A second implementation of the format of `docs/FORMAT.md`, written from that page alone.
//!
//! [`types`] knows the types 1 to 8, 65 and 66; [`dictionary`] checks dictionaries and finds templates; [`edition`] compares editions; [`stream`]
//! cuts a stream; [`frame`] accepts and reads frames; [`form`] fills them in, in a caller's buffer; [`listing`] prints what a stream holds. None of these
//! allocates. [`calls`] runs encoded lists of calls on a form, [`message`] writes out the frame that they leave, and [`random`], [`generate`] make the inputs of the
//! comparison with the first implementation; [`report`] prints how it went.

#![forbid(unsafe_code)]

pub mod calls;
pub mod dictionary;
pub mod edition;
pub mod form;
pub mod frame;
pub mod generate;
pub mod listing;
pub mod message;
pub mod random;
pub mod refusal;
pub mod report;
pub mod stream;
pub mod types;

#[cfg(test)]
mod tests;
