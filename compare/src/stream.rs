//! The cutting of a stream into frames.

use crate::refusal::{Reason, Result};

/// The shortest and the longest frame.
pub const SHORTEST: usize = 12;
pub const LONGEST: usize = 16_384;

/// The encoding, as it stands in the bytes.
pub const ENCODING: [u8; 2] = [0x50, 0xEB];

/// What the cutter finds at the front of a stream.
#[derive(Clone, Copy, Debug, PartialEq, Eq)]
pub enum Cut<'a> {
    /// So many bytes are missing, at least.
    Missing(usize),
    Frame {
        frame: &'a [u8],
        rest: &'a [u8],
    },
}

/// Cuts the first frame off a stream.
pub fn cut(stream: &[u8]) -> Result<Cut<'_>> {
    let &[low, high, e, f, ..] = stream else {
        return Ok(Cut::Missing(4 - stream.len()));
    };
    if [e, f] != ENCODING {
        return Err(Reason::Encoding.at(2, 0));
    }
    let length = usize::from(u16::from_le_bytes([low, high]));
    if !(SHORTEST..=LONGEST).contains(&length) {
        return Err(Reason::FrameSize.at(0, 0));
    }
    Ok(match stream.split_at_checked(length) {
        Some((frame, rest)) => Cut::Frame { frame, rest },
        None => Cut::Missing(length - stream.len()),
    })
}
