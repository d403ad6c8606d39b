//! What the program `listing` prints of a dictionary and a stream.

use std::fmt::Write;

use crate::dictionary::{Dictionary, Field};
use crate::frame::{Frame, Item};
use crate::refusal::Refusal;
use crate::stream::{cut, Cut};
use crate::types::{Meaning, Value};

/// How much of a stream is looked at.
pub const LONGEST: usize = 65_536;

/// The lines, one behind the other.
pub fn listing(dictionary: &[u8], stream: &[u8]) -> String {
    let mut out = String::new();
    write(&mut out, dictionary, &stream[..stream.len().min(LONGEST)]).expect("a string takes all");
    out
}

fn write(out: &mut String, dictionary: &[u8], stream: &[u8]) -> std::fmt::Result {
    let dictionary = match Dictionary::check(dictionary) {
        Ok(dictionary) => dictionary,
        Err(refusal) => return writeln!(out, "D {} {}", refusal.place, refusal.reason.number()),
    };
    let mut rest = stream;
    while !rest.is_empty() {
        let place = stream.len() - rest.len();
        match next(dictionary, rest) {
            Err(Refusal { reason, place: inside, tag }) => {
                return writeln!(out, "X {place} {} {inside} {tag}", reason.number());
            }
            Ok(Next::Missing(count)) => return writeln!(out, "W {place} {count}"),
            Ok(Next::Frame(frame, behind)) => {
                let (length, number) = (frame.bytes().len(), frame.template().number);
                writeln!(out, "F {place} {length} {number} {}", frame.version())?;
                write_items(out, &frame)?;
                rest = behind;
            }
        }
    }
    Ok(())
}

enum Next<'d, 'f> {
    Missing(usize),
    Frame(Frame<'d, 'f>, &'f [u8]),
}

fn next<'d, 'f>(dictionary: Dictionary<'d>, stream: &'f [u8]) -> Result<Next<'d, 'f>, Refusal> {
    Ok(match cut(stream)? {
        Cut::Missing(count) => Next::Missing(count),
        Cut::Frame { frame, rest } => Next::Frame(Frame::accept(dictionary, frame)?, rest),
    })
}

fn write_items(out: &mut String, frame: &Frame<'_, '_>) -> std::fmt::Result {
    let mut result = Ok(());
    frame.walk(|item| {
        result = result.and_then(|()| match item {
            Item::Root { field, bytes, .. } => write_field(out, 'r', &field, bytes),
            Item::Group { tag, count, .. } => writeln!(out, "g {tag} {count}"),
            Item::Entry { field, bytes, .. } => write_field(out, 'e', &field, bytes),
            Item::Data { tag, bytes: [], .. } => writeln!(out, "d {tag} -"),
            Item::Data { tag, bytes, .. } => {
                write!(out, "d {tag} ")?;
                write_hex(out, bytes)?;
                writeln!(out)
            }
        });
    });
    result
}

fn write_field(out: &mut String, letter: char, field: &Field<'_>, bytes: &[u8]) -> std::fmt::Result {
    write!(out, "{letter} {} ", field.tag)?;
    match field.kind().and_then(|kind| kind.read(bytes)) {
        Ok(Meaning::Value(Value::Unsigned(number))) => write!(out, "{number}")?,
        Ok(Meaning::Value(Value::Signed(number))) => write!(out, "{number}")?,
        Ok(Meaning::Value(Value::Decimal { mantissa, decimals })) => write!(out, "{mantissa}e-{decimals}")?,
        Ok(Meaning::Value(Value::Text(characters))) => write_hex(out, characters)?,
        Ok(Meaning::Value(Value::Investor { prefix, document })) => write!(out, "{prefix}/{document}")?,
        // Absent; the bytes of a field of an accepted frame are a pattern.
        Ok(Meaning::Absent) | Err(_) => out.push('-'),
    }
    writeln!(out)
}

fn write_hex(out: &mut String, bytes: &[u8]) -> std::fmt::Result {
    bytes.iter().try_for_each(|byte| write!(out, "{byte:02X}"))
}
