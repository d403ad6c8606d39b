//! Lists of calls on a form, encoded in bytes, and what they answer. `README.md` has the encoding.

use crate::dictionary::Dictionary;
use crate::form::{Closed, Open};
use crate::refusal::{Refusal, Result};
use crate::types::Value;

/// A call on a form, or a byte that is put into the buffer from outside.
#[derive(Clone, Copy, Debug, PartialEq, Eq)]
pub enum Call<'a> {
    Open { template: u16, version: u16 },
    Set { group: u32, entry: u64, tag: u32, value: Value<'a> },
    Clear { group: u32, entry: u64, tag: u32 },
    Append { group: u32 },
    Drop { group: u32 },
    Write { tag: u32, bytes: &'a [u8] },
    Close,
    Reopen,
    Poke { place: u16, byte: u8 },
}

impl<'a> Call<'a> {
    pub fn encode(&self, to: &mut Vec<u8>) {
        match *self {
            Call::Open { template, version } => {
                to.push(1);
                to.extend(template.to_le_bytes());
                to.extend(version.to_le_bytes());
            }
            Call::Set { group, entry, tag, value } => {
                to.push(2);
                to.extend(group.to_le_bytes());
                to.extend(entry.to_le_bytes());
                to.extend(tag.to_le_bytes());
                encode_value(&value, to);
            }
            Call::Clear { group, entry, tag } => {
                to.push(3);
                to.extend(group.to_le_bytes());
                to.extend(entry.to_le_bytes());
                to.extend(tag.to_le_bytes());
            }
            Call::Append { group } => {
                to.push(4);
                to.extend(group.to_le_bytes());
            }
            Call::Drop { group } => {
                to.push(5);
                to.extend(group.to_le_bytes());
            }
            Call::Write { tag, bytes } => {
                to.push(6);
                to.extend(tag.to_le_bytes());
                encode_bytes(bytes, to);
            }
            Call::Close => to.push(7),
            Call::Reopen => to.push(8),
            Call::Poke { place, byte } => {
                to.push(9);
                to.extend(place.to_le_bytes());
                to.push(byte);
            }
        }
    }
}

fn encode_bytes(bytes: &[u8], to: &mut Vec<u8>) {
    to.extend((bytes.len() as u16).to_le_bytes());
    to.extend(bytes);
}

fn encode_value(value: &Value<'_>, to: &mut Vec<u8>) {
    match *value {
        Value::Unsigned(number) => {
            to.push(1);
            to.extend(number.to_le_bytes());
        }
        Value::Signed(number) => {
            to.push(2);
            to.extend(number.to_le_bytes());
        }
        Value::Decimal { mantissa, decimals } => {
            to.push(3);
            to.extend(mantissa.to_le_bytes());
            to.push(decimals);
        }
        Value::Text(characters) => {
            to.push(4);
            encode_bytes(characters, to);
        }
        Value::Investor { prefix, document } => {
            to.push(5);
            to.extend(prefix.to_le_bytes());
            to.extend(document.to_le_bytes());
        }
    }
}

/// The calls of an encoded list, up to the first place where none is.
#[derive(Clone)]
pub struct Calls<'a> {
    rest: &'a [u8],
}

impl<'a> Calls<'a> {
    pub fn new(bytes: &'a [u8]) -> Self {
        Calls { rest: bytes }
    }

    /// The bytes that were not taken for calls.
    pub fn rest(&self) -> &'a [u8] {
        self.rest
    }

    fn take<const N: usize>(&mut self) -> Option<[u8; N]> {
        let (first, rest) = self.rest.split_first_chunk()?;
        self.rest = rest;
        Some(*first)
    }

    fn byte(&mut self) -> Option<u8> {
        self.take::<1>().map(|[byte]| byte)
    }

    fn two(&mut self) -> Option<u16> {
        self.take().map(u16::from_le_bytes)
    }

    fn four(&mut self) -> Option<u32> {
        self.take().map(u32::from_le_bytes)
    }

    fn eight(&mut self) -> Option<u64> {
        self.take().map(u64::from_le_bytes)
    }

    fn signed(&mut self) -> Option<i64> {
        self.take().map(i64::from_le_bytes)
    }

    fn bytes(&mut self) -> Option<&'a [u8]> {
        let length = usize::from(self.two()?);
        let (bytes, rest) = self.rest.split_at_checked(length)?;
        self.rest = rest;
        Some(bytes)
    }

    fn value(&mut self) -> Option<Value<'a>> {
        Some(match self.byte()? {
            1 => Value::Unsigned(self.eight()?),
            2 => Value::Signed(self.signed()?),
            3 => Value::Decimal { mantissa: self.signed()?, decimals: self.byte()? },
            4 => Value::Text(self.bytes()?),
            5 => Value::Investor { prefix: self.two()?, document: self.four()? },
            _ => return None,
        })
    }

    fn call(&mut self) -> Option<Call<'a>> {
        Some(match self.byte()? {
            1 => Call::Open { template: self.two()?, version: self.two()? },
            2 => Call::Set { group: self.four()?, entry: self.eight()?, tag: self.four()?, value: self.value()? },
            3 => Call::Clear { group: self.four()?, entry: self.eight()?, tag: self.four()? },
            4 => Call::Append { group: self.four()? },
            5 => Call::Drop { group: self.four()? },
            6 => Call::Write { tag: self.four()?, bytes: self.bytes()? },
            7 => Call::Close,
            8 => Call::Reopen,
            9 => Call::Poke { place: self.two()?, byte: self.byte()? },
            _ => return None,
        })
    }
}

impl<'a> Iterator for Calls<'a> {
    type Item = Call<'a>;

    fn next(&mut self) -> Option<Call<'a>> {
        let before = self.rest;
        let call = self.call();
        if call.is_none() {
            self.rest = before;
        }
        call
    }
}

/// What a call answers.
#[derive(Clone, Copy, Debug, PartialEq, Eq)]
pub enum Answer {
    Accepted,
    Refused(Refusal),
    OutOfTurn,
}

/// How many bytes an answer has.
pub const ANSWER: usize = 16;

impl Answer {
    pub fn encode(&self) -> [u8; ANSWER] {
        let mut bytes = [0; ANSWER];
        match *self {
            Answer::Accepted => {}
            Answer::Refused(refusal) => {
                bytes[0] = 1;
                bytes[1] = refusal.reason.number();
                bytes[4..8].copy_from_slice(&refusal.tag.to_le_bytes());
                bytes[8..].copy_from_slice(&(refusal.place as u64).to_le_bytes());
            }
            Answer::OutOfTurn => bytes[0] = 2,
        }
        bytes
    }
}

/// The form that there is, if any.
#[derive(Clone, Copy, Debug, Default, PartialEq, Eq)]
pub enum Desk {
    #[default]
    Empty,
    Open(Open),
    Closed(Closed),
}

impl Desk {
    /// How many bytes the form's frame has; 0 where there is no form.
    pub fn length(&self) -> usize {
        match self {
            Desk::Empty => 0,
            Desk::Open(open) => open.length(),
            Desk::Closed(closed) => closed.length(),
        }
    }

    /// Whether a buffer states the template and the version of the form.
    pub fn is_of(&self, buffer: &[u8]) -> bool {
        let (template, version) = match self {
            Desk::Empty => return false,
            Desk::Open(open) => open.message(),
            Desk::Closed(closed) => closed.message(),
        };
        buffer.get(6..8) == Some(&template.to_le_bytes()) && buffer.get(10..12) == Some(&version.to_le_bytes())
    }

    /// Does one call.
    pub fn call(&mut self, dictionary: Dictionary<'_>, buffer: &mut [u8], call: &Call<'_>) -> Answer {
        match self.done(dictionary, buffer, call) {
            Some(Ok(())) => Answer::Accepted,
            Some(Err(refusal)) => Answer::Refused(refusal),
            None => Answer::OutOfTurn,
        }
    }

    /// None if the call is out of turn.
    fn done(&mut self, dictionary: Dictionary<'_>, buffer: &mut [u8], call: &Call<'_>) -> Option<Result<()>> {
        Some(match (*call, &mut *self) {
            (Call::Poke { place, byte }, _) => {
                if let Some(there) = buffer.get_mut(usize::from(place)) {
                    *there = byte;
                }
                Ok(())
            }
            (Call::Open { template, version }, _) => {
                Open::open(dictionary, buffer, template, version).map(|open| *self = Desk::Open(open))
            }
            (Call::Set { group, entry, tag, value }, Desk::Open(open)) => {
                open.set(dictionary, buffer, group, entry as usize, tag, &value)
            }
            (Call::Clear { group, entry, tag }, Desk::Open(open)) => {
                open.clear(dictionary, buffer, group, entry as usize, tag)
            }
            (Call::Append { group }, Desk::Open(open)) => open.append(dictionary, buffer, group),
            (Call::Drop { group }, Desk::Open(open)) => open.drop(dictionary, buffer, group),
            (Call::Write { tag, bytes }, Desk::Open(open)) => open.write(dictionary, buffer, tag, bytes),
            (Call::Close, Desk::Open(open)) => {
                open.close(dictionary, buffer).map(|closed| *self = Desk::Closed(closed))
            }
            (Call::Reopen, Desk::Closed(closed)) => {
                closed.reopen(dictionary, buffer).map(|open| *self = Desk::Open(open))
            }
            _ => return None,
        })
    }
}

/// How a run ends.
#[derive(Clone, Copy, Debug, PartialEq, Eq)]
#[repr(u8)]
pub enum Ended {
    /// All calls were done and answered.
    Done = 0,
    /// What follows the calls that were done is no call.
    NoCall = 1,
    /// The answers have no room for the next one; its call was not done.
    NoRoom = 2,
}

/// Runs a list of calls, beginning with no form, and writes an answer of 16 bytes for each.
pub fn run(dictionary: &[u8], buffer: &mut [u8], calls: &[u8], answers: &mut [u8]) -> Ended {
    let dictionary = Dictionary::unchecked(dictionary);
    let mut desk = Desk::default();
    let mut answers = answers.chunks_exact_mut(ANSWER);
    let mut calls = Calls::new(calls);
    for call in calls.by_ref() {
        let Some(answer) = answers.next() else { return Ended::NoRoom };
        answer.copy_from_slice(&desk.call(dictionary, buffer, &call).encode());
    }
    if calls.rest().is_empty() {
        Ended::Done
    } else {
        Ended::NoCall
    }
}
