//! The types of fields: their widths and patterns, and what the patterns mean.

use std::ops::Deref;

use crate::refusal::{Reason, Refusal, Result};

/// The widest pattern there is.
pub const WIDEST: usize = 20;

/// A value of a field. The kind is part of the value.
#[derive(Clone, Copy, Debug, PartialEq, Eq)]
pub enum Value<'a> {
    Unsigned(u64),
    Signed(i64),
    Decimal { mantissa: i64, decimals: u8 },
    Text(&'a [u8]),
    Investor { prefix: u16, document: u32 },
}

/// What a pattern means.
#[derive(Clone, Copy, Debug, PartialEq, Eq)]
pub enum Meaning<'a> {
    Absent,
    Value(Value<'a>),
}

/// The bytes of a field, up to [`WIDEST`] of them.
#[derive(Clone, Copy, Debug, PartialEq, Eq)]
pub struct Pattern {
    bytes: [u8; WIDEST],
    width: u8,
}

impl Pattern {
    fn zeros(width: usize) -> Self {
        Pattern { bytes: [0; WIDEST], width: width as u8 }
    }

    /// The lowest `width` bytes of a number, at most 8.
    fn little(number: u64, width: usize) -> Self {
        let mut pattern = Pattern::zeros(width);
        pattern.bytes[..width].copy_from_slice(&number.to_le_bytes()[..width]);
        pattern
    }

    /// Some characters, and then zeros up to the width.
    fn text(characters: &[u8], width: usize) -> Self {
        let mut pattern = Pattern::zeros(width);
        pattern.bytes[..characters.len()].copy_from_slice(characters);
        pattern
    }
}

impl Deref for Pattern {
    type Target = [u8];

    fn deref(&self) -> &[u8] {
        &self.bytes[..usize::from(self.width)]
    }
}

/// A number of 1, 2, 4 or 8 bytes and the bits of it, if any, that mean absent.
#[derive(Clone, Copy, Debug, PartialEq, Eq)]
pub struct Bits {
    width: usize,
    absent: Option<u64>,
}

impl Bits {
    /// By rule: 0 none, 1 zero, 2 all bits one, 3 only the top bit.
    fn by_rule(width: usize, rule: u8) -> Option<Self> {
        let absent = match rule {
            0 => None,
            1 => Some(0),
            2 => Some(Self::mask(width)),
            3 => Some(1 << (8 * width - 1)),
            _ => return None,
        };
        Some(Bits { width, absent })
    }

    const fn mask(width: usize) -> u64 {
        u64::MAX >> (64 - 8 * width)
    }

    fn blank(self) -> Pattern {
        Pattern::little(self.absent.unwrap_or(0), self.width)
    }

    /// The bits, none where they mean absent; nothing where the width is another.
    #[inline]
    fn read(self, bytes: &[u8]) -> Option<Option<u64>> {
        if bytes.len() != self.width {
            return None;
        }
        let bits = match *bytes {
            [a] => u64::from(a),
            [a, b] => u64::from(u16::from_le_bytes([a, b])),
            [a, b, c, d] => u64::from(u32::from_le_bytes([a, b, c, d])),
            [a, b, c, d, e, f, g, h] => u64::from_le_bytes([a, b, c, d, e, f, g, h]),
            _ => return None,
        };
        Some(if self.absent == Some(bits) { None } else { Some(bits) })
    }

    fn write(self, bits: u64) -> Option<Pattern> {
        (self.absent != Some(bits)).then(|| Pattern::little(bits, self.width))
    }

    /// The bits as a signed number.
    fn signed(self, bits: u64) -> i64 {
        let unused = 64 - 8 * self.width;
        ((bits << unused) as i64) >> unused
    }

    fn write_signed(self, number: i64) -> Option<Pattern> {
        let bits = number as u64 & Self::mask(self.width);
        if self.signed(bits) != number {
            return None;
        }
        self.write(bits)
    }
}

/// A type that is known: a number with an argument that is allowed for it.
#[derive(Clone, Copy, Debug, PartialEq, Eq)]
pub enum Type<'a> {
    /// 1 to 4.
    Unsigned(Bits),
    /// 5 and 6.
    Signed(Bits),
    /// 7: the listed codes.
    Code(&'a [u8]),
    /// 8: a mantissa, and the decimals.
    Decimal(Bits, u8),
    /// 65: the width.
    Text(usize),
    /// 66.
    Investor,
}

const UNKNOWN: Refusal = Reason::UnknownType.at(0, 0);
const NO_PATTERN: Refusal = Reason::NoPattern.at(0, 0);
const NO_SUCH_VALUE: Refusal = Reason::NoSuchValue.at(0, 0);

impl<'a> Type<'a> {
    /// The type of this number and argument.
    #[inline]
    pub fn new(number: u8, argument: &'a [u8]) -> Result<Self> {
        Self::known(number, argument).ok_or(UNKNOWN)
    }

    #[inline]
    fn known(number: u8, argument: &'a [u8]) -> Option<Self> {
        Some(match (number, argument) {
            (1..=4, &[rule @ 0..=2]) => Type::Unsigned(Bits::by_rule(1 << (number - 1), rule)?),
            (5..=6, &[rule]) => Type::Signed(Bits::by_rule(4 << (number - 5), rule)?),
            (7, codes) if (1..=32).contains(&codes.len()) && codes.windows(2).all(|pair| pair[0] < pair[1]) => {
                Type::Code(codes)
            }
            (8, &[rule, decimals @ 0..=9]) => Type::Decimal(Bits::by_rule(8, rule)?, decimals),
            (65, &[width @ 1..=20]) => Type::Text(usize::from(width)),
            (66, []) => Type::Investor,
            _ => return None,
        })
    }

    /// How many bytes a pattern has.
    #[inline]
    pub fn width(&self) -> usize {
        match *self {
            Type::Unsigned(bits) | Type::Signed(bits) | Type::Decimal(bits, _) => bits.width,
            Type::Code(_) => 1,
            Type::Text(width) => width,
            Type::Investor => 8,
        }
    }

    /// The pattern of a cleared field.
    pub fn blank(&self) -> Pattern {
        match *self {
            Type::Unsigned(bits) | Type::Signed(bits) | Type::Decimal(bits, _) => bits.blank(),
            Type::Code(_) | Type::Text(_) | Type::Investor => Pattern::zeros(self.width()),
        }
    }

    /// What these bytes mean.
    #[inline]
    pub fn read<'b>(&self, bytes: &'b [u8]) -> Result<Meaning<'b>> {
        self.meaning(bytes).ok_or(NO_PATTERN)
    }

    #[inline]
    fn meaning<'b>(&self, bytes: &'b [u8]) -> Option<Meaning<'b>> {
        let value = match *self {
            Type::Unsigned(bits) => bits.read(bytes)?.map(Value::Unsigned),
            Type::Signed(bits) => bits.read(bytes)?.map(|read| Value::Signed(bits.signed(read))),
            Type::Decimal(bits, decimals) => {
                bits.read(bytes)?.map(|read| Value::Decimal { mantissa: bits.signed(read), decimals })
            }
            Type::Code(codes) => match *bytes {
                [code] if codes.contains(&code) => Some(Value::Unsigned(u64::from(code))),
                [0] => None,
                _ => return None,
            },
            Type::Text(width) => {
                if bytes.len() != width {
                    return None;
                }
                let length = bytes.iter().position(|&byte| byte == 0).unwrap_or(width);
                let (characters, zeros) = bytes.split_at(length);
                if !characters.iter().all(is_character) || !zeros.iter().all(|&byte| byte == 0) {
                    return None;
                }
                (length != 0).then_some(Value::Text(characters))
            }
            Type::Investor => match *bytes {
                [a, b, 0, 0, e, f, g, h] => match (u16::from_le_bytes([a, b]), u32::from_le_bytes([e, f, g, h])) {
                    (0, 0) => None,
                    (prefix, document) => Some(Value::Investor { prefix, document }),
                },
                _ => return None,
            },
        };
        Some(value.map_or(Meaning::Absent, Meaning::Value))
    }

    /// The pattern that means this value.
    pub fn write(&self, value: &Value) -> Result<Pattern> {
        self.pattern(value).ok_or(NO_SUCH_VALUE)
    }

    fn pattern(&self, value: &Value) -> Option<Pattern> {
        match (*self, *value) {
            (Type::Unsigned(bits), Value::Unsigned(number)) if number <= Bits::mask(bits.width) => bits.write(number),
            (Type::Signed(bits), Value::Signed(number)) => bits.write_signed(number),
            (Type::Decimal(bits, wanted), Value::Decimal { mantissa, decimals }) if decimals == wanted => {
                bits.write_signed(mantissa)
            }
            (Type::Code(codes), Value::Unsigned(number)) => {
                let code = u8::try_from(number).ok()?;
                codes.contains(&code).then(|| Pattern::little(number, 1))
            }
            (Type::Text(width), Value::Text(characters)) => {
                let fits = (1..=width).contains(&characters.len()) && characters.iter().all(is_character);
                fits.then(|| Pattern::text(characters, width))
            }
            (Type::Investor, Value::Investor { prefix, document }) => ((prefix, document) != (0, 0))
                .then(|| Pattern::little(u64::from(prefix) | u64::from(document) << 32, 8)),
            _ => None,
        }
    }
}

fn is_character(byte: &u8) -> bool {
    (0x20..=0x7E).contains(byte)
}
