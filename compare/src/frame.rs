//! Frames: accepting them, and reading what they hold.

use crate::dictionary::{Block, Data, Dictionary, Field, Template};
use crate::refusal::{Reason, Result};
use crate::stream::{ENCODING, LONGEST, SHORTEST};
use crate::types::{Meaning, Value};

/// Where the root block begins.
pub const HEAD: usize = 12;

/// How many bytes stand in front of the entries of a group.
pub const GROUP_HEAD: usize = 3;

/// The most entries of a group.
pub const MOST_ENTRIES: u8 = 254;

/// The number of two bytes at a place.
#[inline]
pub(crate) fn number(bytes: &[u8], place: usize) -> u16 {
    u16::from_le_bytes([bytes[place], bytes[place + 1]])
}

/// Whether a required field may be absent, as it may while a form is filled in.
#[derive(Clone, Copy, PartialEq, Eq)]
pub(crate) enum Required {
    MayBeAbsent,
    Present,
}

/// Bytes that were accepted as a frame.
#[derive(Clone, Copy, Debug)]
pub struct Frame<'d, 'f> {
    template: Template<'d>,
    bytes: &'f [u8],
    version: u16,
    /// The frame is newer than the dictionary.
    newer: bool,
}

/// What is read at a group, an entry and a tag.
#[derive(Clone, Copy, Debug, PartialEq, Eq)]
pub struct Found<'f> {
    pub what: What<'f>,
    /// Where its bytes begin in the frame; 0 for a line newer than the frame.
    pub at: usize,
    pub bytes: &'f [u8],
}

#[derive(Clone, Copy, Debug, PartialEq, Eq)]
pub enum What<'f> {
    Absent,
    Value(Value<'f>),
    Data,
}

/// What a walk over a frame comes to.
#[derive(Clone, Copy, Debug, PartialEq, Eq)]
pub enum Item<'d, 'f> {
    Root { at: usize, field: Field<'d>, bytes: &'f [u8] },
    Group { at: usize, tag: u32, count: u8 },
    Entry { at: usize, field: Field<'d>, bytes: &'f [u8] },
    Data { at: usize, tag: u32, bytes: &'f [u8] },
}

/// A group in a frame.
#[derive(Clone, Copy, Debug)]
pub(crate) struct GroupPart<'d> {
    pub tag: u32,
    pub block: Block<'d>,
    /// Where its head begins.
    pub at: usize,
    /// How many bytes each entry has.
    pub entry: usize,
    pub count: u8,
}

impl GroupPart<'_> {
    /// Where an entry begins, or the group ends.
    pub fn entry_at(&self, index: usize) -> usize {
        self.at + GROUP_HEAD + self.entry * index
    }

    pub fn end(&self) -> usize {
        self.entry_at(usize::from(self.count))
    }
}

/// A data in a frame.
#[derive(Clone, Copy, Debug)]
pub(crate) struct DataPart {
    pub data: Data,
    /// Where its length byte stands.
    pub at: usize,
    pub length: usize,
}

impl DataPart {
    pub fn content(&self) -> usize {
        self.at + 1
    }

    pub fn end(&self) -> usize {
        self.content() + self.length
    }
}

impl<'d, 'f> Frame<'d, 'f> {
    /// Accepts bytes as a frame under a dictionary, or gives the first refusal.
    pub fn accept(dictionary: Dictionary<'d>, bytes: &'f [u8]) -> Result<Self> {
        if !(SHORTEST..=LONGEST).contains(&bytes.len()) || usize::from(number(bytes, 0)) != bytes.len() {
            return Err(Reason::FrameSize.at(0, 0));
        }
        if bytes[2..4] != ENCODING {
            return Err(Reason::Encoding.at(2, 0));
        }
        if number(bytes, 8) != dictionary.schema_id() {
            return Err(Reason::SchemaId.at(8, 0));
        }
        let version = number(bytes, 10);
        let template = dictionary.find(number(bytes, 6), version).ok_or(Reason::UnknownTemplate.at(6, 0))?;
        template.check_geometry(dictionary.version())?;
        let frame = Frame { template, bytes, version, newer: version > dictionary.version() };
        frame.judge(Required::Present)?;
        Ok(frame)
    }

    /// The frame that a form of this template and version has in its buffer, a template whose types and geometry are
    /// in order and a version up to the dictionary's; none if the bytes are no such frame, required fields aside.
    pub(crate) fn of_form(
        dictionary: Dictionary<'d>,
        template: Template<'d>,
        version: u16,
        bytes: &'f [u8],
    ) -> Option<Self> {
        let is_head = (SHORTEST..=LONGEST).contains(&bytes.len())
            && usize::from(number(bytes, 0)) == bytes.len()
            && bytes[2..4] == ENCODING
            && number(bytes, 6) == template.number
            && number(bytes, 8) == dictionary.schema_id()
            && number(bytes, 10) == version;
        if !is_head {
            return None;
        }
        let frame = Frame { template, bytes, version, newer: false };
        frame.judge(Required::MayBeAbsent).ok()?;
        Some(frame)
    }

    pub fn template(&self) -> Template<'d> {
        self.template
    }

    pub fn version(&self) -> u16 {
        self.version
    }

    pub fn bytes(&self) -> &'f [u8] {
        self.bytes
    }

    /// The refusals 14 to 20, in the order of the bytes.
    pub(crate) fn judge(&self, required: Required) -> Result<()> {
        let bytes = self.bytes;
        let root = self.template.root();
        let length = root.length_at(self.version);
        let stated = usize::from(number(bytes, 4));
        if !self.is_length(stated, length) {
            return Err(Reason::BlockLength.at(4, 0));
        }
        let mut at = HEAD;
        if stated > bytes.len() - at {
            return Err(Reason::PastEnd.at(at, 0));
        }
        self.judge_block(&root, at, length, required)?;
        at += stated;

        for (group, block) in self.template.groups() {
            let Some(&[low, high, count]) = bytes.get(at..at + GROUP_HEAD) else {
                return Err(Reason::PastEnd.at(at, group.tag));
            };
            let length = block.length_at(self.version);
            let stated = usize::from(u16::from_le_bytes([low, high]));
            if !self.is_length(stated, length) {
                return Err(Reason::BlockLength.at(at, group.tag));
            }
            if count > MOST_ENTRIES {
                return Err(Reason::TooMany.at(at + 2, group.tag));
            }
            at += GROUP_HEAD;
            for _ in 0..count {
                if stated > bytes.len() - at {
                    return Err(Reason::PastEnd.at(at, group.tag));
                }
                self.judge_block(&block, at, length, required)?;
                at += stated;
            }
        }

        for data in self.template.data_at(self.version) {
            let Some(&length) = bytes.get(at) else {
                return Err(Reason::PastEnd.at(at, data.tag));
            };
            if length > data.longest {
                return Err(Reason::TooMany.at(at, data.tag));
            }
            if usize::from(length) > bytes.len() - at - 1 {
                return Err(Reason::PastEnd.at(at, data.tag));
            }
            at += 1 + usize::from(length);
        }

        if at < bytes.len() && !self.newer {
            return Err(Reason::LeftOver.at(at, 0));
        }
        Ok(())
    }

    /// Whether a block may state this length, where it has that length at the frame's version.
    fn is_length(&self, stated: usize, length: usize) -> bool {
        stated == length || (self.newer && stated > length)
    }

    /// The refusals 15 to 17 in a block that begins at a place and has a length at the frame's version.
    #[inline]
    fn judge_block(&self, block: &Block<'d>, start: usize, length: usize, required: Required) -> Result<()> {
        let bytes = &self.bytes[start..start + length];
        let mut end = 0;
        for field in block.fields_at(self.version) {
            let offset = usize::from(field.offset);
            judge_padding(bytes, start, end, offset)?;
            let kind = field.kind()?;
            end = offset + kind.width();
            match kind.read(&bytes[offset..end]) {
                Err(_) => return Err(Reason::NoPattern.at(start + offset, field.tag)),
                Ok(Meaning::Absent) if field.is_required() && required == Required::Present => {
                    return Err(Reason::RequiredAbsent.at(start + offset, field.tag));
                }
                Ok(_) => {}
            }
        }
        judge_padding(bytes, start, end, length)
    }

    /// What the frame has at a group (0 for the root), an entry and a tag.
    pub fn read(&self, group: u32, entry: usize, tag: u32) -> Result<Found<'f>> {
        let (start, block) = self.block(group, entry)?;
        if let Some(field) = block.fields().find(|field| field.tag == tag) {
            if field.since > self.version {
                return Ok(Found { what: What::Absent, at: 0, bytes: &[] });
            }
            let kind = field.kind()?;
            let at = start + usize::from(field.offset);
            let bytes = &self.bytes[at..at + kind.width()];
            let what = match kind.read(bytes).map_err(|_| Reason::NoPattern.at(at, tag))? {
                Meaning::Absent => What::Absent,
                Meaning::Value(value) => What::Value(value),
            };
            return Ok(Found { what, at, bytes });
        }
        let not_found = Reason::NotFound.at(0, tag);
        if group != 0 {
            return Err(not_found);
        }
        if let Some(part) = self.data().find(|part| part.data.tag == tag) {
            let at = part.content();
            return Ok(Found { what: What::Data, at, bytes: &self.bytes[at..part.end()] });
        }
        if self.template.data().any(|data| data.tag == tag) {
            return Ok(Found { what: What::Data, at: 0, bytes: &[] });
        }
        Err(not_found)
    }

    /// Hands out what is in the bytes, one item after the other.
    pub fn walk(&self, mut to: impl FnMut(Item<'d, 'f>)) {
        for (at, field, bytes) in self.fields(HEAD, self.template.root()) {
            to(Item::Root { at, field, bytes });
        }
        for part in self.groups() {
            to(Item::Group { at: part.at, tag: part.tag, count: part.count });
            for entry in 0..usize::from(part.count) {
                for (at, field, bytes) in self.fields(part.entry_at(entry), part.block) {
                    to(Item::Entry { at, field, bytes });
                }
            }
        }
        for part in self.data() {
            let at = part.content();
            to(Item::Data { at, tag: part.data.tag, bytes: &self.bytes[at..part.end()] });
        }
    }

    /// The fields of a block that begins at a place, each with its place and its bytes.
    fn fields(&self, start: usize, block: Block<'d>) -> impl Iterator<Item = (usize, Field<'d>, &'f [u8])> {
        let bytes = self.bytes;
        block.fields_at(self.version).map(move |field| {
            let at = start + usize::from(field.offset);
            let width = field.kind().map_or(0, |kind| kind.width());
            (at, field, &bytes[at..at + width])
        })
    }

    /// The block of an entry of a group, or of the root, and where it begins.
    fn block(&self, group: u32, entry: usize) -> Result<(usize, Block<'d>)> {
        let not_found = Reason::NotFound.at(0, group);
        if group == 0 {
            return if entry == 0 { Ok((HEAD, self.template.root())) } else { Err(not_found) };
        }
        let part = self.group(group).ok_or(not_found)?;
        if entry >= usize::from(part.count) {
            return Err(not_found);
        }
        Ok((part.entry_at(entry), part.block))
    }

    /// A field that is seen at the frame's version, and where its bytes begin.
    pub(crate) fn field(&self, group: u32, entry: usize, tag: u32) -> Result<(usize, Field<'d>)> {
        let (start, block) = self.block(group, entry)?;
        let field = block.fields_at(self.version).find(|field| field.tag == tag);
        let field = field.ok_or(Reason::NotFound.at(0, tag))?;
        Ok((start + usize::from(field.offset), field))
    }

    fn root_end(&self) -> usize {
        HEAD + usize::from(number(self.bytes, 4))
    }

    pub(crate) fn group(&self, tag: u32) -> Option<GroupPart<'d>> {
        self.groups().find(|part| part.tag == tag)
    }

    #[inline]
    pub(crate) fn groups(&self) -> impl Iterator<Item = GroupPart<'d>> + use<'d, 'f> {
        let bytes = self.bytes;
        let mut at = self.root_end();
        self.template.groups().map(move |(group, block)| {
            let entry = usize::from(number(bytes, at));
            let part = GroupPart { tag: group.tag, block, at, entry, count: bytes[at + 2] };
            at = part.end();
            part
        })
    }

    #[inline]
    pub(crate) fn data(&self) -> impl Iterator<Item = DataPart> + use<'d, 'f> {
        let bytes = self.bytes;
        let mut at = self.groups().last().map_or(self.root_end(), |part| part.end());
        self.template.data_at(self.version).map(move |data| {
            let part = DataPart { data, at, length: usize::from(bytes[at]) };
            at = part.end();
            part
        })
    }
}

/// Refuses the first byte of a stretch of a block that is not zero.
#[inline]
fn judge_padding(block: &[u8], start: usize, from: usize, to: usize) -> Result<()> {
    match block[from..to].iter().position(|&byte| byte != 0) {
        Some(place) => Err(Reason::Padding.at(start + from + place, 0)),
        None => Ok(()),
    }
}
