//! Dictionaries: their lines, their check, and the finding of a template.

use crate::refusal::{Reason, Result};
use crate::types::Type;

/// The shortest and the longest dictionary.
pub const SHORTEST: usize = 7;
pub const LONGEST: usize = 32_000;

/// The longest block, the root's or an entry's.
pub const LONGEST_BLOCK: u16 = 16_372;

const MOST_FIELDS: usize = 64;
const MOST_GROUPS: usize = 8;
const MOST_DATA: usize = 8;

/// A line of sort 1.
#[derive(Clone, Copy, Debug, PartialEq, Eq)]
pub struct Field<'a> {
    pub tag: u32,
    pub offset: u16,
    pub since: u16,
    pub number: u8,
    pub presence: u8,
    pub argument: &'a [u8],
}

impl<'a> Field<'a> {
    #[inline]
    pub fn kind(&self) -> Result<Type<'a>> {
        Type::new(self.number, self.argument)
    }

    pub fn is_required(&self) -> bool {
        self.presence == 1
    }
}

/// A line of sort 2.
#[derive(Clone, Copy, Debug, PartialEq, Eq)]
pub struct Group {
    pub tag: u32,
    pub length: u16,
}

/// A line of sort 4.
#[derive(Clone, Copy, Debug, PartialEq, Eq)]
pub struct Data {
    pub tag: u32,
    pub since: u16,
    pub longest: u8,
}

/// A line of a template.
#[derive(Clone, Copy, Debug, PartialEq, Eq)]
pub enum Line<'a> {
    Field(Field<'a>),
    Group(Group),
    End,
    Data(Data),
}

impl<'a> Line<'a> {
    /// The line that begins these bytes, and its length; none if no line does.
    #[inline]
    fn first(bytes: &'a [u8]) -> Option<(Self, usize)> {
        let &[length, sort, ..] = bytes else { return None };
        let length = usize::from(length);
        let line = match (sort, bytes.get(2..length)?) {
            (1, &[a, b, c, d, e, f, g, h, number, presence, ref argument @ ..]) => Line::Field(Field {
                tag: u32::from_be_bytes([a, b, c, d]),
                offset: u16::from_be_bytes([e, f]),
                since: u16::from_be_bytes([g, h]),
                number,
                presence,
                argument,
            }),
            (2, &[a, b, c, d, e, f]) => {
                Line::Group(Group { tag: u32::from_be_bytes([a, b, c, d]), length: u16::from_be_bytes([e, f]) })
            }
            (3, []) => Line::End,
            (4, &[a, b, c, d, e, f, longest]) => {
                Line::Data(Data { tag: u32::from_be_bytes([a, b, c, d]), since: u16::from_be_bytes([e, f]), longest })
            }
            _ => return None,
        };
        Some((line, length))
    }
}

/// Lines one behind the other, up to the first place where none begins.
#[derive(Clone, Debug)]
pub struct Lines<'a> {
    rest: &'a [u8],
    /// Where in the dictionary the rest begins.
    place: usize,
}

impl<'a> Lines<'a> {
    /// Takes the field lines that come first, as those of a block.
    #[inline]
    fn block(&mut self, length: u16) -> Block<'a> {
        let fields = self.rest;
        while let Some((Line::Field(_), length)) = Line::first(self.rest) {
            self.rest = &self.rest[length..];
            self.place += length;
        }
        Block { length, fields: &fields[..fields.len() - self.rest.len()] }
    }
}

impl<'a> Iterator for Lines<'a> {
    /// A line and its place.
    type Item = (usize, Line<'a>);

    #[inline]
    fn next(&mut self) -> Option<Self::Item> {
        let (line, length) = Line::first(self.rest)?;
        let place = self.place;
        self.rest = &self.rest[length..];
        self.place += length;
        Some((place, line))
    }
}

/// A block: its declared length, and its fields.
#[derive(Clone, Copy, Debug, PartialEq, Eq)]
pub struct Block<'a> {
    pub length: u16,
    fields: &'a [u8],
}

impl<'a> Block<'a> {
    /// All fields, whatever their since.
    #[inline]
    pub fn fields(&self) -> impl Iterator<Item = Field<'a>> {
        let mut rest = self.fields;
        std::iter::from_fn(move || {
            let (Line::Field(field), length) = Line::first(rest)? else { return None };
            rest = &rest[length..];
            Some(field)
        })
    }

    /// The fields that are seen at a version.
    #[inline]
    pub fn fields_at(&self, version: u16) -> impl Iterator<Item = Field<'a>> {
        self.fields().take_while(move |field| field.since <= version)
    }

    /// The length at a version: up to the first newer field.
    #[inline]
    pub fn length_at(&self, version: u16) -> usize {
        let newer = self.fields().find(|field| field.since > version);
        usize::from(newer.map_or(self.length, |field| field.offset))
    }
}

/// A template: its head, and its lines.
#[derive(Clone, Copy, Debug)]
pub struct Template<'a> {
    /// Where in the dictionary it begins.
    pub place: usize,
    pub number: u16,
    pub since: u16,
    /// The declared length of the root block.
    pub root_length: u16,
    lines: &'a [u8],
}

const TEMPLATE_HEAD: usize = 8;

impl<'a> Template<'a> {
    /// The template that begins these bytes; none if no template does.
    #[inline]
    fn first(bytes: &'a [u8], place: usize) -> Option<Self> {
        let &[a, b, c, d, e, f, g, h, ..] = bytes else { return None };
        let length = usize::from(u16::from_be_bytes([a, b]));
        Some(Template {
            place,
            number: u16::from_be_bytes([c, d]),
            since: u16::from_be_bytes([e, f]),
            root_length: u16::from_be_bytes([g, h]),
            lines: bytes.get(TEMPLATE_HEAD..length)?,
        })
    }

    /// Where in the dictionary it ends.
    fn end(&self) -> usize {
        self.place + TEMPLATE_HEAD + self.lines.len()
    }

    pub fn lines(&self) -> Lines<'a> {
        Lines { rest: self.lines, place: self.place + TEMPLATE_HEAD }
    }

    /// The root block.
    pub fn root(&self) -> Block<'a> {
        self.lines().block(self.root_length)
    }

    /// The groups, each with its block.
    #[inline]
    pub fn groups(&self) -> impl Iterator<Item = (Group, Block<'a>)> {
        let mut lines = self.lines();
        std::iter::from_fn(move || loop {
            if let (_, Line::Group(group)) = lines.next()? {
                return Some((group, lines.block(group.length)));
            }
        })
    }

    /// The data that are seen at a version.
    #[inline]
    pub fn data_at(&self, version: u16) -> impl Iterator<Item = Data> + 'a {
        self.data().take_while(move |data| data.since <= version)
    }

    /// All data, whatever their since.
    #[inline]
    pub fn data(&self) -> impl Iterator<Item = Data> + 'a {
        self.lines().filter_map(|(_, line)| match line {
            Line::Data(data) => Some(data),
            _ => None,
        })
    }

    /// Shape and names of the lines: 3 and 4.
    fn check_shape(&self) -> Result<()> {
        let mut stand = Stand::Root;
        let mut shared = Tags::new();
        let mut own = Tags::new();
        let (mut root_fields, mut group_fields, mut groups, mut data) = (0, 0, 0, 0);
        let mut lines = self.lines();
        while !lines.rest.is_empty() {
            let shape = Reason::LineShape.at(lines.place, 0);
            let (place, line) = lines.next().ok_or(shape)?;
            let named = match (line, stand) {
                (Line::Field(field), Stand::Root) => {
                    root_fields += 1;
                    root_fields <= MOST_FIELDS && shared.add(field.tag)
                }
                (Line::Field(field), Stand::InGroup(_)) => {
                    group_fields += 1;
                    group_fields <= MOST_FIELDS && own.add(field.tag)
                }
                (Line::Group(group), Stand::Root | Stand::BehindGroup) => {
                    stand = Stand::InGroup(place);
                    own.clear();
                    group_fields = 0;
                    groups += 1;
                    groups <= MOST_GROUPS && shared.add(group.tag)
                }
                (Line::End, Stand::InGroup(_)) => {
                    stand = Stand::BehindGroup;
                    true
                }
                (Line::Data(line), Stand::Root | Stand::BehindGroup | Stand::BehindData) => {
                    stand = Stand::BehindData;
                    data += 1;
                    data <= MOST_DATA && shared.add(line.tag)
                }
                _ => return Err(shape),
            };
            if !named {
                return Err(Reason::LineName.at(place, 0));
            }
        }
        match stand {
            Stand::InGroup(group) => Err(Reason::LineShape.at(group, 0)),
            _ => Ok(()),
        }
    }

    /// Types and geometry of the head and all lines, under a schema version: 5 and 6.
    pub fn check_geometry(&self, version: u16) -> Result<()> {
        if self.since > version || self.root_length > LONGEST_BLOCK {
            return Err(Reason::LineGeometry.at(self.place, 0));
        }
        let mut block = usize::from(self.root_length);
        let (mut end, mut since) = (0, 0);
        let mut data_since = 0;
        for (place, line) in self.lines() {
            match line {
                Line::Field(field) => {
                    let unknown = Reason::UnknownType.at(place, field.tag);
                    let width = field.kind().map_err(|_| unknown)?.width();
                    if field.presence > 1 {
                        return Err(unknown);
                    }
                    let offset = usize::from(field.offset);
                    if offset < end || offset + width > block || field.since < since || field.since > version {
                        return Err(Reason::LineGeometry.at(place, field.tag));
                    }
                    (end, since) = (offset + width, field.since);
                }
                Line::Group(group) => {
                    if group.length > LONGEST_BLOCK {
                        return Err(Reason::LineGeometry.at(place, group.tag));
                    }
                    block = usize::from(group.length);
                    (end, since) = (0, 0);
                }
                Line::End => {}
                Line::Data(data) => {
                    if !(1..=254).contains(&data.longest) {
                        return Err(Reason::UnknownType.at(place, data.tag));
                    }
                    if data.since < data_since || data.since > version {
                        return Err(Reason::LineGeometry.at(place, data.tag));
                    }
                    data_since = data.since;
                }
            }
        }
        Ok(())
    }
}

/// Where the next line stands; inside a group, with the place of the group's line.
#[derive(Clone, Copy)]
enum Stand {
    Root,
    InGroup(usize),
    BehindGroup,
    BehindData,
}

/// A set of tags.
struct Tags {
    tags: [u32; MOST_FIELDS + MOST_GROUPS + MOST_DATA],
    count: usize,
}

impl Tags {
    fn new() -> Self {
        Tags { tags: [0; MOST_FIELDS + MOST_GROUPS + MOST_DATA], count: 0 }
    }

    fn clear(&mut self) {
        self.count = 0;
    }

    /// Adds a tag; false if it is 0 or already there.
    fn add(&mut self, tag: u32) -> bool {
        if tag == 0 || self.tags[..self.count].contains(&tag) {
            return false;
        }
        self.tags[self.count] = tag;
        self.count += 1;
        true
    }
}

/// The bytes of a dictionary, checked or not.
#[derive(Clone, Copy, Debug)]
pub struct Dictionary<'a> {
    bytes: &'a [u8],
}

impl<'a> Dictionary<'a> {
    /// Bytes that need not have passed the check.
    pub fn unchecked(bytes: &'a [u8]) -> Self {
        Dictionary { bytes }
    }

    /// The check: the first refusal, or the dictionary.
    pub fn check(bytes: &'a [u8]) -> Result<Self> {
        let dictionary = Self::check_shape(bytes)?;
        let version = dictionary.version();
        for template in dictionary.templates() {
            template.check_geometry(version)?;
        }
        Ok(dictionary)
    }

    /// The check up to the end of its first round: 1 to 4.
    pub fn check_shape(bytes: &'a [u8]) -> Result<Self> {
        let dictionary = Dictionary { bytes };
        if !(SHORTEST..=LONGEST).contains(&bytes.len()) || usize::from(dictionary.number(1)) != bytes.len() {
            return Err(Reason::DictionarySize.at(0, 0));
        }
        if bytes[0] != 1 {
            return Err(Reason::Layout.at(0, 0));
        }
        let mut place = SHORTEST;
        let mut above = None;
        while place < bytes.len() {
            let template = Template::first(&bytes[place..], place).ok_or(Reason::LineShape.at(place, 0))?;
            if above.is_some_and(|above| template.number <= above) {
                return Err(Reason::LineName.at(place, 0));
            }
            template.check_shape()?;
            above = Some(template.number);
            place = template.end();
        }
        Ok(dictionary)
    }

    pub fn bytes(&self) -> &'a [u8] {
        self.bytes
    }

    pub fn schema_id(&self) -> u16 {
        self.number(3)
    }

    /// The schema version.
    pub fn version(&self) -> u16 {
        self.number(5)
    }

    /// The number of two bytes at a place, made of those bytes that are there.
    fn number(&self, place: usize) -> u16 {
        match *self.bytes.get(place..).unwrap_or(&[]) {
            [high, low, ..] => u16::from_be_bytes([high, low]),
            [only] => u16::from(only),
            [] => 0,
        }
    }

    pub fn templates(&self) -> impl Iterator<Item = Template<'a>> {
        let bytes = self.bytes;
        let mut place = SHORTEST;
        std::iter::from_fn(move || {
            let template = Template::first(bytes.get(place..)?, place)?;
            place = template.end();
            Some(template)
        })
    }

    /// The first template of this number with since at most the version.
    pub fn find(&self, number: u16, version: u16) -> Option<Template<'a>> {
        self.templates().find(|template| template.number == number && template.since <= version)
    }
}
