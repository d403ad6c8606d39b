//! The inputs of the comparison, from seeds: dictionaries, frames, streams and lists of calls.
//!
//! Everything begins valid by construction, and is then damaged now and then, so that refusals of each kind come at
//! each kind of place.

use crate::calls::{Answer, Call, Desk};
use crate::dictionary::{Block, Dictionary, Field, Template};
use crate::form::Open;
use crate::random::Random;
use crate::types::{Meaning, Type, Value, WIDEST};

/// Numbers of two bytes at which something changes.
const EDGES: [u16; 12] = [0, 1, 2, 7, 8, 255, 256, 16_371, 16_372, 16_373, 16_384, 65_535];

/// A template as its head behind the length, and its lines.
#[derive(Clone, Debug)]
pub struct Lines {
    head: [u8; 6],
    lines: Vec<Vec<u8>>,
}

/// A dictionary as its head behind the length, and its templates.
#[derive(Clone, Debug)]
pub struct Parts {
    head: [u8; 4],
    templates: Vec<Lines>,
}

impl Parts {
    /// The parts of a dictionary that passes the check.
    pub fn of(bytes: &[u8]) -> Self {
        let number = |at: usize| usize::from(u16::from_be_bytes([bytes[at], bytes[at + 1]]));
        let mut templates = Vec::new();
        let mut at = 7;
        while at < bytes.len() {
            let end = at + number(at);
            let head = bytes[at + 2..at + 8].try_into().expect("six bytes");
            let mut lines = Vec::new();
            at += 8;
            while at < end {
                let length = usize::from(bytes[at]);
                lines.push(bytes[at..at + length].to_vec());
                at += length;
            }
            templates.push(Lines { head, lines });
        }
        Parts { head: bytes[3..7].try_into().expect("four bytes"), templates }
    }

    /// The bytes, with the lengths of the dictionary and its templates as they come out.
    pub fn bytes(&self) -> Vec<u8> {
        let mut bytes = vec![1, 0, 0];
        bytes.extend(self.head);
        for template in &self.templates {
            let length = 8 + template.lines.iter().map(Vec::len).sum::<usize>();
            bytes.extend((length as u16).to_be_bytes());
            bytes.extend(template.head);
            template.lines.iter().for_each(|line| bytes.extend(line));
        }
        fix_dictionary_length(&mut bytes);
        bytes
    }
}

fn fix_dictionary_length(bytes: &mut [u8]) {
    let length = (bytes.len() as u16).to_be_bytes();
    if let Some(place) = bytes.get_mut(1..3) {
        place.copy_from_slice(&length);
    }
}

/// A dictionary that passes the check.
pub fn dictionary(random: &mut Random) -> Parts {
    let version = match random.below(8) {
        0 => 0,
        1 => 65_535,
        2 => random.below(1000) as u16,
        _ => random.within(1, 9) as u16,
    };
    let id = if random.once_in(8) { random.next() as u16 } else { random.below(4) as u16 };
    let mut head = [0; 4];
    head[..2].copy_from_slice(&id.to_be_bytes());
    head[2..].copy_from_slice(&version.to_be_bytes());
    let count = random.one(&[0, 1, 1, 1, 1, 2, 2, 3, 4, 6]);
    let mut number = if random.once_in(4) { 0 } else { random.below(9) as u16 };
    let mut templates = Vec::new();
    // The size of all may come close to the limit, but not over it.
    let mut room = 31_900;
    for _ in 0..count {
        let template = template(random, number, version);
        let length = 8 + template.lines.iter().map(Vec::len).sum::<usize>();
        if length > room {
            break;
        }
        room -= length;
        templates.push(template);
        number += if random.once_in(8) { random.within(1, 9000) as u16 } else { random.within(1, 3) as u16 };
    }
    Parts { head, templates }
}

fn template(random: &mut Random, number: u16, version: u16) -> Lines {
    let since = since_from(random, 0, version);
    let mut tags = Vec::new();
    let mut lines = Vec::new();
    let many = random.once_in(400);
    let root = block(random, version, &mut tags, &mut lines, many);
    let mut head = [0; 6];
    head[..2].copy_from_slice(&number.to_be_bytes());
    head[2..4].copy_from_slice(&since.to_be_bytes());
    head[4..].copy_from_slice(&root.to_be_bytes());

    let groups = if random.once_in(50) { 8 } else { random.one(&[0, 0, 1, 1, 2, 3]) };
    for _ in 0..groups {
        let tag = new_tag(random, &mut tags);
        let at = lines.len();
        lines.push(vec![8, 2]);
        let many = random.once_in(800);
        let length = block(random, version, &mut Vec::new(), &mut lines, many);
        lines[at].extend(tag.to_be_bytes());
        lines[at].extend(length.to_be_bytes());
        lines.push(vec![2, 3]);
    }

    let data = if random.once_in(50) { 8 } else { random.one(&[0, 0, 1, 1, 2, 3]) };
    let mut since = 0;
    for _ in 0..data {
        since = since_from(random, since, version);
        let mut line = vec![9, 4];
        line.extend(new_tag(random, &mut tags).to_be_bytes());
        line.extend(since.to_be_bytes());
        line.push(match random.below(4) {
            0 => 254,
            1 => 1,
            _ => random.within(1, 254) as u8,
        });
        lines.push(line);
    }
    Lines { head, lines }
}

/// The lines of the fields of a block; answers the block's length.
fn block(random: &mut Random, version: u16, tags: &mut Vec<u32>, lines: &mut Vec<Vec<u8>>, many: bool) -> u16 {
    let count = if many { 64 } else { random.one(&[0, 1, 1, 2, 2, 3, 4, 5, 8]) };
    let mut end = 0;
    let mut since = 0;
    for _ in 0..count {
        end += gap(random);
        since = since_from(random, since, version);
        let (number, argument) = known_type(random);
        let width = Type::new(number, &argument).expect("known").width();
        let mut line = vec![12 + argument.len() as u8, 1];
        line.extend(new_tag(random, tags).to_be_bytes());
        line.extend((end as u16).to_be_bytes());
        line.extend(since.to_be_bytes());
        line.extend([number, u8::from(random.once_in(3))]);
        line.extend(argument);
        lines.push(line);
        end += width;
    }
    end += gap(random);
    (if random.once_in(300) { random.within(end, 16_372) } else { end }) as u16
}

fn gap(random: &mut Random) -> usize {
    match random.below(60) {
        0 => random.below(60),
        1..=12 => random.within(1, 3),
        _ => 0,
    }
}

fn since_from(random: &mut Random, from: u16, to: u16) -> u16 {
    match random.below(6) {
        0 => random.within(usize::from(from), usize::from(to)) as u16,
        1 => from.saturating_add(1).min(to),
        _ => from,
    }
}

fn new_tag(random: &mut Random, tags: &mut Vec<u32>) -> u32 {
    loop {
        let tag = match random.below(12) {
            0 => random.next() as u32,
            1 => u32::MAX - random.below(3) as u32,
            2 => 0x0100_0000 << random.below(8),
            _ => random.within(1, 120) as u32,
        };
        if tag != 0 && !tags.contains(&tag) {
            tags.push(tag);
            return tag;
        }
    }
}

/// A type that is known, with its argument.
fn known_type(random: &mut Random) -> (u8, Vec<u8>) {
    let number = random.one(&[1, 2, 3, 4, 5, 6, 7, 7, 8, 65, 65, 66]);
    let argument = match number {
        1..=4 => vec![random.below(3) as u8],
        5..=6 => vec![random.below(4) as u8],
        7 => {
            let count = if random.once_in(10) { 32 } else { random.within(1, 5) };
            let mut codes: Vec<u8> = match random.below(3) {
                0 => (0..count as u8).collect(),
                1 => (0..count as u8).map(|code| b'1' + code).collect(),
                _ => (0..count).map(|_| random.byte()).collect(),
            };
            codes.sort_unstable();
            codes.dedup();
            codes
        }
        8 => vec![random.below(4) as u8, random.below(10) as u8],
        65 => vec![random.within(1, 20) as u8],
        _ => vec![],
    };
    (number, argument)
}

/// A type and argument that may be unknown.
fn any_type(random: &mut Random) -> (u8, Vec<u8>) {
    let (mut number, mut argument) = known_type(random);
    match random.below(6) {
        0 => number = random.below(70) as u8,
        1 => argument.push(random.below(12) as u8),
        2 => drop(argument.pop()),
        3 => argument = (0..random.one(&[0, 1, 2, 3, 32, 33, 243])).map(|code| code as u8).collect(),
        4 => {
            if !argument.is_empty() {
                let place = random.below(argument.len());
                argument[place] = random.one(&[0, 2, 3, 4, 9, 10, 20, 21, 255]);
            }
        }
        _ => argument.reverse(),
    }
    (number, argument)
}

/// Breaks, or at least alters, one thing in the parts of a dictionary.
pub fn spoil(random: &mut Random, parts: &mut Parts) {
    let version = u16::from_be_bytes([parts.head[2], parts.head[3]]);
    let version_edge = |random: &mut Random| {
        let edge = random.one(&[0, version.wrapping_sub(1), version, version.wrapping_add(1), 65_535]);
        edge.to_be_bytes()
    };
    if parts.templates.is_empty() || random.once_in(20) {
        parts.head[random.below(4)] = random.one(&[0, 1, 3, 255]);
        return;
    }
    let count = parts.templates.len();
    let chosen = random.below(count);
    if random.once_in(12) {
        // Templates that stand in another order, or twice.
        let other = random.below(count);
        if random.once_in(2) {
            parts.templates.swap(chosen, other);
        } else {
            let copy = parts.templates[chosen].clone();
            parts.templates.insert(other, copy);
        }
        return;
    }
    let template = &mut parts.templates[chosen];
    if template.lines.is_empty() || random.once_in(8) {
        match random.below(3) {
            0 => template.head[2..4].copy_from_slice(&version_edge(random)),
            1 => template.head[4..].copy_from_slice(&random.one(&EDGES).to_be_bytes()),
            _ => {
                let place = random.below(6);
                template.head[place] = template.head[place].wrapping_add(random.one(&[1, 255]));
            }
        }
        return;
    }
    let at = random.below(template.lines.len());
    let other = random.below(template.lines.len());
    let line = &template.lines[at];
    if !matches!((line.get(1), line.len()), (Some(1), 12..) | (Some(2), 8) | (Some(3), 2) | (Some(4), 9)) {
        // A line that was spoiled before.
        template.lines.swap(at, other);
        return;
    }
    match random.below(16) {
        0 if random.once_in(2) => template.lines.swap(at, other),
        0 => {
            let line = template.lines.remove(at);
            template.lines.insert(other, line);
        }
        1 => drop(template.lines.remove(at)),
        2 => {
            let copy = template.lines[at].clone();
            template.lines.insert(other, copy);
        }
        3 => {
            // A tag of another line, often one of the same sort, or none.
            let sort = template.lines[at][1];
            let alike = || template.lines.iter().enumerate().filter(|(_, line)| line.get(1) == Some(&sort));
            let other = match alike().nth(random.below(alike().count())) {
                Some((alike, _)) if random.once_in(2) => alike,
                _ => other,
            };
            let tag = template.lines[other].get(2..6).map_or([0; 4], |tag| tag.try_into().expect("four"));
            let tag = if random.once_in(5) { [0; 4] } else { tag };
            if let Some(place) = template.lines[at].get_mut(2..6) {
                place.copy_from_slice(&tag);
            }
        }
        4 => {
            // More lines than there may be: fields, groups or data, with tags that are new.
            let line = template.lines[at].clone();
            let (times, behind) = match line[1] {
                1 => (random.within(60, 66), vec![]),
                2 => (random.within(6, 9), vec![2, 3]),
                4 => (random.within(6, 9), vec![]),
                _ => (1, vec![]),
            };
            for copy in 0..times {
                let mut more = line.clone();
                if let Some(place) = more.get_mut(2..6) {
                    place.copy_from_slice(&(0x7000_0000 + copy as u32).to_be_bytes());
                }
                if !behind.is_empty() {
                    template.lines.insert(at, behind.clone());
                }
                template.lines.insert(at, more);
            }
        }
        5 | 6 if template.lines[at][1] == 1 => {
            let (number, argument) = any_type(random);
            let line = &mut template.lines[at];
            line.truncate(12);
            line[10] = number;
            line.extend(argument);
            line[0] = line.len() as u8;
        }
        7 => {
            let line = &mut template.lines[at];
            let place = random.below(line.len());
            line.insert(place, random.one(&[0, 1, 2, 8, 12]));
            if random.once_in(2) {
                line[0] = line.len() as u8;
            }
        }
        8 => {
            let line = &mut template.lines[at];
            let place = random.below(line.len());
            line.remove(place);
            if random.once_in(2) && !line.is_empty() {
                line[0] = line.len() as u8;
            }
        }
        9 => {
            // Since, of a field or a data.
            let edge = version_edge(random);
            let line = &mut template.lines[at];
            let place = if line[1] == 1 { 8 } else { 6 };
            if let Some(bytes) = line.get_mut(place..place + 2) {
                bytes.copy_from_slice(&edge);
            }
        }
        10 => {
            // Offset of a field, or length of a group's block, by a little; or the last byte of a line.
            let line = &mut template.lines[at];
            let place = if line[1] <= 2 { 7 } else { line.len() - 1 };
            line[place] = line[place].wrapping_add(random.one(&[1, 2, 255, 254]));
        }
        11 => {
            let edge = random.one(&EDGES).to_be_bytes();
            if let Some(bytes) = template.lines[at].get_mut(6..8) {
                bytes.copy_from_slice(&edge);
            }
        }
        12 => {
            // Presence of a field, or the last byte of another line: longest.
            let line = &mut template.lines[at];
            let place = if line[1] == 1 { 11 } else { line.len() - 1 };
            line[place] = random.one(&[0, 1, 2, 254, 255]);
        }
        13 => {
            let sort = random.below(6) as u8;
            template.lines[at][1] = sort;
        }
        14 => {
            let length = template.lines[at][0];
            template.lines[at][0] = random.one(&[0, 1, 2, 255, length.wrapping_add(1), length.wrapping_sub(1)]);
        }
        _ => {
            let line = &mut template.lines[at];
            let place = random.below(line.len());
            line[place] = random.byte();
        }
    }
}

/// What is seen of a dictionary that passes the check at a version up to its own, as a dictionary of that version.
pub fn seen(bytes: &[u8], version: u16) -> Parts {
    let dictionary = Dictionary::unchecked(bytes);
    let mut parts = Parts::of(bytes);
    parts.head[2..].copy_from_slice(&version.to_be_bytes());
    let mut templates = parts.templates.into_iter().zip(dictionary.templates()).collect::<Vec<_>>();
    templates.retain(|(_, template)| template.since <= version);
    for (lines, template) in &mut templates {
        lines.head[4..].copy_from_slice(&(template.root().length_at(version) as u16).to_be_bytes());
        let mut lengths = template.groups().map(|(_, block)| block.length_at(version) as u16);
        lines.lines.retain_mut(|line| match line[1] {
            1 => u16::from_be_bytes([line[8], line[9]]) <= version,
            2 => {
                line[6..8].copy_from_slice(&lengths.next().expect("a group").to_be_bytes());
                true
            }
            4 => u16::from_be_bytes([line[6], line[7]]) <= version,
            _ => true,
        });
    }
    parts.templates = templates.into_iter().map(|(lines, _)| lines).collect();
    parts
}

/// Two dictionaries, of which the first is often an earlier edition of the second, or nearly so.
pub fn editions(random: &mut Random) -> (Vec<u8>, Vec<u8>) {
    let later = dictionary(random).bytes();
    let version = Dictionary::unchecked(&later).version();
    let mut earlier = seen(&later, random.below(usize::from(version) + 1) as u16);
    if random.once_in(2) {
        spoil(random, &mut earlier);
    }
    let mut later = Parts::of(&later);
    if random.once_in(8) {
        spoil(random, &mut later);
    }
    (earlier.bytes(), later.bytes())
}

/// Damages the bytes of a dictionary at random.
pub fn damage_dictionary(random: &mut Random, bytes: &mut Vec<u8>) {
    match random.below(8) {
        0..=2 => {
            if !bytes.is_empty() {
                let place = random.below(bytes.len());
                bytes[place] = damaged(random, bytes[place]);
            }
        }
        3..=4 => {
            bytes.truncate(random.below(bytes.len() + 1));
            if random.once_in(2) {
                fix_dictionary_length(bytes);
            }
        }
        5 => {
            for _ in 0..random.within(1, 12) {
                bytes.push(random.one(&[0, 0, 1, 2, 8, 12, 255]));
            }
            if !random.once_in(4) {
                fix_dictionary_length(bytes);
            }
        }
        6 => {
            let place = random.below(bytes.len() + 1);
            bytes.insert(place, random.one(&[0, 1, 255]));
            if !random.once_in(4) {
                fix_dictionary_length(bytes);
            }
        }
        _ => {
            if !bytes.is_empty() {
                bytes.remove(random.below(bytes.len()));
            }
            if !random.once_in(4) {
                fix_dictionary_length(bytes);
            }
        }
    }
}

/// Another byte, often one close to it.
fn damaged(random: &mut Random, byte: u8) -> u8 {
    match random.below(8) {
        0 => byte.wrapping_add(1),
        1 => byte.wrapping_sub(1),
        2 => 0,
        3 => 255,
        4 => byte ^ 0x80,
        5 => byte ^ (1 << random.below(8)),
        _ => random.byte(),
    }
}

/// The bytes of a dictionary for the check: valid, spoiled or damaged; now and then one of those given.
pub fn dictionary_for_check(random: &mut Random, given: &[Vec<u8>]) -> Vec<u8> {
    let mut parts = if !given.is_empty() && random.once_in(25) {
        let bytes = &given[random.below(given.len())];
        if random.once_in(2) {
            let mut bytes = bytes.clone();
            if !random.once_in(10) {
                damage_dictionary(random, &mut bytes);
            }
            return bytes;
        }
        Parts::of(bytes)
    } else {
        dictionary(random)
    };
    let way = random.below(20);
    if way < 12 {
        for _ in 0..random.one(&[1, 1, 1, 2, 3]) {
            spoil(random, &mut parts);
        }
    }
    let mut bytes = parts.bytes();
    if (10..16).contains(&way) {
        for _ in 0..random.one(&[1, 1, 2]) {
            damage_dictionary(random, &mut bytes);
        }
    }
    if way == 16 && random.once_in(40) {
        // About as long as a dictionary may be, by a template without lines of a length of its own.
        let length = random.within(31_990, 32_010);
        while bytes.len() < length {
            bytes.extend([0, 8, 255, 255, 0, 0, 0, 0]);
        }
        bytes.truncate(length);
        fix_dictionary_length(&mut bytes);
    }
    if way == 17 && random.once_in(4) {
        bytes = vec![0; random.below(40)];
        random.fill(&mut bytes);
        fix_dictionary_length(&mut bytes);
        if let Some(layout) = bytes.first_mut() {
            *layout = 1;
        }
    }
    bytes
}

/// A frame, and the places in it at which a change is telling.
#[derive(Clone, Debug, Default)]
pub struct Made {
    pub bytes: Vec<u8>,
    pub places: Vec<usize>,
}

impl Made {
    fn fix_length(&mut self) {
        let length = (self.bytes.len() as u16).to_le_bytes();
        if let Some(place) = self.bytes.get_mut(..2) {
            place.copy_from_slice(&length);
        }
    }

    fn put(&mut self, place: usize, number: u16) {
        if let Some(bytes) = self.bytes.get_mut(place..place + 2) {
            bytes.copy_from_slice(&number.to_le_bytes());
        }
    }
}

/// The frame of a random message: accepted, but for a length over the longest. Above the dictionary's version it has
/// longer blocks and bytes behind. A lax one may lack required fields.
pub fn frame(
    random: &mut Random,
    dictionary: Dictionary<'_>,
    template: &Template<'_>,
    version: u16,
    lax: bool,
) -> Made {
    let newer = version > dictionary.version();
    let mut made = Made::default();
    let root = template.root();
    made.bytes.extend([0, 0, 0x50, 0xEB, 0, 0]);
    made.bytes.extend(template.number.to_le_bytes());
    made.bytes.extend(dictionary.schema_id().to_le_bytes());
    made.bytes.extend(version.to_le_bytes());
    let more = if newer { random.one(&[0, 0, 1, 2, 7]) } else { 0 };
    fill_block(random, &mut made, &root, version, more, lax);
    made.put(4, (made.bytes.len() - 12) as u16);
    for (_, block) in template.groups() {
        let length = block.length_at(version);
        let more = if newer { random.one(&[0, 0, 1, 2, 7]) } else { 0 };
        let most = 14_000_usize.saturating_sub(made.bytes.len()) / (length + more).max(1);
        let count = match random.below(200) {
            0 => 254.min(most),
            1..=4 => random.below(20).min(most),
            _ => random.one(&[0, 0, 1, 1, 2, 3]).min(most),
        };
        let at = made.bytes.len();
        made.places.extend([at, at + 1, at + 2, at + 2]);
        made.bytes.extend(((length + more) as u16).to_le_bytes());
        made.bytes.push(count as u8);
        for _ in 0..count {
            fill_block(random, &mut made, &block, version, more, lax);
        }
    }
    for data in template.data_at(version) {
        let length = match random.below(4) {
            0 => 0,
            1 => usize::from(data.longest),
            _ => random.below(usize::from(data.longest).min(12) + 1),
        };
        made.places.push(made.bytes.len());
        made.bytes.push(length as u8);
        (0..length).for_each(|_| made.bytes.push(random.byte()));
    }
    if newer && random.once_in(2) {
        (0..random.below(9)).for_each(|_| made.bytes.push(random.byte()));
    }
    made.fix_length();
    made
}

/// A block with a pattern for each field, and random bytes behind.
fn fill_block(random: &mut Random, made: &mut Made, block: &Block<'_>, version: u16, more: usize, lax: bool) {
    let start = made.bytes.len();
    let length = block.length_at(version);
    made.bytes.resize(start + length, 0);
    let mut end = 0;
    for field in block.fields_at(version) {
        let offset = usize::from(field.offset);
        if offset > end {
            made.places.extend([start + end, start + offset - 1]);
        }
        made.places.push(start + offset);
        let kind = field.kind().expect("known");
        end = offset + kind.width();
        let required = field.is_required() && !(lax && random.once_in(4));
        fill_field(random, required, &kind, &mut made.bytes[start + offset..start + end]);
    }
    if length > end {
        made.places.extend([start + end, start + length - 1]);
    }
    (0..more).for_each(|_| made.bytes.push(random.byte()));
}

/// A pattern of a type; not one that means absent, if the field is required.
fn fill_field(random: &mut Random, required: bool, kind: &Type<'_>, bytes: &mut [u8]) {
    loop {
        fill_pattern(random, kind, bytes);
        match kind.read(bytes).expect("a pattern") {
            Meaning::Absent if required => {}
            _ => return,
        }
    }
}

fn fill_pattern(random: &mut Random, kind: &Type<'_>, bytes: &mut [u8]) {
    let width = bytes.len();
    match *kind {
        Type::Unsigned(_) | Type::Signed(_) | Type::Decimal(..) => match random.below(8) {
            0 => bytes.fill(0),
            1 => bytes.fill(0xFF),
            2 => {
                bytes.fill(0);
                bytes[width - 1] = 0x80;
            }
            3 => {
                bytes.fill(0xFF);
                bytes[width - 1] = random.one(&[0x7F, 0x80, 0xFE]);
            }
            4 => {
                bytes.fill(0);
                bytes[0] = random.byte();
            }
            _ => random.fill(bytes),
        },
        Type::Code(codes) => bytes[0] = if random.once_in(4) { 0 } else { random.one(codes) },
        Type::Text(_) => {
            bytes.fill(0);
            let length = random.one(&[0, 1, width, random.clone().below(width + 1)]);
            for byte in &mut bytes[..length] {
                *byte = random.one(&[0x20, 0x7E, b'A', b'0' + random.clone().below(10) as u8]);
            }
        }
        Type::Investor => {
            bytes.fill(0);
            if random.once_in(2) {
                random.fill(&mut bytes[..2]);
            }
            if random.once_in(2) {
                random.fill(&mut bytes[4..]);
            }
        }
    }
}

/// Damages a frame.
pub fn damage_frame(random: &mut Random, made: &mut Made) {
    let length = made.bytes.len();
    match random.below(20) {
        // One byte, at a telling place or anywhere.
        0..=7 if !made.places.is_empty() => {
            let place = random.one(&made.places);
            if let Some(&byte) = made.bytes.get(place) {
                made.bytes[place] = damaged(random, byte);
            }
        }
        0..=9 => {
            let place = random.below(length);
            made.bytes[place] = damaged(random, made.bytes[place]);
        }
        // Cut short, at a telling place, near the end or anywhere.
        10..=13 => {
            let at = match random.below(3) {
                0 if !made.places.is_empty() => random.one(&made.places) + random.below(3),
                1 => length - random.within(1, 6).min(length),
                _ => random.below(length + 1),
            };
            made.bytes.truncate(at);
            if !random.once_in(6) {
                made.fix_length();
            }
        }
        // Bytes behind.
        14..=15 => {
            for _ in 0..random.within(1, 9) {
                made.bytes.push(random.one(&[0, 0, 1, 255]));
            }
            if !random.once_in(6) {
                made.fix_length();
            }
        }
        // A number of the head.
        16..=17 => {
            let place = random.one(&[0, 2, 4, 4, 4, 6, 8, 10, 10]);
            let now = made.bytes.get(place..place + 2).map_or(0, |two| u16::from_le_bytes([two[0], two[1]]));
            let edge = random.one(&EDGES);
            made.put(place, random.one(&[now.wrapping_add(1), now.wrapping_sub(1), edge]));
        }
        // A byte taken out or put in.
        18 => {
            let place = random.below(length);
            made.bytes.remove(place);
            made.fix_length();
        }
        _ => {
            let place = random.below(length + 1);
            made.bytes.insert(place, random.one(&[0, 1, 255]));
            made.fix_length();
        }
    }
    // About as long as a frame may be.
    if random.once_in(300) {
        made.bytes.resize(random.within(16_380, 16_388), 0);
        made.fix_length();
    }
}

/// A template of the dictionary, if it has any, and a version at which it is seen: up to the dictionary's, or above.
pub fn template_and_version<'a>(random: &mut Random, dictionary: Dictionary<'a>) -> Option<(Template<'a>, u16)> {
    let count = dictionary.templates().count();
    if count == 0 {
        return None;
    }
    let template = dictionary.templates().nth(random.below(count))?;
    let version = dictionary.version();
    let since = usize::from(template.since);
    let chosen = match random.below(8) {
        0 | 1 => version,
        2 => version.saturating_add(random.one(&[1, 1, 3, 1000])),
        3 => since as u16,
        _ => random.within(since, usize::from(version)) as u16,
    };
    Some((template, chosen))
}

/// A frame for acceptance under a dictionary that passes the check: accepted, or damaged.
pub fn frame_for_accept(random: &mut Random, dictionary: Dictionary<'_>) -> Made {
    let Some((template, version)) = template_and_version(random, dictionary) else {
        let mut made = Made { bytes: vec![0; 12], places: vec![] };
        made.put(2, 0xEB50);
        made.put(8, dictionary.schema_id());
        made.fix_length();
        return made;
    };
    let lax = random.once_in(6);
    let mut made = frame(random, dictionary, &template, version, lax);
    if !random.once_in(3) {
        for _ in 0..random.one(&[1, 1, 1, 2]) {
            if !made.bytes.is_empty() {
                damage_frame(random, &mut made);
            }
        }
    }
    made
}

/// A group, an entry and a tag to look for: mostly some that are there.
pub fn question(random: &mut Random, template: &Template<'_>) -> (u32, u64, u32) {
    let groups = template.groups().count();
    let (group, block) = match template.groups().nth(random.below(groups + 1)) {
        Some((group, block)) => (group.tag, block),
        None => (0, template.root()),
    };
    let fields = block.fields().count();
    let data = if group == 0 { template.data().count() } else { 0 };
    let mut tag = match random.below((fields + data).max(1)) {
        at if at < fields => block.fields().nth(at).map_or(0, |field| field.tag),
        at => template.data().nth(at - fields).map_or(1, |data| data.tag),
    };
    let mut entry = match (group, random.below(8)) {
        (0, _) => 0,
        (_, 0) => random.below(4) as u64,
        (_, 1) => random.one(&[253, 254, 255]),
        _ => random.below(2) as u64,
    };
    let mut asked = group;
    match random.below(16) {
        0 => tag = random.below(121) as u32,
        1 => tag = template.groups().next().map_or(0, |(group, _)| group.tag),
        2 => tag = template.data().next().map_or(0, |data| data.tag),
        3 => asked = random.below(121) as u32,
        4 => asked = tag,
        5 => entry = random.one(&[1, 254, 255, 256, 65_536, 1 << 32, u64::MAX]),
        _ => {}
    }
    (asked, entry, tag)
}

/// A stream for the cutter: frames one behind the other, of which only the first four bytes count, cut off somewhere.
pub fn stream(random: &mut Random) -> Vec<u8> {
    let mut stream = Vec::new();
    for _ in 0..random.below(4) {
        let length = match random.below(8) {
            0 => random.one(&EDGES),
            1 => random.next() as u16,
            2 => random.within(16_380, 16_388) as u16,
            _ => random.within(8, 60) as u16,
        };
        stream.extend(length.to_le_bytes());
        stream.extend([0x50, 0xEB]);
        let behind = usize::from(length).saturating_sub(4);
        let behind = if random.once_in(4) { random.below(behind + 1) } else { behind };
        (0..behind).for_each(|_| stream.push(random.byte()));
    }
    if !stream.is_empty() && random.once_in(4) {
        let place = random.below(stream.len().min(6));
        stream[place] = damaged(random, stream[place]);
    }
    if random.once_in(4) {
        stream.truncate(random.below(stream.len() + 1));
    }
    if random.once_in(8) {
        stream.truncate(random.below(6));
    }
    stream
}

/// A stream of frames under a dictionary that passes the check: accepted ones, and something else at the end.
pub fn frames(random: &mut Random, dictionary: Dictionary<'_>) -> Vec<u8> {
    let mut stream = Vec::new();
    let length = random.one(&[0, 100, 2_000, 20_000, 65_000, 70_000]);
    while stream.len() < length {
        let Some((template, version)) = template_and_version(random, dictionary) else { break };
        let made = frame(random, dictionary, &template, version, false);
        if made.bytes.len() <= 16_384 {
            stream.extend(made.bytes);
        }
    }
    match random.below(4) {
        0 => {}
        1 => stream.truncate(stream.len() - random.below(stream.len().min(20) + 1)),
        _ => stream.extend(frame_for_accept(random, dictionary).bytes),
    }
    stream
}

/// A list of calls and a buffer to run it in.
#[derive(Clone, Debug, Default)]
pub struct Job {
    pub buffer: Vec<u8>,
    pub calls: Vec<u8>,
    /// Where each call begins in the bytes of the list.
    pub starts: Vec<usize>,
}

/// A list of calls under a dictionary that passes the check: mostly taken, with refusals of each kind.
pub fn job(random: &mut Random, dictionary: Dictionary<'_>) -> Job {
    let mut job = Job::default();
    let first = template_and_version(random, dictionary);
    let blank = first.map_or(12, |(template, version)| {
        let mut scratch = [0; 16_384];
        Open::open(dictionary, &mut scratch, template.number, version).map_or(40, |open| open.length())
    });
    // Now and then a group is filled up.
    let appending = random.once_in(60);
    let size = match random.below(16) {
        _ if appending => random.one(&[1_000, 16_380, 16_384, 16_400]),
        0 => random.below(60),
        1..=3 => (blank + random.below(4)).saturating_sub(random.below(4)),
        4..=7 => blank + random.below(60),
        8 => random.within(16_380, 16_400),
        _ => blank + random.below(1500),
    };
    job.buffer.resize(size, 0);
    random.fill(&mut job.buffer);

    // The calls are tried out on the way, to know what there is to be called on.
    let mut buffer = job.buffer.clone();
    let mut desk = Desk::default();
    let mut now = None;
    let mut counts: Vec<(u32, u64)> = Vec::new();
    let poked = !appending && random.once_in(4);
    let long = match first {
        None => 3,
        Some(_) if appending => 320,
        Some(_) => random.one(&[1, 4, 12, 24, 40]),
    };
    for step in 0..long {
        let mut text = [0; 32];
        let mut bytes = [0; 300];
        let wants_open = matches!(desk, Desk::Empty) || (step > 0 && !appending && random.once_in(40));
        let call = if matches!(desk, Desk::Closed(_)) && random.once_in(2) {
            Call::Reopen
        } else if wants_open && !random.once_in(12) {
            let chosen = if step == 0 { first } else { template_and_version(random, dictionary) };
            match chosen {
                Some((template, version)) if !random.once_in(12) => Call::Open { template: template.number, version },
                _ => Call::Open { template: random.below(12) as u16, version: random.below(10) as u16 },
            }
        } else if let Some(template) = now {
            a_call(random, &template, &counts, appending, &mut text, &mut bytes)
        } else {
            random.one(&[Call::Close, Call::Reopen, Call::Append { group: 1 }, Call::Write { tag: 1, bytes: &[] }])
        };
        let call = if poked && random.once_in(6) {
            let place = random.below(buffer.len().clamp(1, 80));
            let there = buffer.get(place).copied().unwrap_or(0);
            Call::Poke { place: place as u16, byte: damaged(random, there) }
        } else {
            call
        };
        job.starts.push(job.calls.len());
        call.encode(&mut job.calls);
        if desk.call(dictionary, &mut buffer, &call) == Answer::Accepted {
            match call {
                Call::Open { template, version } => {
                    now = dictionary.find(template, version);
                    counts = now.iter().flat_map(Template::groups).map(|(group, _)| (group.tag, 0)).collect();
                }
                Call::Append { group } => counts.iter_mut().filter(|of| of.0 == group).for_each(|of| of.1 += 1),
                Call::Drop { group } => counts.iter_mut().filter(|of| of.0 == group).for_each(|of| of.1 -= 1),
                _ => {}
            }
        }
    }
    job
}

/// A call on a form of a template whose groups have so many entries.
fn a_call<'a>(
    random: &mut Random,
    template: &Template<'_>,
    counts: &[(u32, u64)],
    appending: bool,
    text: &'a mut [u8; 32],
    bytes: &'a mut [u8; 300],
) -> Call<'a> {
    let a_group = |random: &mut Random| match counts.len() {
        0 => random.below(4) as u32,
        _ if random.once_in(20) => random.below(121) as u32,
        count => counts[random.below(count)].0,
    };
    if appending && !counts.is_empty() && !random.once_in(40) {
        return Call::Append { group: counts[0].0 };
    }
    match random.below(20) {
        0..=10 => {
            let there = if random.once_in(10) { None } else { a_field(random, template, counts) };
            let (group, entry, tag) = there.unwrap_or_else(|| question(random, template));
            if random.once_in(6) {
                return Call::Clear { group, entry, tag };
            }
            let block = template.groups().find(|(line, _)| line.tag == group).map_or(template.root(), |found| found.1);
            let field = block.fields().find(|field| field.tag == tag);
            let value = value(random, field.as_ref(), text);
            Call::Set { group, entry, tag, value }
        }
        11..=13 => Call::Append { group: a_group(random) },
        14 => Call::Drop { group: a_group(random) },
        15..=17 => {
            let data = template.data().count();
            let chosen = template.data().nth(random.below(data.max(1)));
            let tag = if random.once_in(20) { random.below(121) as u32 } else { chosen.map_or(0, |data| data.tag) };
            let longest = chosen.map_or(4, |data| usize::from(data.longest));
            let length = match random.below(8) {
                0 => 0,
                1 => longest,
                2 => longest + 1,
                3 => random.below(300),
                _ => random.below(longest.min(20) + 1),
            };
            random.fill(&mut bytes[..length]);
            Call::Write { tag, bytes: &bytes[..length] }
        }
        18 => Call::Reopen,
        _ => Call::Close,
    }
}

/// Group, entry and tag of a field that is there, but for its since; none if the block chosen has no fields.
fn a_field(random: &mut Random, template: &Template<'_>, counts: &[(u32, u64)]) -> Option<(u32, u64, u32)> {
    let filled = || counts.iter().filter(|of| of.1 > 0);
    let chosen = filled().nth(random.below(filled().count() + 1));
    let (group, entry, block) = match chosen {
        Some(&(tag, count)) => {
            let (_, block) = template.groups().find(|(group, _)| group.tag == tag)?;
            (tag, random.below(count as usize) as u64, block)
        }
        None => (0, 0, template.root()),
    };
    let fields = block.fields().count();
    let field = block.fields().nth(random.below(fields.max(1)))?;
    Some((group, entry, field.tag))
}

/// A value for a field: mostly one of its type, at the edges of it or beyond.
fn value<'a>(random: &mut Random, field: Option<&Field<'_>>, text: &'a mut [u8; 32]) -> Value<'a> {
    let kind = field.and_then(|field| field.kind().ok());
    if let Some(kind) = kind {
        if !random.once_in(4) {
            let mut pattern = [0; WIDEST];
            let pattern = &mut pattern[..kind.width()];
            fill_pattern(random, &kind, pattern);
            if kind.read(pattern) != Ok(Meaning::Absent) {
                text[..pattern.len()].copy_from_slice(pattern);
                return match kind.read(&text[..pattern.len()]) {
                    Ok(Meaning::Value(value)) => value,
                    _ => Value::Unsigned(0),
                };
            }
        }
    }
    let number = match random.below(12) {
        0 => 0,
        1 => 255,
        2 => 256,
        3 => 65_535,
        4 => 65_536,
        5 => 0xFFFF_FFFF,
        6 => 0x1_0000_0000,
        7 => u64::MAX,
        8 => 0x8000_0000,
        9 => 0x7FFF_FFFF,
        10 => random.next(),
        _ => random.below(128) as u64,
    };
    let signed = match random.below(6) {
        0 => i64::MIN,
        1 => i64::from(i32::MIN) - random.below(2) as i64,
        2 => i64::from(i32::MAX) + random.below(2) as i64,
        3 => -1,
        _ => number as i64,
    };
    let sort = match kind {
        Some(Type::Unsigned(_) | Type::Code(_)) => 0,
        Some(Type::Signed(_)) => 1,
        Some(Type::Decimal(..)) => 2,
        Some(Type::Text(_)) => 3,
        Some(Type::Investor) => 4,
        None => 0,
    };
    let sort = if random.once_in(5) { random.below(5) } else { sort };
    match sort {
        0 => Value::Unsigned(number),
        1 => Value::Signed(signed),
        2 => Value::Decimal {
            mantissa: signed,
            decimals: match kind {
                Some(Type::Decimal(_, decimals)) if !random.once_in(4) => decimals,
                _ => random.one(&[0, 4, 9, 10, 255]),
            },
        },
        3 => {
            let length = random.below(23);
            for byte in &mut text[..length] {
                *byte = if random.once_in(30) { random.one(&[0, 0x1F, 0x7F, 0x80]) } else { b'A' };
            }
            Value::Text(&text[..length])
        }
        _ => Value::Investor { prefix: random.one(&[0, 1, 65_535]), document: random.one(&[0, 1, u32::MAX]) },
    }
}
