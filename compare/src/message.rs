//! Messages as plain lists, and their frames written out from nothing: what a form's buffer is held to.

use crate::calls::Call;
use crate::dictionary::{Block, Dictionary, Template};

/// The pattern of each field of a block.
type Patterns = Vec<Vec<u8>>;

/// A message, by the lines of its template that are seen at its version.
#[derive(Clone, Debug)]
pub struct Message<'d> {
    template: Template<'d>,
    schema_id: u16,
    version: u16,
    root: Patterns,
    groups: Vec<Vec<Patterns>>,
    data: Vec<Vec<u8>>,
}

fn blank(block: &Block<'_>, version: u16) -> Patterns {
    block.fields_at(version).map(|field| field.kind().expect("known").blank().to_vec()).collect()
}

impl<'d> Message<'d> {
    /// A new message under a dictionary that passes the check.
    pub fn new(dictionary: Dictionary<'d>, number: u16, version: u16) -> Self {
        let template = dictionary.find(number, version).expect("the template is there");
        Message {
            template,
            schema_id: dictionary.schema_id(),
            version,
            root: blank(&template.root(), version),
            groups: vec![Vec::new(); template.groups().count()],
            data: vec![Vec::new(); template.data_at(version).count()],
        }
    }

    fn group(&self, tag: u32) -> (usize, Block<'d>) {
        let found = self.template.groups().enumerate().find(|(_, (group, _))| group.tag == tag);
        found.map(|(index, (_, block))| (index, block)).expect("the group is there")
    }

    /// Does to the message what a call does that is taken.
    pub fn call(&mut self, call: &Call<'_>) {
        match *call {
            Call::Set { group, entry, tag, .. } | Call::Clear { group, entry, tag } => {
                let (patterns, block) = match group {
                    0 => (&mut self.root, self.template.root()),
                    _ => {
                        let (index, block) = self.group(group);
                        (&mut self.groups[index][entry as usize], block)
                    }
                };
                let found = block.fields_at(self.version).enumerate().find(|(_, field)| field.tag == tag);
                let (index, field) = found.expect("the field is there");
                let kind = field.kind().expect("known");
                patterns[index] = match call {
                    Call::Set { value, .. } => kind.write(value).expect("a value of the type").to_vec(),
                    _ => kind.blank().to_vec(),
                };
            }
            Call::Append { group } => {
                let (index, block) = self.group(group);
                self.groups[index].push(blank(&block, self.version));
            }
            Call::Drop { group } => {
                let (index, _) = self.group(group);
                self.groups[index].pop().expect("an entry is there");
            }
            Call::Write { tag, bytes } => {
                let index = self.template.data_at(self.version).position(|data| data.tag == tag);
                self.data[index.expect("the data is there")] = bytes.to_vec();
            }
            Call::Open { .. } | Call::Close | Call::Reopen | Call::Poke { .. } => {}
        }
    }

    /// The bytes of the message's frame.
    pub fn frame(&self) -> Vec<u8> {
        let mut bytes = vec![0, 0, 0x50, 0xEB];
        bytes.extend((self.template.root().length_at(self.version) as u16).to_le_bytes());
        bytes.extend(self.template.number.to_le_bytes());
        bytes.extend(self.schema_id.to_le_bytes());
        bytes.extend(self.version.to_le_bytes());
        self.put(&mut bytes, &self.template.root(), &self.root);
        for ((_, block), entries) in self.template.groups().zip(&self.groups) {
            bytes.extend((block.length_at(self.version) as u16).to_le_bytes());
            bytes.push(entries.len() as u8);
            for entry in entries {
                self.put(&mut bytes, &block, entry);
            }
        }
        for data in &self.data {
            bytes.push(data.len() as u8);
            bytes.extend(data);
        }
        let length = (bytes.len() as u16).to_le_bytes();
        bytes[..2].copy_from_slice(&length);
        bytes
    }

    fn put(&self, bytes: &mut Vec<u8>, block: &Block<'_>, patterns: &Patterns) {
        let start = bytes.len();
        for (field, pattern) in block.fields_at(self.version).zip(patterns) {
            bytes.resize(start + usize::from(field.offset), 0);
            bytes.extend(pattern);
        }
        bytes.resize(start + block.length_at(self.version), 0);
    }
}
