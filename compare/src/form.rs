//! Forms: messages that are being filled in, in front of a caller's buffer.
//!
//! A form is three numbers. The dictionary and the buffer are passed at each call; a refused call changes neither
//! the form nor the buffer.

use crate::dictionary::{Block, Dictionary, Template};
use crate::frame::{Frame, Required, GROUP_HEAD, HEAD, MOST_ENTRIES};
use crate::refusal::{Reason, Result};
use crate::stream::{ENCODING, LONGEST};
use crate::types::Value;

const NOT_THIS_FORM: crate::refusal::Refusal = Reason::NotThisForm.at(0, 0);

/// Which message stands in front of the buffer.
#[derive(Clone, Copy, Debug, PartialEq, Eq)]
struct Form {
    template: u16,
    version: u16,
    length: usize,
}

/// A form that can be filled in.
#[derive(Clone, Copy, Debug, PartialEq, Eq)]
pub struct Open(Form);

/// A form whose frame is complete.
#[derive(Clone, Copy, Debug, PartialEq, Eq)]
pub struct Closed(Form);

/// The template of a form, if there is such a one at a version up to the dictionary's.
fn template(dictionary: Dictionary<'_>, number: u16, version: u16) -> Option<Template<'_>> {
    if version > dictionary.version() {
        return None;
    }
    dictionary.find(number, version)
}

/// Refuses a frame that is too long for the buffer or for a frame.
fn room(needed: usize, buffer: &[u8]) -> Result<()> {
    if needed > buffer.len() || needed > LONGEST {
        return Err(Reason::NoRoom.at(needed, 0));
    }
    Ok(())
}

fn put(buffer: &mut [u8], place: usize, number: usize) {
    buffer[place..place + 2].copy_from_slice(&(number as u16).to_le_bytes());
}

/// Makes every field of a block blank.
fn put_blank(bytes: &mut [u8], block: &Block<'_>, version: u16) -> Result<()> {
    bytes.fill(0);
    for field in block.fields_at(version) {
        let blank = field.kind()?.blank();
        let offset = usize::from(field.offset);
        bytes[offset..offset + blank.len()].copy_from_slice(&blank);
    }
    Ok(())
}

impl Form {
    /// The form's frame in the buffer; refuses 25, 5 and 6.
    fn frame<'d, 'b>(&self, dictionary: Dictionary<'d>, buffer: &'b [u8]) -> Result<Frame<'d, 'b>> {
        let template = template(dictionary, self.template, self.version).ok_or(NOT_THIS_FORM)?;
        template.check_geometry(dictionary.version())?;
        let bytes = buffer.get(..self.length).ok_or(NOT_THIS_FORM)?;
        Frame::of_form(dictionary, template, self.version, bytes).ok_or(NOT_THIS_FORM)
    }

    /// Puts a stretch of `new` bytes in the place of the `old` ones at `at`, moving what is behind them in the frame.
    fn resize(&mut self, buffer: &mut [u8], at: usize, old: usize, new: usize) {
        buffer.copy_within(at + old..self.length, at + new);
        self.length = self.length - old + new;
        put(buffer, 0, self.length);
    }
}

impl Open {
    /// Opens a form of a template and a version.
    #[allow(clippy::self_named_constructors)]
    pub fn open(dictionary: Dictionary<'_>, buffer: &mut [u8], number: u16, version: u16) -> Result<Self> {
        let template = template(dictionary, number, version).ok_or(Reason::CannotOpen.at(0, 0))?;
        template.check_geometry(dictionary.version())?;
        let root = template.root();
        let root_length = root.length_at(version);
        let groups = HEAD + root_length;
        let data = groups + GROUP_HEAD * template.groups().count();
        let length = data + template.data_at(version).count();
        room(length, buffer)?;

        put(buffer, 0, length);
        buffer[2..4].copy_from_slice(&ENCODING);
        put(buffer, 4, root_length);
        put(buffer, 6, usize::from(number));
        put(buffer, 8, usize::from(dictionary.schema_id()));
        put(buffer, 10, usize::from(version));
        put_blank(&mut buffer[HEAD..groups], &root, version)?;
        for (head, (_, block)) in buffer[groups..data].chunks_exact_mut(GROUP_HEAD).zip(template.groups()) {
            put(head, 0, block.length_at(version));
            head[2] = 0;
        }
        buffer[data..length].fill(0);
        Ok(Open(Form { template: number, version, length }))
    }

    /// How many bytes the frame has.
    pub fn length(&self) -> usize {
        self.0.length
    }

    /// The template and the version of the message.
    pub fn message(&self) -> (u16, u16) {
        (self.0.template, self.0.version)
    }

    /// Gives a field a value.
    pub fn set(
        &mut self,
        dictionary: Dictionary<'_>,
        buffer: &mut [u8],
        group: u32,
        entry: usize,
        tag: u32,
        value: &Value<'_>,
    ) -> Result<()> {
        let (at, field) = self.0.frame(dictionary, buffer)?.field(group, entry, tag)?;
        let pattern = field.kind()?.write(value).map_err(|refusal| refusal.reason.at(at, tag))?;
        buffer[at..at + pattern.len()].copy_from_slice(&pattern);
        Ok(())
    }

    /// Makes a field blank.
    pub fn clear(
        &mut self,
        dictionary: Dictionary<'_>,
        buffer: &mut [u8],
        group: u32,
        entry: usize,
        tag: u32,
    ) -> Result<()> {
        let (at, field) = self.0.frame(dictionary, buffer)?.field(group, entry, tag)?;
        let blank = field.kind()?.blank();
        buffer[at..at + blank.len()].copy_from_slice(&blank);
        Ok(())
    }

    /// Puts a blank entry behind the last one of a group.
    pub fn append(&mut self, dictionary: Dictionary<'_>, buffer: &mut [u8], group: u32) -> Result<()> {
        let part = self.0.frame(dictionary, buffer)?.group(group).ok_or(Reason::NotFound.at(0, group))?;
        if part.count == MOST_ENTRIES {
            return Err(Reason::Full.at(part.at + 2, group));
        }
        room(self.0.length + part.entry, buffer)?;
        let at = part.end();
        self.0.resize(buffer, at, 0, part.entry);
        put_blank(&mut buffer[at..at + part.entry], &part.block, self.0.version)?;
        buffer[part.at + 2] = part.count + 1;
        Ok(())
    }

    /// Takes away the last entry of a group.
    pub fn drop(&mut self, dictionary: Dictionary<'_>, buffer: &mut [u8], group: u32) -> Result<()> {
        let not_found = Reason::NotFound.at(0, group);
        let part = self.0.frame(dictionary, buffer)?.group(group).ok_or(not_found)?;
        let count = part.count.checked_sub(1).ok_or(not_found)?;
        self.0.resize(buffer, part.entry_at(usize::from(count)), part.entry, 0);
        buffer[part.at + 2] = count;
        Ok(())
    }

    /// Gives a data its bytes.
    pub fn write(&mut self, dictionary: Dictionary<'_>, buffer: &mut [u8], tag: u32, bytes: &[u8]) -> Result<()> {
        let frame = self.0.frame(dictionary, buffer)?;
        let part = frame.data().find(|part| part.data.tag == tag).ok_or(Reason::NotFound.at(0, tag))?;
        if bytes.len() > usize::from(part.data.longest) {
            return Err(Reason::Full.at(part.at, tag));
        }
        room(self.0.length - part.length + bytes.len(), buffer)?;
        let content = part.content();
        self.0.resize(buffer, content, part.length, bytes.len());
        buffer[content..content + bytes.len()].copy_from_slice(bytes);
        buffer[part.at] = bytes.len() as u8;
        Ok(())
    }

    /// Closes the form, if no required field is absent.
    pub fn close(&self, dictionary: Dictionary<'_>, buffer: &[u8]) -> Result<Closed> {
        // Nothing but a required field is left to refuse; a frame that was found in the buffer is never too long.
        self.0.frame(dictionary, buffer)?.judge(Required::Present)?;
        Ok(Closed(self.0))
    }
}

impl Closed {
    /// How many bytes the frame has.
    pub fn length(&self) -> usize {
        self.0.length
    }

    /// The template and the version of the message.
    pub fn message(&self) -> (u16, u16) {
        (self.0.template, self.0.version)
    }

    /// Opens the form again.
    pub fn reopen(&self, dictionary: Dictionary<'_>, buffer: &[u8]) -> Result<Open> {
        self.0.frame(dictionary, buffer)?;
        Ok(Open(self.0))
    }
}
