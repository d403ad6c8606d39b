//! Editions: whether one dictionary is as another stood at an earlier version.

use crate::dictionary::{Block, Dictionary, Template};

/// Whether the first is an earlier edition of the second.
pub fn earlier_edition(earlier: Dictionary<'_>, later: Dictionary<'_>) -> bool {
    let version = earlier.version();
    earlier.schema_id() == later.schema_id()
        && version <= later.version()
        && same(
            earlier.templates(),
            later.templates().filter(|template| template.since <= version),
            |earlier, later| same_template(earlier, later, version),
        )
}

fn same_template(earlier: &Template<'_>, later: &Template<'_>, version: u16) -> bool {
    earlier.number == later.number
        && earlier.since == later.since
        && same_block(&earlier.root(), &later.root(), version)
        && same(earlier.groups(), later.groups(), |(earlier, of_earlier), (later, of_later)| {
            earlier.tag == later.tag && same_block(of_earlier, of_later, version)
        })
        && earlier.data().eq(later.data_at(version))
}

fn same_block(earlier: &Block<'_>, later: &Block<'_>, version: u16) -> bool {
    usize::from(earlier.length) == later.length_at(version) && earlier.fields().eq(later.fields_at(version))
}

/// Whether there are as many of both, and all are the same.
fn same<T>(
    mut these: impl Iterator<Item = T>,
    mut those: impl Iterator<Item = T>,
    is_same: impl Fn(&T, &T) -> bool,
) -> bool {
    loop {
        match (these.next(), those.next()) {
            (None, None) => return true,
            (Some(this), Some(that)) if is_same(&this, &that) => {}
            _ => return false,
        }
    }
}
