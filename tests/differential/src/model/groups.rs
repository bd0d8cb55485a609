//! How many groups the variable fields of a carrier have, from its contents and the scope's definition alone.

use crate::contents::{Contents, Payload};

/// The variable fields of a container.
#[derive(Clone, Copy, Debug, Eq, PartialEq)]
pub enum Field {
    KeyId,
    Id,
    Duration,
    GroupId,
    Size,
}

/// How many kinds of them there are.
pub const FIELDS: usize = 5;

/// The smallest g with value <= 2^w + 2^2w + .. + 2^gw - 1.
#[must_use]
pub fn groups(width: u8, value: u64) -> u64 {
    let mut groups = 0;
    let mut too_large: u128 = 0;
    while too_large <= u128::from(value) {
        groups += 1;
        too_large += 1 << (groups * u32::from(width));
    }
    u64::from(groups)
}

/// The fields that stand in a container, each with its groups. One of a key id or an id stands behind an escape, and its
/// value is what the escape is added to.
pub fn fields(contents: &Contents) -> impl Iterator<Item = (Field, u64)> + '_ {
    let key_id = (Field::KeyId, 3, contents.key_id.checked_sub(7));
    let payloads = contents.payloads.iter().flat_map(of_payload);
    let all = std::iter::once(key_id).chain(payloads);
    all.filter_map(|(field, width, value)| Some((field, groups(width, value?))))
}

fn of_payload(payload: &Payload) -> [(Field, u8, Option<u64>); 4] {
    [
        (Field::Id, 5, payload.id.checked_sub(31)),
        (Field::Duration, 11, payload.settings.duration),
        (Field::GroupId, 2, payload.settings.group_id),
        (Field::Size, 8, Some(payload.body.len() as u64)),
    ]
}

/// The kind of field that alone has the most groups, if one has.
#[must_use]
pub fn deciding(contents: &Contents) -> Option<Field> {
    let largest = largest(contents);
    let mut kinds = fields(contents).filter(|(_, groups)| *groups == largest);
    let (first, _) = kinds.next()?;
    kinds.all(|(field, _)| field == first).then_some(first)
}

/// The largest of them, 0 where there is none.
#[must_use]
pub fn largest(contents: &Contents) -> u64 {
    let all = fields(contents).map(|(_, groups)| groups);
    all.max().unwrap_or(0)
}
