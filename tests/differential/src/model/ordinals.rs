//! Which of the payloads of its id a payload is, from the contents and the scope's definition alone.

use crate::contents::{Contents, Payload};
use std::collections::HashMap;

/// Of each payload, how many from the first one up to it have its id.
#[must_use]
pub fn ordinals(payloads: &[Payload]) -> Vec<u64> {
    let mut counts = HashMap::new();
    let counted = payloads.iter().map(|payload| {
        let count = counts.entry(payload.id).or_insert(0);
        *count += 1;
        *count
    });
    counted.collect()
}

/// The place of the payload with this id and ordinal, if there is one.
#[must_use]
pub fn find(contents: &Contents, id: u64, ordinal: u64) -> Option<usize> {
    let before = usize::try_from(ordinal).ok()?.checked_sub(1)?;
    let payloads = contents.payloads.iter().enumerate();
    let mut places = payloads.filter(|(_, payload)| payload.id == id);
    places.nth(before).map(|(place, _)| place)
}
