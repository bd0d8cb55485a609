//! Which verdicts were expected, and how often the rarest of those that a group has to reach.

use crate::report::Tally;
use differential::carrier::{Reply, NOT_ONE_OF_EACH, PROFILE_NOT_MET};
use differential::case::ACCEPTED;
use differential::pairs::Near;
use differential::profile::{MARKS, STRICT};
use std::collections::HashMap;

/// The rarest of the 21 marks in a refusal.
pub const RAREST_MARK: &str = "each-mark";

/// What strict accepts.
pub const STRICT_ACCEPTED: &str = "strict-accepted";

/// Strict refusals: the rarest single thing off, its marks alone.
pub const RAREST_ALONE: &str = "each-alone";

/// Compat's acceptances: the rarest set of what it lets pass, nothing at all among them.
pub const RAREST_ALLOWED: &str = "each-allowed";

/// Compat's refusals: the rarest thing that it does not let pass, alone and with each such set.
pub const RAREST_NOT_ALLOWED: &str = "each-not-allowed";

/// Acceptances: the rarest choice of order and of where others stand, before, between and after.
pub const RAREST_GAPS: &str = "each-gaps";

/// Refusals: the rarest two counts of none, one, two, three and more.
pub const RAREST_COUNTS: &str = "each-counts";

const COUNTS: usize = 5;

pub struct Reached {
    /// How often a word of marks was in an answer, by whether strict was asked, and the number.
    words: HashMap<(bool, u32, u32), u64>,
    gaps: [u64; 16],
    counts: [[u64; COUNTS]; COUNTS],
}

impl Reached {
    #[must_use]
    pub fn new() -> Self {
        Self {
            words: HashMap::new(),
            gaps: [0; 16],
            counts: [[0; COUNTS]; COUNTS],
        }
    }

    /// An expected verdict on a carrier with so many payloads.
    pub fn count(&mut self, profile: u32, reply: &Reply, payloads: usize) {
        let [first, second, third, ..] = reply.words;
        let word = match reply.number {
            ACCEPTED => {
                self.gaps[gaps([first, second].map(|place| place as usize), payloads)] += 1;
                third
            }
            PROFILE_NOT_MET => first,
            NOT_ONE_OF_EACH => {
                let [oamd, joc] = [first, second].map(|count| (count as usize).min(COUNTS - 1));
                self.counts[oamd][joc] += 1;
                return;
            }
            _ => return,
        };
        let key = (profile == STRICT, reply.number, word as u32);
        *self.words.entry(key).or_insert(0) += 1;
    }

    pub fn mark_marks(&self, tally: &mut Tally) {
        let with = |mark: u32| {
            let refused = self.words.iter().filter(|((_, number, word), _)| {
                *number == PROFILE_NOT_MET && word >> mark & 1 == 1
            });
            refused.map(|(_, count)| count).sum()
        };
        tally.mark_times(RAREST_MARK, rarest((0..MARKS).map(with)));
    }

    pub fn mark_deviations(&self, tally: &mut Tally) {
        let times = |strict, number, word| {
            let key = (strict, number, word);
            self.words.get(&key).copied().unwrap_or(0)
        };
        let [alone, allowed] = [Near::alone(), Near::allowed()]
            .map(|all| -> Vec<u32> { all.iter().map(Near::marks).collect() });
        let refused_alone = alone.iter().map(|&word| times(true, PROFILE_NOT_MET, word));
        let accepted = allowed.iter().map(|&word| times(false, ACCEPTED, word));
        let not_allowed = alone.iter().filter(|word| !allowed.contains(word));
        let refused = not_allowed.flat_map(|&word| {
            // Where they share a mark, one of the two can't be off as well.
            let beside = allowed.iter().filter(move |&more| word & more == 0);
            beside.map(move |more| times(false, PROFILE_NOT_MET, word | more))
        });
        tally.mark_times(STRICT_ACCEPTED, times(true, ACCEPTED, 0));
        tally.mark_times(RAREST_ALONE, rarest(refused_alone));
        tally.mark_times(RAREST_ALLOWED, rarest(accepted));
        tally.mark_times(RAREST_NOT_ALLOWED, rarest(refused));
    }

    pub fn mark_gaps(&self, tally: &mut Tally) {
        tally.mark_times(RAREST_GAPS, rarest(self.gaps));
    }

    pub fn mark_counts(&self, tally: &mut Tally) {
        let all = (0..COUNTS).flat_map(|oamd| (0..COUNTS).map(move |joc| [oamd, joc]));
        let refused = all.filter(|counts| *counts != [1, 1]);
        tally.mark_times(
            RAREST_COUNTS,
            rarest(refused.map(|[oamd, joc]| self.counts[oamd][joc])),
        );
    }
}

/// Which order, and before, between and after which of the two others stand.
fn gaps([oamd, joc]: [usize; 2], payloads: usize) -> usize {
    let (first, last) = (oamd.min(joc), oamd.max(joc));
    let choices = [joc < oamd, first > 0, last - first > 1, last + 1 < payloads];
    choices
        .into_iter()
        .fold(0, |all, choice| 2 * all + usize::from(choice))
}

fn rarest(counts: impl IntoIterator<Item = u64>) -> u64 {
    counts.into_iter().min().unwrap_or(0)
}
