//! The group for whole lists of edits, two at a time, and that for lists with recipes among them.

use crate::editing::{Editor, Source};
use crate::examine::Examiner;
use crate::following::Follower;
use crate::recipes_reached::{IN_FIRST, IN_SECOND, IN_START, REFUSED_BETWEEN};
use crate::report::{Difference, Group, Tally};
use differential::carrier::{
    Reply, BROKEN_CHAIN, DESTINATION_TOO_SHORT, EDIT_WORDS, INVALID_RECORD, NOT_WRITABLE,
    NO_SUCH_PLACE, RUN_WORDS, TABLE_TOO_SHORT, TOO_LONG,
};
use differential::case::ACCEPTED;
use differential::contents::Contents;
use differential::options::Length;
use differential::plain::{self, Step};
use differential::random::Random;
use differential::recipe::{self, Held};
use differential::scripts::{Pair, SURE_WAYS, THINGS, WAYS};
use differential::turns::{List, Turn};

pub const GROUPS: [Group; 1] = [Group {
    name: "lists of edits, two at a time",
    least: 20,
    outcomes: &[
        ("edit_body", ACCEPTED),
        ("edit_body", NO_SUCH_PLACE),
        ("edit_body", TOO_LONG),
        ("edit_body", DESTINATION_TOO_SHORT),
        ("edit_settings", ACCEPTED),
        ("edit_settings", NO_SUCH_PLACE),
        ("edit_settings", NOT_WRITABLE),
        ("edit_settings", TOO_LONG),
        ("edit_settings", DESTINATION_TOO_SHORT),
        ("edit_drop", ACCEPTED),
        ("edit_drop", NO_SUCH_PLACE),
        ("edit_drop", DESTINATION_TOO_SHORT),
        ("edit_insert", ACCEPTED),
        ("edit_insert", NO_SUCH_PLACE),
        ("edit_insert", NOT_WRITABLE),
        ("edit_insert", TOO_LONG),
        ("edit_insert", DESTINATION_TOO_SHORT),
        ("edit_key", ACCEPTED),
        ("edit_key", TOO_LONG),
        ("edit_key", DESTINATION_TOO_SHORT),
        ("edit_protection", ACCEPTED),
        ("edit_protection", NOT_WRITABLE),
        ("edit_protection", TOO_LONG),
        ("edit_protection", DESTINATION_TOO_SHORT),
        ("classify", ACCEPTED),
        ("read", ACCEPTED),
        ("read", TABLE_TOO_SHORT),
    ],
    marks: &[ALIKE, UNLIKE, RAREST_WAY, RAREST_THING, NONE_ACCEPTED],
    run: lists,
}];

/// A group of the part for recipes, where its other groups are.
pub const WITH_RECIPES: Group = Group {
    name: "lists of edits and recipes, two at a time",
    least: 20,
    outcomes: &[
        ("edit_body", ACCEPTED),
        ("edit_body", NO_SUCH_PLACE),
        ("edit_body", DESTINATION_TOO_SHORT),
        ("edit_settings", ACCEPTED),
        ("edit_settings", NOT_WRITABLE),
        ("edit_drop", ACCEPTED),
        ("edit_insert", ACCEPTED),
        ("edit_key", ACCEPTED),
        ("edit_protection", ACCEPTED),
        ("check_recipe", ACCEPTED),
        ("run_recipe", ACCEPTED),
        ("run_recipe", BROKEN_CHAIN),
        ("run_recipe", INVALID_RECORD),
        ("classify", ACCEPTED),
        ("read", ACCEPTED),
        ("read", TABLE_TOO_SHORT),
    ],
    marks: &[
        ALIKE,
        UNLIKE,
        RAREST_WAY,
        RAREST_THING,
        NONE_ACCEPTED,
        IN_START,
        IN_FIRST,
        IN_SECOND,
        REFUSED_BETWEEN,
    ],
    run: lists_with_recipes,
};

/// Pairs that end with the same contents.
const ALIKE: &str = "alike";

/// Pairs that don't.
const UNLIKE: &str = "unlike";

/// How often the rarest way led to the same contents.
const RAREST_WAY: &str = "each-way";

/// How often the rarest single thing made them differ, whatever sure way it came after.
const RAREST_THING: &str = "each-thing";

/// Lists that leave their start, empty ones among them.
const NONE_ACCEPTED: &str = "none-accepted";

fn lists(tally: &mut Tally, random: &mut Random, length: Length) -> Result<(), Difference> {
    let mut table = Table::new();
    for _ in 0..length.rounds(6_000, 120_000) {
        table.check_edits(&Pair::draw(random), tally)?;
    }
    for _ in 0..length.rounds(20, 200) {
        table.check_edits(&Pair::draw_long(random), tally)?;
    }
    table.mark(tally);
    Ok(())
}

fn lists_with_recipes(
    tally: &mut Tally,
    random: &mut Random,
    length: Length,
) -> Result<(), Difference> {
    let mut table = Table::new();
    for _ in 0..length.rounds(4_000, 100_000) {
        table.check_with_recipes(&Pair::draw(random), tally, random)?;
    }
    for _ in 0..length.rounds(10, 100) {
        table.check_with_recipes(&Pair::draw_long(random), tally, random)?;
    }
    table.mark(tally);
    let runs = [IN_START, IN_FIRST, IN_SECOND, REFUSED_BETWEEN];
    table.follower.reached.mark(&runs, tally);
    Ok(())
}

fn rarest(counts: &[u64]) -> u64 {
    counts.iter().copied().min().unwrap_or(0)
}

/// What all pairs are checked with, and what they reached.
struct Table {
    editor: Editor,
    follower: Follower,
    examiner: Examiner,
    ways: [u64; SURE_WAYS],
    things: [u64; THINGS],
}

/// One list under way: what the library left, and what is plain.
struct Side<'a> {
    list: &'a List,
    left: Source,
    contents: Contents,
    /// Whether an edit was accepted.
    accepted: bool,
}

impl<'a> Side<'a> {
    fn new(list: &'a List) -> Self {
        Self {
            list,
            left: Source::new(list.start.written().0),
            contents: list.start.clone(),
            accepted: false,
        }
    }

    /// Goes on from what the library left, and from the plain contents, where there is something new.
    fn take(&mut self, left: Option<Vec<u8>>, after: Option<Contents>) {
        if let (Some(left), Some(after)) = (left, after) {
            self.left = Source::new(left);
            self.contents = after;
            self.accepted = true;
        }
    }
}

impl Table {
    fn new() -> Self {
        Self {
            editor: Editor::new(),
            follower: Follower::new(),
            examiner: Examiner::new(),
            ways: [0; SURE_WAYS],
            things: [0; THINGS],
        }
    }

    fn check_edits(&mut self, pair: &Pair, tally: &mut Tally) -> Result<(), Difference> {
        let lists = pair.scripts.each_ref().map(List::of_edits);
        self.check(pair, &lists, tally)
    }

    /// The same ways, in one list out of three by edits alone.
    fn check_with_recipes(
        &mut self,
        pair: &Pair,
        tally: &mut Tally,
        random: &mut Random,
    ) -> Result<(), Difference> {
        let lists = pair.scripts.each_ref().map(|script| {
            if random.one_in(3) {
                List::of_edits(script)
            } else {
                List::with_recipes(script, random)
            }
        });
        self.check(pair, &lists, tally)
    }

    /// Both lists in turns, a call each.
    fn check(
        &mut self,
        pair: &Pair,
        lists: &[List; 2],
        tally: &mut Tally,
    ) -> Result<(), Difference> {
        let mut sides = lists.each_ref().map(Side::new);
        let most = lists.iter().map(|list| list.turns.len()).max();
        for turn in 0..most.unwrap_or(0) {
            for side in &mut sides {
                self.go_on(side, turn, tally)
                    .map_err(|difference| in_a_list(difference, side.list))?;
            }
        }
        for side in &sides {
            self.check_what_is_left(side, tally)?;
        }
        let [first, second] = &sides;
        let alike = first.contents == second.contents;
        if alike != (first.left.bytes == second.left.bytes) {
            return Err(not_both_ways(lists, alike));
        }
        self.count(pair, alike, tally);
        Ok(())
    }

    /// The next call of a list, from what the last accepted one left.
    fn go_on(&mut self, side: &mut Side, turn: usize, tally: &mut Tally) -> Result<(), Difference> {
        match side.list.turns.get(turn) {
            None => Ok(()),
            Some(Turn::Edit(step, room)) => self.edit(side, step, *room, turn, tally),
            Some(Turn::Recipe(file, rooms)) => self.follow(side, file, *rooms, turn, tally),
        }
    }

    fn edit(
        &mut self,
        side: &mut Side,
        step: &Step,
        room: usize,
        turn: usize,
        tally: &mut Tally,
    ) -> Result<(), Difference> {
        let after = step.on(&side.contents, room);
        let wanted = plain::reply(&after);
        let (reply, left) = self.editor.check_once(&side.left, step, room, tally)?;
        if reply != wanted {
            return Err(other_answer("edit", turn, [wanted, reply], EDIT_WORDS));
        }
        side.take(left, after.ok());
        Ok(())
    }

    fn follow(
        &mut self,
        side: &mut Side,
        file: &[u8],
        rooms: [usize; 2],
        turn: usize,
        tally: &mut Tally,
    ) -> Result<(), Difference> {
        let ran = recipe::edits(file)
            .map(|edits| recipe::run(Held::with(side.contents.clone()), &edits, rooms));
        let wanted = match &ran {
            Ok(ran) => ran.reply(),
            Err(refusal) => refusal.reply(),
        };
        let (reply, left) = self.follower.check(&side.left, file, rooms, tally)?;
        if reply != wanted {
            return Err(other_answer("recipe", turn, [wanted, reply], RUN_WORDS));
        }
        let after = ran.ok().and_then(|ran| ran.held.contents.ok());
        side.take(left, after);
        Ok(())
    }

    /// Both sides read it, and find the plain contents.
    fn check_what_is_left(&mut self, side: &Side, tally: &mut Tally) -> Result<(), Difference> {
        let (_, found) = side.contents.written();
        if !side.accepted {
            tally.mark(NONE_ACCEPTED);
        }
        let left = &side.left.bytes;
        self.examiner
            .check_with_rule(left, &Ok(found), tally)
            .map_err(|difference| in_a_list(difference, side.list))
    }

    fn count(&mut self, pair: &Pair, alike: bool, tally: &mut Tally) {
        tally.mark(if alike { ALIKE } else { UNLIKE });
        let way = WAYS.iter().position(|way| *way == pair.way);
        let way = way.filter(|way| *way < SURE_WAYS);
        match (way, pair.thing) {
            (Some(way), None) => self.ways[way] += u64::from(alike),
            (Some(_), Some(thing)) => self.things[thing] += u64::from(!alike),
            (None, _) => {}
        }
    }

    fn mark(&self, tally: &mut Tally) {
        tally.mark_times(RAREST_WAY, rarest(&self.ways));
        tally.mark_times(RAREST_THING, rarest(&self.things));
    }
}

/// The library's answer is right for its source, but not for the plain contents.
#[cold]
fn other_answer(call: &str, turn: usize, replies: [Reply; 2], words: usize) -> Difference {
    let [plain, library] = replies.map(|reply| reply.shown_words(words));
    let said = format!("  plain     {plain}\n  library   {library}\n");
    Difference(format!("{call} {turn} of a list:\n{said}"))
}

#[cold]
fn in_a_list(difference: Difference, list: &List) -> Difference {
    Difference(format!("{}in the list:\n{list}", difference.0))
}

#[cold]
fn not_both_ways([first, second]: &[List; 2], alike: bool) -> Difference {
    let heading = if alike {
        "the plain contents agree, but the bytes left are not the same:"
    } else {
        "the bytes left are the same, but the plain contents don't agree:"
    };
    Difference(format!("{heading}\nfirst\n{first}second\n{second}"))
}
