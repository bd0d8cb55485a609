//! Lists in which single edits and recipes alternate.

use crate::case::write_slice;
use crate::contents::Contents;
use crate::plain::Step;
use crate::random::Random;
use crate::recipe::{self, Held};
use crate::recipes;
use crate::scripts::{self, shuffle, Script, AMPLE};
use crate::steps;
use std::fmt;

/// A call of a list, with the lengths of what it is lent.
#[derive(Clone)]
pub enum Turn {
    Edit(Step, usize),
    Recipe(Vec<u8>, [usize; 2]),
}

/// A start and the calls from there.
#[derive(Clone)]
pub struct List {
    pub start: Contents,
    pub turns: Vec<Turn>,
}

impl List {
    /// Each edit by itself.
    #[must_use]
    pub fn of_edits(script: &Script) -> Self {
        Self {
            start: script.start.clone(),
            turns: singly(&script.edits).collect(),
        }
    }

    /// The same way with some of the edits in recipes, and recipes between that change nothing.
    pub fn with_recipes(script: &Script, random: &mut Random) -> Self {
        let mut turns = Vec::new();
        let mut contents = script.start.clone();
        let mut rest = &script.edits[..];
        while !rest.is_empty() {
            if random.one_in(3) {
                turns.extend(idle(&contents, random));
            }
            let is_fit = |edit: &&(Step, usize)| recipe::kind(&edit.0).is_some();
            let fit = rest.iter().take_while(is_fit).count();
            let (edits, later) = rest.split_at(random.up_to(fit).max(1));
            let after = after(&contents, edits);
            let is_gathered = fit > 0 && !random.one_in(4);
            let recipe = is_gathered.then(|| gathered(&contents, edits, &after, random));
            match recipe.flatten() {
                Some(recipe) => turns.push(recipe),
                None => turns.extend(singly(edits)),
            }
            contents = after;
            rest = later;
        }
        if random.one_in(3) {
            turns.extend(idle(&contents, random));
        }
        Self {
            start: script.start.clone(),
            turns,
        }
    }
}

fn singly(edits: &[(Step, usize)]) -> impl Iterator<Item = Turn> + '_ {
    let edits = edits.iter().cloned();
    edits.map(|(step, room)| Turn::Edit(step, room))
}

/// The plain contents after some edits.
fn after(contents: &Contents, edits: &[(Step, usize)]) -> Contents {
    let mut contents = contents.clone();
    for (step, room) in edits {
        contents = step.on(&contents, *room).unwrap_or(contents);
    }
    contents
}

/// A recipe that comes to the same as these edits, where rooms are drawn with which it does.
fn gathered(
    contents: &Contents,
    edits: &[(Step, usize)],
    after: &Contents,
    random: &mut Random,
) -> Option<Turn> {
    let list = accepted(contents, edits);
    for _ in 0..4 {
        let rooms = recipes::draw_rooms(contents, &list, random);
        let ran = recipe::run(Held::with(contents.clone()), &list, rooms);
        if ran.held.contents.as_ref() == Ok(after) {
            let list = among_refused(contents, &list, rooms, random);
            return Some(Turn::Recipe(recipes::draw_file(&list, random), rooms));
        }
    }
    None
}

/// Those that change something, each with its own destination.
fn accepted(contents: &Contents, edits: &[(Step, usize)]) -> Vec<Step> {
    let mut contents = contents.clone();
    let mut list = Vec::new();
    for (step, room) in edits {
        if let Ok(after) = step.on(&contents, *room) {
            contents = after;
            list.push(step.clone());
        }
    }
    list
}

/// The edits with others before, between and after that are refused with these rooms.
fn among_refused(
    contents: &Contents,
    list: &[Step],
    rooms: [usize; 2],
    random: &mut Random,
) -> Vec<Step> {
    let mut contents = contents.clone();
    let mut aim = 0;
    let mut all = Vec::new();
    for step in list {
        if random.one_in(3) {
            all.push(refused(&contents, rooms[aim], random));
        }
        if let Ok(after) = step.on(&contents, rooms[aim]) {
            contents = after;
            aim = 1 - aim;
        }
        all.push(step.clone());
    }
    if random.one_in(2) {
        all.push(refused(&contents, rooms[aim], random));
    }
    all
}

/// An edit that is refused with so much room, often for that.
fn refused(contents: &Contents, room: usize, random: &mut Random) -> Step {
    let count = contents.payloads.len();
    for _ in 0..4 {
        let step = if random.one_in(2) && room < 1_000 && count > 0 {
            Step::Body {
                place: random.up_to(count - 1),
                body: random.bytes(room),
            }
        } else {
            recipes::draw_step(contents, random)
        };
        if step.on(contents, room).is_err() {
            return step;
        }
    }
    Step::Drop { place: count }
}

/// A recipe that changes nothing: a wrong one, one whose edits are all refused, none among them, or undone, which then
/// takes an edit of the protections that they cleared.
fn idle(contents: &Contents, random: &mut Random) -> Vec<Turn> {
    let undone = match random.up_to(2) {
        0 => return vec![wrong(contents, random)],
        1 => undone(contents, random),
        _ => None,
    };
    undone.unwrap_or_else(|| vec![all_refused(contents, random)])
}

fn wrong(contents: &Contents, random: &mut Random) -> Turn {
    let list = recipes::draw_list(contents, 4, random);
    let rooms = recipes::draw_rooms(contents, &list, random);
    let mut file = recipes::draw_file(&list, random);
    while recipe::edits(&file).is_ok() {
        recipes::spoil(&mut file, random);
    }
    Turn::Recipe(file, rooms)
}

fn all_refused(contents: &Contents, random: &mut Random) -> Turn {
    let rooms = [random.up_to(300), random.up_to(300)];
    let edits = random.up_to(3);
    let list: Vec<Step> = (0..edits)
        .map(|_| refused(contents, rooms[0], random))
        .collect();
    Turn::Recipe(recipes::draw_file(&list, random), rooms)
}

/// Bodies and key ids, and then those that were there, where rooms are drawn with which that is so; then the protections,
/// unless they are zeros.
fn undone(contents: &Contents, random: &mut Random) -> Option<Vec<Turn>> {
    let mut list = Vec::new();
    let mut back = Vec::new();
    for _ in 0..=random.up_to(2) {
        let place = random.up_to(contents.payloads.len());
        let (kind, old) = match contents.payloads.get(place) {
            Some(payload) => (0, scripts::body(place, payload)),
            None => (4, scripts::key(contents)),
        };
        list.push(steps::draw(kind, place, 40, random));
        back.push(old);
    }
    shuffle(&mut back, random);
    list.extend(back);
    let rooms = [recipes::draw_rooms(contents, &list, random), [AMPLE; 2]];
    let rooms = rooms.into_iter().find(|rooms| {
        let ran = recipe::run(Held::with(contents.clone()), &list, *rooms);
        ran.held.contents == Ok(contents.cleared())
    });
    let mut turns = vec![Turn::Recipe(recipes::draw_file(&list, random), rooms?)];
    turns.extend(scripts::put_back(contents).map(|step| Turn::Edit(step, AMPLE)));
    Some(turns)
}

/// The list, as it stands in a report.
impl fmt::Display for List {
    fn fmt(&self, formatter: &mut fmt::Formatter<'_>) -> fmt::Result {
        let (start, _) = self.start.written();
        write_slice(formatter, "start", &start)?;
        let mut turns = self.turns.iter();
        turns.try_for_each(|turn| write!(formatter, "{turn}"))
    }
}

impl fmt::Display for Turn {
    fn fmt(&self, formatter: &mut fmt::Formatter<'_>) -> fmt::Result {
        match self {
            Self::Edit(step, room) => {
                writeln!(formatter, "  then      {}", step.name())?;
                write!(formatter, "{step}")?;
                writeln!(formatter, "  room      {room} bytes")
            }
            Self::Recipe(file, rooms) => {
                writeln!(formatter, "  then      run_recipe")?;
                write_slice(formatter, "recipe", file)?;
                recipe::write_rooms(formatter, *rooms)
            }
        }
    }
}
