//! The groups for recipes on file.

use crate::edit_lists;
use crate::editing::Source;
use crate::edits;
use crate::following::Follower;
use crate::guard::Input;
use crate::recipes_reached::{
    COUNT_PAST_FILE, FAR_PAST_THE_END, FAULT_BEFORE_A_BREAK, FAULT_IN_A_BREAK, FAULT_LEFT_OUT,
    IN_FIRST, IN_SECOND, IN_START, JUST_ENOUGH, LEFT_OUT, ONE_BYTE_LESS, OVERLAPPING,
    OVER_A_LONGER, OVER_RECORDS, PAST_32_BITS, RAREST_EDIT, RAREST_START, REFUSED_BETWEEN,
    THOUSANDS,
};
use crate::report::{Difference, Group, Outcome, Tally};
use crate::sparse;
use differential::carrier::{BROKEN_CHAIN, HEADER, INVALID_RECORD};
use differential::case::ACCEPTED;
use differential::contents::Contents;
use differential::damage;
use differential::limits;
use differential::noes;
use differential::options::Length;
use differential::plain::Step;
use differential::random::Random;
use differential::recipe::{self, File, Record, BODY, DROP, HEAD, KEY, KEY_LENGTH, RECORD};
use differential::recipes::{self, FLAWS, MOST_RECORDS};
use differential::scripts::{shuffle, AMPLE};
use differential::shapes;
use differential::steps;
use differential::wrong;

pub const GROUPS: [Group; 7] = [
    Group {
        name: "recipes of any edits on any start",
        least: 100,
        outcomes: &EVERY_OUTCOME,
        marks: &MARKS_OF_ANY,
        run: any_recipes,
    },
    Group {
        name: "recipes damaged at each byte",
        least: 100,
        outcomes: &EVERY_OUTCOME,
        marks: &[IN_START, IN_FIRST, IN_SECOND],
        run: damaged_recipes,
    },
    Group {
        name: "chains of every shape",
        least: 100,
        outcomes: &[
            ("check_recipe", ACCEPTED),
            ("check_recipe", BROKEN_CHAIN),
            ("run_recipe", ACCEPTED),
            ("run_recipe", BROKEN_CHAIN),
        ],
        marks: &MARKS_OF_CHAINS,
        run: every_chain,
    },
    Group {
        name: "records with faults, on the chain and off it",
        least: 100,
        outcomes: &EVERY_OUTCOME,
        marks: &[FAULT_IN_A_BREAK, FAULT_BEFORE_A_BREAK, FAULT_LEFT_OUT],
        run: faults,
    },
    Group {
        name: "data at every edge, and long chains",
        // As often as long chains leave records out.
        least: 3,
        outcomes: &EVERY_OUTCOME,
        marks: &[THOUSANDS, LEFT_OUT, FAR_PAST_THE_END],
        run: edges,
    },
    Group {
        name: "recipes and starts of 2^32 bytes",
        least: 20,
        outcomes: &[
            ("check_recipe", ACCEPTED),
            ("check_recipe", INVALID_RECORD),
            ("run_recipe", ACCEPTED),
            ("run_recipe", INVALID_RECORD),
        ],
        marks: &[IN_START, IN_FIRST, PAST_32_BITS, FAR_PAST_THE_END],
        run: huge_slices,
    },
    edit_lists::WITH_RECIPES,
];

const EVERY_OUTCOME: [Outcome; 6] = [
    ("check_recipe", ACCEPTED),
    ("check_recipe", BROKEN_CHAIN),
    ("check_recipe", INVALID_RECORD),
    ("run_recipe", ACCEPTED),
    ("run_recipe", BROKEN_CHAIN),
    ("run_recipe", INVALID_RECORD),
];

const MARKS_OF_ANY: [&str; 13] = [
    IN_START,
    IN_FIRST,
    IN_SECOND,
    RAREST_EDIT,
    RAREST_START,
    JUST_ENOUGH,
    ONE_BYTE_LESS,
    OVER_A_LONGER,
    REFUSED_BETWEEN,
    OVER_RECORDS,
    OVERLAPPING,
    LEFT_OUT,
    COUNT_PAST_FILE,
];

const MARKS_OF_CHAINS: [&str; 5] = [IN_START, IN_FIRST, IN_SECOND, LEFT_OUT, COUNT_PAST_FILE];

fn any_recipes(tally: &mut Tally, random: &mut Random, length: Length) -> Result<(), Difference> {
    let mut follower = Follower::new();
    for _ in 0..length.rounds(4_000, 200_000) {
        let payloads = random.up_to(4);
        let most_body = random.pick(&[0, 8, 40, 300]);
        let contents = shapes::draw_contents(random, payloads, most_body);
        let source = Source::new(contents.written().0);
        for _ in 0..4 {
            by_chance(&contents, &source, &mut follower, tally, random)?;
        }
    }
    for _ in 0..length.rounds(200, 6_000) {
        let payloads = 1 + random.up_to(2);
        let contents = shapes::draw_contents(random, payloads, 8);
        for start in other_starts(&contents, random) {
            by_chance(&contents, &Source::new(start), &mut follower, tally, random)?;
        }
    }
    for _ in 0..length.rounds(25, 500) {
        full_start(&mut follower, tally, random)?;
    }
    for _ in 0..length.rounds(500, 20_000) {
        start_in_the_file(&mut follower, tally, random)?;
    }
    follower.reached.mark(&MARKS_OF_ANY, tally);
    Ok(())
}

/// A recipe drawn for these contents; in some, data lie anywhere, and one in eight may be none.
fn by_chance(
    contents: &Contents,
    source: &Source,
    follower: &mut Follower,
    tally: &mut Tally,
    random: &mut Random,
) -> Result<(), Difference> {
    let list = recipes::draw_list(contents, 8, random);
    let mut file = recipes::draw_file(&list, random);
    if random.one_in(3) {
        recipes::move_data(&mut file, random);
    }
    if random.one_in(8) {
        recipes::spoil(&mut file, random);
    }
    let list = recipe::edits(&file).unwrap_or_default();
    let rooms = recipes::draw_rooms(contents, &list, random);
    follower.check(source, &file, rooms, tally)?;
    Ok(())
}

/// Bytes that are not one carrier, or hardly: with one thing wrong, more after it, damaged, random, none.
fn other_starts(contents: &Contents, random: &mut Random) -> Vec<Vec<u8>> {
    let (carrier, _) = contents.written();
    let wrong = wrong::carriers(contents, random).into_iter();
    let sums = wrong::sums_with_base(contents, random);
    let mut all: Vec<Vec<u8>> = wrong.chain(sums).map(|wrong| wrong.carrier).collect();
    all.extend(edits::with_bytes_after(&carrier, random));
    let mut damaged = damage::small(&carrier, random);
    shuffle(&mut damaged, random);
    damaged.truncate(40);
    all.extend(damaged);
    for _ in 0..4 {
        all.push(damage::random_container(random, 200));
        all.push(carrier[..random.up_to(HEADER)].to_vec());
    }
    all.push(Vec::new());
    // More than any carrier has.
    let mut long = carrier;
    long.resize(AMPLE + random.up_to(300), 0x5a);
    all.push(long);
    all
}

/// A carrier without room for more: each edit is refused that lengthens it, until one makes room.
fn full_start(
    follower: &mut Follower,
    tally: &mut Tally,
    random: &mut Random,
) -> Result<(), Difference> {
    let contents = limits::full(random);
    let source = Source::new(contents.written().0);
    let mut list = Vec::new();
    for kind in [4, 0, 4, 4, 4, 4] {
        let step = steps::draw(kind, 0, 8, random);
        list.push(noes::lengthened(step, random));
    }
    let place = random.up_to(2);
    list.push(Step::Drop { place });
    list.extend(recipes::draw_list(&contents, 3, random));
    let file = recipes::draw_file(&list, random);
    let rooms = [AMPLE - random.up_to(1), AMPLE + random.up_to(1)];
    follower.check(&source, &file, rooms, tally)?;
    Ok(())
}

/// A carrier that is a part of the recipe, where data may lie too.
fn start_in_the_file(
    follower: &mut Follower,
    tally: &mut Tally,
    random: &mut Random,
) -> Result<(), Difference> {
    let contents = shapes::draw_contents(random, 2, 40);
    let list = recipes::draw_list(&contents, 4, random);
    let mut file = recipes::draw_file(&list, random);
    let start = file.len();
    file.extend(contents.written().0);
    recipes::move_data(&mut file, random);
    let list = recipe::edits(&file).unwrap_or_default();
    let rooms = recipes::draw_rooms(&contents, &list, random);
    let file = Input::new(&file);
    let source = &file.bytes()[start..];
    follower.check_as_it_lies(source, file.bytes(), rooms, tally)?;
    Ok(())
}

fn damaged_recipes(
    tally: &mut Tally,
    random: &mut Random,
    length: Length,
) -> Result<(), Difference> {
    let mut follower = Follower::new();
    for _ in 0..length.rounds(30, 1_500) {
        let contents = shapes::draw_contents(random, 3, 8);
        let source = Source::new(contents.written().0);
        let list = one_of_each(random);
        let file = recipes::draw_file(&list, random);
        let rooms = recipes::draw_rooms(&contents, &list, random);
        follower.check(&source, &file, rooms, tally)?;
        for damaged in recipes::every_damage(&file, random) {
            follower.check(&source, &damaged, rooms, tally)?;
        }
    }
    let holders = [IN_START, IN_FIRST, IN_SECOND];
    follower.reached.mark(&holders, tally);
    Ok(())
}

/// A body, a drop and a key of a carrier with three payloads, in any order.
fn one_of_each(random: &mut Random) -> Vec<Step> {
    let mut kinds = [0, 2, 4];
    shuffle(&mut kinds, random);
    let steps = kinds.map(|kind| {
        let place = random.up_to(2);
        steps::draw(kind, place, 8, random)
    });
    steps.to_vec()
}

/// Every first and next index of up to four records, with every number of records in the file.
fn every_chain(tally: &mut Tally, random: &mut Random, length: Length) -> Result<(), Difference> {
    let mut follower = Follower::new();
    for _ in 0..length.rounds(1, 40) {
        let contents = shapes::draw_contents(random, 3, 8);
        let source = Source::new(contents.written().0);
        for count in 0..=4 {
            for shape in recipes::every_shape(count) {
                // With one past the count too, which no index may lead to.
                for held in 0..=count + 1 {
                    let good = |_, next| recipes::draw_good(next, random);
                    let file = recipes::with_shape(&shape, held, good);
                    let rooms = rooms_near(&source, random);
                    follower.check(&source, &file, rooms, tally)?;
                    // The last record lacks its last byte.
                    let shorter = &file[..file.len() - 1];
                    follower.check(&source, shorter, rooms, tally)?;
                }
            }
        }
    }
    follower.reached.mark(&MARKS_OF_CHAINS, tally);
    Ok(())
}

/// Mostly enough for some bytes more than the source has.
fn rooms_near(source: &Source, random: &mut Random) -> [usize; 2] {
    let length = source.bytes.len();
    [(); 2].map(|()| match random.up_to(5) {
        0 => random.up_to(length),
        _ => length + random.up_to(40),
    })
}

/// Every chain of up to four records, each of them with faults.
fn faults(tally: &mut Tally, random: &mut Random, length: Length) -> Result<(), Difference> {
    let mut follower = Follower::new();
    for _ in 0..length.rounds(2, 40) {
        let contents = shapes::draw_contents(random, 2, 4);
        let source = Source::new(contents.written().0);
        for count in 1..=4 {
            for shape in recipes::every_shape(count) {
                for flaws in flaws(count, random) {
                    let held = count - usize::from(random.one_in(3));
                    let bytes = HEAD + RECORD * held;
                    let flawed = |index: usize, next| {
                        let flaw = usize::from(flaws[index - 1]);
                        recipes::flawed(flaw, next, bytes, random)
                    };
                    let file = recipes::with_shape(&shape, held, flawed);
                    let rooms = rooms_near(&source, random);
                    follower.check(&source, &file, rooms, tally)?;
                }
            }
        }
    }
    let marks = [FAULT_IN_A_BREAK, FAULT_BEFORE_A_BREAK, FAULT_LEFT_OUT];
    follower.reached.mark(&marks, tally);
    Ok(())
}

/// Every choice of what is wrong with up to three records, or some with more.
fn flaws(count: usize, random: &mut Random) -> Vec<Vec<u16>> {
    if count <= 3 {
        return recipes::every_choice(FLAWS, count).collect();
    }
    let mut some = Vec::new();
    for _ in 0..8 {
        let flaws = (0..count).map(|_| random.up_to(FLAWS - 1) as u16);
        some.push(flaws.collect());
    }
    some
}

fn edges(tally: &mut Tally, random: &mut Random, length: Length) -> Result<(), Difference> {
    let mut follower = Follower::new();
    for _ in 0..length.rounds(12, 600) {
        every_span(&mut follower, tally, random)?;
    }
    for _ in 0..length.rounds(1, 25) {
        long_chains(&mut follower, tally, random)?;
    }
    let marks = [THOUSANDS, LEFT_OUT, FAR_PAST_THE_END];
    follower.reached.mark(&marks, tally);
    Ok(())
}

/// One edit whose data begin and end at each edge of the file, and of 32 bits.
fn every_span(
    follower: &mut Follower,
    tally: &mut Tally,
    random: &mut Random,
) -> Result<(), Difference> {
    let contents = shapes::draw_contents(random, 1, 8);
    let source = Source::new(contents.written().0);
    let more = random.up_to(60);
    let more = random.bytes(more);
    let bytes = HEAD + RECORD + more.len();
    let mut file = File {
        first: 1,
        count: 1,
        records: Vec::new(),
        data: vec![(HEAD + RECORD, more)],
    };
    for (offset, length) in recipes::every_span(bytes) {
        for kind in [BODY, DROP, KEY] {
            file.records = vec![Record {
                next: 0,
                kind,
                zero: 0,
                place: 0,
                offset,
                length,
            }];
            let rooms = [AMPLE.min(source.bytes.len() + bytes), 0];
            follower.check(&source, &file.bytes(), rooms, tally)?;
        }
    }
    Ok(())
}

/// Chains of thousands of records, with all in order, and with the last one not.
fn long_chains(
    follower: &mut Follower,
    tally: &mut Tally,
    random: &mut Random,
) -> Result<(), Difference> {
    for (links, stride) in [(MOST_RECORDS, 1), (20_000, 3), (5_000, 13), (1_000, 65)] {
        let contents = shapes::draw_contents(random, 3, 8);
        let source = Source::new(contents.written().0);
        let rooms = [source.bytes.len() + 40; 2];
        let mut file = recipes::long_chain(links, stride, random);
        follower.check(&source, &file, rooms, tally)?;
        follower.check(&source, &file[..file.len() - 1], rooms, tally)?;
        let last = (file.len() - HEAD) / RECORD;
        for next in [0, last as u16] {
            let flaw = 2 + random.up_to(FLAWS - 3);
            let flawed = recipes::flawed(flaw, next, file.len(), random);
            recipes::put_record(&mut file, last, &flawed);
            follower.check(&source, &file, rooms, tally)?;
        }
    }
    Ok(())
}

fn huge_slices(tally: &mut Tally, random: &mut Random, length: Length) -> Result<(), Difference> {
    let mut follower = Follower::new();
    for round in 0..length.rounds(300, 30_000) {
        let bytes = sparse::LENGTHS[round % sparse::LENGTHS.len()];
        let contents = shapes::draw_contents(random, 2, 20);
        let (carrier, _) = contents.written();
        let source = Input::new(&carrier);
        let rooms = [(); 2].map(|()| carrier.len() + random.up_to(60));
        let file = huge_file(bytes, random);
        follower.check_as_it_lies(source.bytes(), file.bytes(), rooms, tally)?;
        let list = recipes::draw_list(&contents, 4, random);
        let file = Input::new(&recipes::draw_file(&list, random));
        let source = Input::sparse(bytes, &[(0, carrier)]);
        follower.check_as_it_lies(source.bytes(), file.bytes(), rooms, tally)?;
    }
    let marks = [IN_START, IN_FIRST, PAST_32_BITS, FAR_PAST_THE_END];
    follower.reached.mark(&marks, tally);
    Ok(())
}

/// A recipe of so many bytes with its data at the end; one time in four some are past it.
fn huge_file(bytes: usize, random: &mut Random) -> Input {
    const FILLED: usize = 40;
    let is_past = random.one_in(4);
    let records = [2, 3, 0].map(|next| {
        let kind = random.pick(&[BODY, BODY, KEY]);
        let wanted = match kind {
            KEY => KEY_LENGTH,
            _ => random.pick(&[6, 7, 30, 70_000]),
        };
        let past = usize::from(is_past) * random.up_to(2);
        let offset = bytes - random.pick(&[0, 0, 1, 20]) - wanted + past;
        // No offset is larger.
        let offset = u32::try_from(offset).unwrap_or(u32::MAX);
        Record {
            next,
            kind,
            zero: 0,
            place: random.up_to(1) as u32,
            offset,
            length: wanted as u32,
        }
    });
    let file = File {
        first: 1,
        count: 3,
        records: records.to_vec(),
        data: Vec::new(),
    };
    let end = random.bytes(FILLED);
    Input::sparse(bytes, &[(0, file.bytes()), (bytes - FILLED, end)])
}
