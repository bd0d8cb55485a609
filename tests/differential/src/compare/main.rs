//! Compares the library's exported calls with the Rust original on the same inputs.

mod bits;
mod bodies;
mod carriers;
mod crash;
mod edit_lists;
mod editing;
mod edits;
mod examine;
mod exported;
mod fields;
mod following;
mod frame;
mod guard;
mod judge;
mod lent;
mod library;
mod miscounts;
mod misnumbers;
#[path = "../model/model.rs"]
mod model;
mod ordinals;
mod reached;
mod recipe_mistakes;
mod recipes;
mod recipes_reached;
mod report;
mod runs;
mod self_check;
mod shrink;
mod sparse;
mod trials;
mod verdicts;

use differential::options::Options;
use differential::random::Random;
use report::{Group, Tally};
use std::process::ExitCode;

/// Each part's groups, run in this order.
const PARTS: [&[Group]; 11] = [
    &bits::GROUPS,
    &fields::GROUPS,
    &runs::GROUPS,
    &carriers::GROUPS,
    &bodies::GROUPS,
    &ordinals::GROUPS,
    &verdicts::GROUPS,
    &edits::GROUPS,
    &edit_lists::GROUPS,
    &sparse::GROUPS,
    &recipes::GROUPS,
];

/// The parts whose groups have to catch the mistakes of the self-check.
const PARTS_OF_EDITS: [&[Group]; 3] = [&edits::GROUPS, &edit_lists::GROUPS, &recipes::GROUPS];

/// The parts whose groups have to catch its wrong numbers of groups and its wrong ordinals.
const PARTS_OF_READINGS: [&[Group]; 4] = [
    &fields::GROUPS,
    &carriers::GROUPS,
    &ordinals::GROUPS,
    &verdicts::GROUPS,
];

fn main() -> ExitCode {
    let options = match Options::parse(std::env::args().skip(1)) {
        Ok(options) => options,
        Err(problem) => {
            eprintln!("differential: {problem}");
            return ExitCode::from(2);
        }
    };
    crash::watch();
    if options.self_check {
        return self_check::run(&PARTS_OF_EDITS, &PARTS_OF_READINGS, &options);
    }
    let mut failed = Vec::new();
    for (group, stream) in PARTS.into_iter().flatten().zip(0..) {
        // A stream of its own, so that a group's cases don't hang on the others.
        let mut random = Random::new(options.seed.wrapping_add(stream));
        if !passes(group, &mut random, &options) {
            failed.push(group.name);
        }
    }
    let seed = options.seed;
    if failed.is_empty() {
        println!("differential: all groups agree, seed {seed}");
        ExitCode::SUCCESS
    } else {
        let failed = failed.join("; ");
        println!("differential: FAILED, seed {seed}: {failed}");
        ExitCode::FAILURE
    }
}

/// Runs a group up to its first difference and prints its line.
fn passes(group: &Group, random: &mut Random, options: &Options) -> bool {
    let mut tally = Tally::new(group);
    let name = group.name;
    if let Err(difference) = (group.run)(&mut tally, random, options.length) {
        println!("{name}: {tally}, 1 difference, where it stopped");
        print!("{}", difference.0);
        return false;
    }
    println!("{name}: {tally}, 0 differences");
    let too_rare = tally.too_rare();
    for outcome in &too_rare {
        println!("  too rare: {outcome}");
    }
    too_rare.is_empty()
}
