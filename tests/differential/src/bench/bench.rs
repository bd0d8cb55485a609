//! Measures what the calls on a carrier cost, in the library and in the Rust original.

mod aims;
mod calls;
mod clock;
mod counts;
#[path = "../compare/exported.rs"]
mod exported;
mod runs;
mod subjects;

use aims::{Compared, Copies, Edited, Longest, Measure};
use calls::Call;
use runs::Copied;
use std::env;
use std::process::ExitCode;
use subjects::{Input, Numbered, Subject};

/// Calls that take turns.
type Group<'a> = Vec<Call<'a>>;

/// The calls of a group by name, and what they cost.
type Costs = Vec<(&'static str, Measure)>;

fn main() -> ExitCode {
    let subjects = subjects::subjects();
    let edges = subjects::edges();
    let numbered = subjects::numbered();
    let copied = runs::all();
    let all = All {
        subjects: &subjects,
        edges: &edges,
        numbered: &numbered,
        copied: &copied,
    };
    let groups = groups(&all);
    match env::args().nth(1).as_deref() {
        None => measure(&all, groups),
        Some(counts::ARGUMENT) => counts::make_each(groups.into_iter().flatten()),
        Some(argument) => {
            eprintln!("{argument}: unknown argument");
            return ExitCode::from(2);
        }
    }
    ExitCode::SUCCESS
}

/// What the calls are measured on, by the tables.
struct All<'a> {
    subjects: &'a [Subject],
    edges: &'a [Input],
    numbered: &'a [Numbered],
    copied: &'a [Copied],
}

/// All groups, in the order of the tables.
fn groups<'a>(all: &All<'a>) -> Vec<Group<'a>> {
    let subjects_read = all.subjects.iter().map(calls::readings_and_verdict);
    let edges_read = all.edges.iter().map(calls::readings);
    let numbered = all.numbered.iter().map(calls::numbered);
    let edited = all.subjects.iter().map(calls::edits);
    let copied = all.copied.iter().map(Copied::calls);
    let read = subjects_read.chain(edges_read).chain(numbered);
    read.chain(edited).chain(copied).collect()
}

fn measure(all: &All, groups: Vec<Group>) {
    let All {
        subjects,
        edges,
        numbered,
        copied,
    } = all;
    subjects.iter().for_each(calls::check_subject);
    edges.iter().for_each(calls::check_readings);
    numbered.iter().for_each(calls::check_numbered);
    copied.iter().for_each(Copied::check);
    let rounds = clock::ROUNDS;
    println!(
        "nanoseconds per call, medians of {rounds} rounds in turns, then instructions per call"
    );
    let calls = groups.iter().map(Vec::len).sum();
    let counts = counts::taken(calls).unwrap_or_else(|reason| {
        println!("no instructions are counted: {reason}");
        Vec::new()
    });
    let mut costs = costs(groups, counts);
    let compared = show_readings(subjects, edges, &mut costs);
    let longest = show_numbered(numbered, &mut costs);
    let edited = show_edits(subjects, &mut costs);
    let copies = show_copies(copied, &mut costs);
    aims::show(&compared, &longest, &edited, &copies);
}

/// Each group's calls and what they cost, measured when it is their turn in a table.
fn costs(groups: Vec<Group<'_>>, counts: Vec<f64>) -> impl Iterator<Item = Costs> + '_ {
    let mut counts = counts.into_iter();
    groups.into_iter().map(move |mut calls| {
        let times = clock::medians(&mut calls);
        let named = calls.iter().map(|call| call.name).zip(times);
        let measured = named.map(|(name, time)| {
            let count = counts.next();
            (name, Measure { time, count })
        });
        measured.collect()
    })
}

/// A line for each input and call, with both sides' costs.
fn show_readings(
    subjects: &[Subject],
    edges: &[Input],
    costs: &mut impl Iterator<Item = Costs>,
) -> Vec<Compared> {
    show_heading("input");
    let subjects = subjects.iter().map(|one| (&one.input, one.times_faster));
    let inputs = subjects.chain(edges.iter().map(|input| (input, None)));
    let mut all = Vec::new();
    for ((input, times_faster), costs) in inputs.zip(costs) {
        let (pairs, _) = costs.as_chunks();
        for [(call, library), (_, rust)] in pairs {
            let ratio = show_pair(&input.name, call, *library, *rust);
            let named = format!("{call}, {}", input.name);
            all.push(Compared {
                named,
                ratio,
                times_faster,
            });
        }
    }
    all
}

/// The same for carriers whose payloads are numbered, which the Rust does not do: the times of the longest ones' readings.
fn show_numbered(numbered: &[Numbered], costs: &mut impl Iterator<Item = Costs>) -> Vec<Longest> {
    println!();
    show_heading("carrier whose payloads are numbered");
    let mut all = Vec::new();
    for (numbered, costs) in numbered.iter().zip(costs) {
        let name = &numbered.input.name;
        let (pairs, _) = costs.as_chunks();
        for [(call, library), (_, rust)] in pairs {
            show_pair(name, call, *library, *rust);
            let named = format!("{call}, {name}");
            let time = library.time;
            all.extend(numbered.is_longest.then_some(Longest { named, time }));
        }
    }
    all
}

fn show_heading(first: &str) {
    println!(
        "{first:<44} {:>8} {:>12} {:>12} {:>8} {:>12} {:>12} {:>8}",
        "call", "library", "Rust", "ratio", "library", "Rust", "ratio"
    );
}

fn show_pair(input: &str, call: &str, library: Measure, rust: Measure) -> Measure {
    let ratio = library.part_of(rust);
    let [library_count, rust_count] = [library.count, rust.count].map(|count| shown(count, 0));
    println!(
        "{input:<44} {call:>8} {:>12.1} {:>12.1} {:>8.4} {library_count:>12} {rust_count:>12} {:>8}",
        library.time,
        rust.time,
        ratio.time,
        shown(ratio.count, 4)
    );
    ratio
}

/// A line for a copy (c), for a reading (r), and for each edit that a carrier has a place for.
fn show_edits(subjects: &[Subject], costs: &mut impl Iterator<Item = Costs>) -> Vec<Edited> {
    println!(
        "\n{:<44} {:>15} {:>12} {:>8} {:>12}",
        "carrier", "call", "library", "to 2r+6c", "instructions"
    );
    let mut all = Vec::new();
    for (subject, costs) in subjects.iter().zip(costs) {
        let name = &subject.input.name;
        let bound = 2.0 * costs[1].1.time + 6.0 * costs[0].1.time;
        for (place, (call, Measure { time, count })) in costs.into_iter().enumerate() {
            let ratio = (place > 1).then_some(time / bound);
            let [to_bound, count] = [shown(ratio, 4), shown(count, 0)];
            println!("{name:<44} {call:>15} {time:>12.1} {to_bound:>8} {count:>12}");
            let named = format!("{call}, {name}");
            all.extend(ratio.map(|ratio| Edited { named, ratio }));
        }
    }
    all
}

/// A line for each edit: a copy (c), a reading (r), the edit and its plain form, by time and by instructions.
fn show_copies(copied: &[Copied], costs: &mut impl Iterator<Item = Costs>) -> Vec<Copies> {
    println!(
        "\n{:<40} {:>9} {:>9} {:>9} {:>11} {:>8} {:>9} {:>9} {:>9} {:>11}",
        "body", "copy", "read", "edit", "plain", "to r+c", "copy", "read", "edit", "plain"
    );
    let mut all = Vec::new();
    for (copied, costs) in copied.iter().zip(costs) {
        let name = &copied.name;
        let times: Vec<f64> = costs.iter().map(|(_, cost)| cost.time).collect();
        let counts: Vec<String> = costs.iter().map(|(_, cost)| shown(cost.count, 0)).collect();
        let [copy, read, edit, plain] = times[..] else {
            unreachable!("four calls for each edit")
        };
        let ratio = edit / (copy + read);
        println!(
            "{name:<40} {copy:>9.1} {read:>9.1} {edit:>9.1} {plain:>11.1} {ratio:>8.4} {:>9} {:>9} {:>9} {:>11}",
            counts[0], counts[1], counts[2], counts[3]
        );
        all.push(Copies {
            named: name.clone(),
            ratio,
            octets: copied.octets,
            straight: copied.is_straight(),
        });
    }
    all
}

fn shown(figure: Option<f64>, decimals: usize) -> String {
    figure.map_or("-".to_owned(), |figure| format!("{figure:.decimals$}"))
}
