//! The aims for the speed of the library's calls, and how far a run's figures reach them.

/// Of one call or of one call's part of another: by time, and by instructions where they are counted.
#[derive(Clone, Copy)]
pub struct Measure {
    pub time: f64,
    pub count: Option<f64>,
}

impl Measure {
    pub fn part_of(self, other: Self) -> Self {
        let counts = self.count.zip(other.count);
        Self {
            time: self.time / other.time,
            count: counts.map(|(count, other)| count / other),
        }
    }
}

/// A call on an input in the library, as a part of the same in the Rust.
pub struct Compared {
    pub named: String,
    pub ratio: Measure,
    pub times_faster: Option<f64>,
}

/// A call on a carrier with as many numbered payloads as there is room for, in nanoseconds.
pub struct Longest {
    pub named: String,
    pub time: f64,
}

/// An edit's time, as a part of two readings and six copies.
pub struct Edited {
    pub named: String,
    pub ratio: f64,
}

/// An edit's time, as a part of a reading and a copy.
pub struct Copies {
    pub named: String,
    pub ratio: f64,
    pub octets: usize,
    pub straight: bool,
}

/// From so many octets on there is an aim for what copying them takes.
const MANY_OCTETS: usize = 4_096;

/// What the longest carrier's ordinals may take, in nanoseconds.
const A_SECOND: f64 = 1e9;

pub fn show(compared: &[Compared], longest: &[Longest], edited: &[Edited], copies: &[Copies]) {
    println!("\naims, and what this run reaches");
    let times = compared.iter().map(|one| (one.ratio.time, &one.named));
    show_worst("never slower than the Rust, by time", times);
    let counts = compared
        .iter()
        .filter_map(|one| Some((one.ratio.count?, &one.named)));
    show_worst("never slower than the Rust, by instructions", counts);
    compared.iter().for_each(show_times_faster);
    let seconds = longest.iter().map(|one| (one.time / A_SECOND, &one.named));
    show_worst("ordinals of the longest within a second", seconds);
    let edits = edited.iter().map(|one| (one.ratio, &one.named));
    show_worst("an edit within 2r+6c, by time", edits);
    for (straight, times) in [(true, 1.5), (false, 4.0)] {
        let phases = if straight { "equal" } else { "other" };
        let aim = format!("{phases} phases, many octets, within {times}(r+c)");
        let many = copies.iter().filter(|one| one.octets >= MANY_OCTETS);
        let such = many.filter(|one| one.straight == straight);
        show_worst(&aim, such.map(|one| (one.ratio / times, &one.named)));
    }
}

/// The largest of these ratios, none of which is to be above 1.
fn show_worst<'a>(aim: &str, ratios: impl Iterator<Item = (f64, &'a String)>) {
    if let Some((ratio, named)) = ratios.max_by(|(one, _), (other, _)| one.total_cmp(other)) {
        show_line(ratio <= 1.0, &format!("{ratio:.4}"), aim, named);
    }
}

fn show_times_faster(compared: &Compared) {
    let Some(wanted) = compared.times_faster else {
        return;
    };
    let Measure { time, count } = compared.ratio;
    for (ratio, by) in [(Some(time), "time"), (count, "instructions")] {
        if let Some(ratio) = ratio {
            let reached = 1.0 / ratio;
            let aim = format!("{wanted} times faster, by {by}");
            let figure = format!("{reached:.1}");
            show_line(reached >= wanted, &figure, &aim, &compared.named);
        }
    }
}

fn show_line(met: bool, figure: &str, aim: &str, named: &str) {
    let met = if met { "met" } else { "missed" };
    println!("{met:<6} {figure:>10}  {aim:<43}  {named}");
}
