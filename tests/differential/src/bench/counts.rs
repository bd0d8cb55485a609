//! How many instructions calls take, counted by callgrind in one run of this program under it.

use crate::calls::Call;
use std::io::ErrorKind;
use std::path::Path;
use std::process::Command;
use std::{env, fs};

/// The argument that makes this program the one that is counted.
pub const ARGUMENT: &str = "--make-each";

/// Calls before those that are counted, so that memory that is taken once doesn't count.
const UNCOUNTED: u32 = 3;

/// So many are counted, then so many; their difference is of calls alone.
const FEW: u32 = 1;
const MANY: u32 = 5;

/// Where callgrind starts at 0, and what it writes a total after.
const FUNCTION: &str = "counted_calls";

/// Instructions for each of so many calls, in the order in which `make_each` makes them.
///
/// # Errors
///
/// With the reason why there are none.
pub fn taken(calls: usize) -> Result<Vec<f64>, String> {
    let program = env::current_exe().map_err(|error| error.to_string())?;
    let written = program.with_file_name("callgrind.out");
    count(&program, &written)?;
    let written = fs::read_to_string(written).map_err(|error| error.to_string())?;
    let counts = differences(&written)?;
    if counts.len() != calls {
        return Err(format!("{} counts of {calls} calls", counts.len()));
    }
    Ok(counts)
}

/// What the run under callgrind does: each call, some of its calls counted.
pub fn make_each<'a>(calls: impl Iterator<Item = Call<'a>>) {
    for mut call in calls {
        (0..UNCOUNTED).for_each(|_| (call.make)());
        counted_calls(&mut call.make, FEW);
        counted_calls(&mut call.make, MANY);
    }
}

// Callgrind finds it by its name.
#[no_mangle]
#[inline(never)]
fn counted_calls(make: &mut dyn FnMut(), times: u32) {
    for _ in 0..times {
        make();
    }
}

fn count(program: &Path, written: &Path) -> Result<(), String> {
    let run = Command::new("valgrind")
        .args(["-q", "--tool=callgrind", "--combine-dumps=yes"])
        .args(["zero-before", "dump-after"].map(|option| format!("--{option}={FUNCTION}")))
        .arg(format!("--callgrind-out-file={}", written.display()))
        .arg(program)
        .arg(ARGUMENT)
        .status();
    match run {
        Ok(status) if status.success() => Ok(()),
        Ok(status) => Err(format!("valgrind ends with {status}")),
        Err(error) if error.kind() == ErrorKind::NotFound => {
            Err("valgrind is not installed".to_owned())
        }
        Err(error) => Err(format!("valgrind doesn't start: {error}")),
    }
}

/// The differences of each two totals; the last total is of what comes after all calls.
fn differences(written: &str) -> Result<Vec<f64>, String> {
    let lines = written.lines();
    let totals = lines.filter_map(|line| line.strip_prefix("totals: "));
    let totals: Result<Vec<f64>, _> = totals.map(str::parse).collect();
    let totals = totals.map_err(|error| format!("callgrind's totals: {error}"))?;
    let (pairs, _) = totals.as_chunks();
    let calls = f64::from(MANY - FEW);
    let counts = pairs.iter().map(|[few, many]| (many - few) / calls);
    Ok(counts.collect())
}
