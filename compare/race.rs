//! Two sides run in turn on the same input, and their times.

use std::time::Instant;

/// How often each side runs, after a first run that is not timed; GILFRUNT_ROUNDS, if set.
fn rounds() -> usize {
    let given = std::env::var("GILFRUNT_ROUNDS").ok();
    given
        .and_then(|word| word.parse().ok())
        .map_or(25, |rounds: usize| rounds.max(1))
}

/// What a time is given for.
#[derive(Clone, Copy)]
pub enum Per {
    /// Nanoseconds a row; the size counts rows.
    Row,
    /// Microseconds a run.
    Run,
}

/// The heads of the columns, ours against the Rust.
pub fn heading(size: &str) {
    heading_of(size, ["ours", "Rust"]);
}

/// The same for two sides of these names.
pub fn heading_of(size: &str, sides: [&str; 2]) {
    let [one, other] = sides.map(|side| format!("{side} (median)"));
    println!(
        "{:36} {size:>8}  {one:>19}  {other:>19}  {:>7}",
        "case", "ratio"
    );
}

/// Runs both in turn and prints a line; false if one of them ever answered
/// otherwise than it should.
pub fn race(
    name: &str,
    size: usize,
    per: Per,
    ours: &mut dyn FnMut() -> bool,
    rust: &mut dyn FnMut() -> bool,
) -> bool {
    let (unit, digits) = match per {
        Per::Row => (size as f64, 3),
        Per::Run => (1_000.0, 1),
    };
    let mut good = ours() && rust();
    let (mut mine, mut theirs) = (Vec::new(), Vec::new());
    for _ in 0..rounds() {
        mine.push(timed(unit, ours, &mut good));
        theirs.push(timed(unit, rust, &mut good));
    }
    let ((mine, mine_half), (theirs, theirs_half)) = (summary(mine), summary(theirs));
    let ratio = mine / theirs;
    println!(
        "{name:36} {size:>8}  {mine:>8.digits$} ({mine_half:>8.digits$})  \
         {theirs:>8.digits$} ({theirs_half:>8.digits$})  {ratio:>7.2}"
    );
    if !good {
        println!("{name}: an answer was not the expected one");
    }
    good
}

fn timed(unit: f64, run: &mut dyn FnMut() -> bool, good: &mut bool) -> f64 {
    let start = Instant::now();
    *good &= run();
    start.elapsed().as_nanos() as f64 / unit
}

/// The least and the median.
fn summary(mut times: Vec<f64>) -> (f64, f64) {
    times.sort_by(f64::total_cmp);
    (times[0], times[times.len() / 2])
}
