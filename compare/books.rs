//! The programs `verdict` and `strict_verdict` against the scope and the Rust: books go
//! in at their standard input, whole or in pieces, and the line that each prints must be
//! the expected one. The library's sections and verdicts are held to the scope on the
//! same books.

use std::io::{ErrorKind, Read, Result, Write};
use std::process::{Child, Command, Stdio};
use std::thread;
use std::time::Duration;

use crate::book::{self, LONGEST};
use crate::bookcounts::{self, BookCounts};
use crate::bookdamage;
use crate::changes;
use crate::check::{Check, CHECK, STRICT_CHECK};
use crate::judged;
use crate::operation::{Lists, Operation};
use crate::random::Random;
use crate::rules::ACCEPTED;
use crate::sortedcheck::CHECK_WITH_SORTS;
use crate::strictcases;
use crate::tally::nothing_missing;

/// How many of a hundred random books go in piece by piece.
const IN_PIECES: u64 = 10;

/// So many pauses at most, so that the program reads before all is written.
const PAUSES: usize = 16;

struct Run<'a> {
    programs: [Program<'a>; 2],
    /// The answers about section 12.
    sections: BookCounts,
    whole: u64,
    pieces: u64,
}

/// A program, and the check that it prints the answer of.
struct Program<'a> {
    check: &'static Check,
    path: &'a str,
    /// By what the expected line says.
    came: BookCounts,
}

/// Gives the programs the known cases with their changes and so many random
/// books; false at a disagreement or where an answer never came.
pub fn books(seed: u64, cases: u64, verdict: &str, strict: &str) -> bool {
    println!("seed {seed}, {verdict}, {strict}, all known cases and {cases} random books");
    let program = |(check, path)| Program {
        check,
        path,
        came: BookCounts::default(),
    };
    let mut run = Run {
        programs: [(&CHECK, verdict), (&STRICT_CHECK, strict)].map(program),
        sections: BookCounts::default(),
        whole: 0,
        pieces: 0,
    };
    let good = run.judge(&[], None, "no input")
        && known().enumerate().all(|(k, lists)| {
            run.judge(
                &book::draft(&lists).bytes(),
                None,
                &format!("known case {k}"),
            )
        })
        && (0..cases).all(|case| {
            let mut random = Random::of_case(seed, case);
            let input = bookdamage::generate(&mut random);
            let pieces = random.below(100) < IN_PIECES;
            let which = format!("random case {case} of seed {seed}");
            run.judge(&input, pieces.then(|| random.word()), &which)
        });
    good && run.complete(cases)
}

/// Check's known cases and all their changes, then the strict check's small ones, and the
/// changes of those that it accepts; then those with sorts and their changes.
fn known() -> impl Iterator<Item = Lists> {
    let cases = CHECK.known().into_iter().map(|(lists, _)| lists);
    let small = || strictcases::small().into_iter();
    let accepted = small().filter(|&(_, answer)| answer == ACCEPTED);
    (cases.chain(CHECK.changed()))
        .chain(small().map(|(lists, _)| lists))
        .chain(accepted.flat_map(|(lists, _)| changes::each(&lists)))
        .chain(CHECK_WITH_SORTS.known().into_iter().map(|(lists, _)| lists))
        .chain(CHECK_WITH_SORTS.changed())
}

impl Run<'_> {
    /// Runs the programs on an input, in pieces where a seed of their sizes is given;
    /// false, with a report, when one does not print the expected line.
    fn judge(&mut self, input: &[u8], pieces: Option<u64>, which: &str) -> bool {
        match pieces {
            None => self.whole += 1,
            Some(_) => self.pieces += 1,
        }
        let number = self.whole + self.pieces;
        self.sections.count_section(input);
        if let Some(what) = judged::section_differs(input) {
            println!("DISAGREEMENT in {which}: {what}");
            show(input);
            return false;
        }
        let mut programs = self.programs.iter_mut();
        programs.all(|program| program.judge(input, number, pieces, which))
    }

    /// Prints what came; false if an answer never did in so many random cases.
    fn complete(&self, cases: u64) -> bool {
        self.programs.iter().for_each(Program::print);
        println!("the library's sections");
        self.sections.print();
        let total = self.whole + self.pieces;
        println!(
            "{total} books, {} of them in pieces, all as expected",
            self.pieces
        );
        let mut missing = self.sections.missing(bookcounts::due_sections());
        missing.extend(self.programs.iter().flat_map(Program::missing));
        nothing_missing(cases, &missing)
    }
}

impl Program<'_> {
    /// Judges a book of this number in the run.
    fn judge(&mut self, input: &[u8], number: u64, pieces: Option<u64>, which: &str) -> bool {
        let expected = book::verdict(self.check, input);
        self.came.count(self.check, input, expected);
        let mut lengths = Random::of_case(input.len() as u64, number);
        if let Some(what) = judged::verdict_differs(self.check, input, &mut lengths) {
            println!("DISAGREEMENT in {which}: {what}");
            show(input);
            return false;
        }
        let mut pieces = pieces.map(Random::new);
        let printed = match ask(self.path, input, pieces.as_mut()) {
            Ok(printed) => printed,
            Err(error) => format!("nothing: {error}\n"),
        };
        if printed == book::line(expected) {
            return true;
        }
        println!(
            "DISAGREEMENT of {} in {which}, an input of {} bytes:",
            self.path,
            input.len()
        );
        show(input);
        print!("printed:  {printed}expected: {}", book::line(expected));
        false
    }

    fn print(&self) {
        println!("{}, by {}", self.path, self.check.name());
        self.came.print();
    }

    /// Each thing that never came.
    fn missing(&self) -> impl Iterator<Item = String> + '_ {
        let never = self.came.missing(bookcounts::due(self.check)).into_iter();
        never.map(|label| format!("{}: {label}", self.check.name()))
    }
}

/// Prints an input's bytes.
fn show(input: &[u8]) {
    let bytes: Vec<String> = input.iter().map(|byte| format!("{byte:02x}")).collect();
    println!("{}", bytes.join(" "));
}

/// What the program prints about an input.
pub fn ask(program: &str, input: &[u8], pieces: Option<&mut Random>) -> Result<String> {
    let mut child = Command::new(program)
        .stdin(Stdio::piped())
        .stdout(Stdio::piped())
        .spawn()?;
    let given = give(&mut child, input, pieces);
    let mut printed = String::new();
    let mut output = child.stdout.take().expect("standard output is a pipe");
    output.read_to_string(&mut printed)?;
    let status = child.wait()?;
    if !status.success() {
        return Ok(format!("{printed}and ended with {status}\n"));
    }
    match given {
        // It may stop reading once it knows that an input is too long.
        Err(error) if error.kind() == ErrorKind::BrokenPipe && input.len() > LONGEST => Ok(printed),
        Err(error) => Err(error),
        Ok(()) => Ok(printed),
    }
}

/// Writes the input to the program and closes the pipe.
fn give(child: &mut Child, input: &[u8], pieces: Option<&mut Random>) -> Result<()> {
    let mut pipe = child.stdin.take().expect("standard input is a pipe");
    let Some(random) = pieces else {
        return pipe.write_all(input);
    };
    let most = random.pick(&[1, 2, 9, 64, 200, 5_000]);
    let mut left = input;
    let mut pauses = 0;
    while !left.is_empty() {
        let (piece, rest) = left.split_at(left.len().min(1 + random.place(most)));
        pipe.write_all(piece)?;
        pipe.flush()?;
        left = rest;
        if pauses < PAUSES && random.once_in(3) {
            pauses += 1;
            thread::sleep(Duration::from_micros(100));
        }
    }
    Ok(())
}
