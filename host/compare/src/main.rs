//! The comparison of every operation with the Rust.
//!
//!     compare [N]            N calls of each operation (2,000,000 if absent)
//!     compare --fault        puts faults into the library's answers, and finds each
//!     compare --vectors FILE writes a sample of the expected answers for the program `replay`

mod cases;
mod coordinates;
mod polyhedra;
mod vectors;

use case::{Numbers, Operation, Outcome, lent};
use compare::{case, expected, ours, random};
use expected::Source;
use std::collections::BTreeMap;
use std::process::ExitCode;

const SEED: u64 = 20261115;

fn main() -> ExitCode {
    std::panic::set_hook(Box::new(|_| {}));
    let words: Vec<String> = std::env::args().skip(1).collect();
    let words: Vec<&str> = words.iter().map(String::as_str).collect();
    match words[..] {
        [] => compare_all(2_000_000),
        ["--fault"] => find_faults(),
        ["--vectors", file] => vectors::write(file),
        [n] if n.parse::<usize>().is_ok() => compare_all(n.parse().unwrap()),
        _ => {
            eprintln!("compare: use it as compare [N | --fault | --vectors FILE]");
            ExitCode::from(2)
        }
    }
}

/// What was counted over the calls of one operation.
#[derive(Default)]
struct Tally {
    calls: usize,
    /// The Rust answers.
    answers: usize,
    /// The Rust answers, with the wedge row that document 01 mends.
    mended: usize,
    /// The Rust gives an error or panics.
    refusals: usize,
    /// Document 01 alone refuses.
    paper: usize,
    /// A lent output is one entry short of the answer.
    short: usize,
    /// How often each refusal was due.
    due: BTreeMap<u64, usize>,
    differences: usize,
}

impl Tally {
    fn print(&self, operation: Operation) {
        let due: Vec<String> = self
            .due
            .iter()
            .map(|(number, n)| format!("{number}:{n}"))
            .collect();
        println!(
            "{}: {} calls, {} differences",
            operation.name(),
            self.calls,
            self.differences
        );
        println!(
            "  the Rust answers {}, and {} with the mended wedge row; it refuses {}",
            self.answers, self.mended, self.refusals
        );
        println!(
            "  document 01 alone refuses {}; an output is short in {}",
            self.paper, self.short
        );
        println!("  refusals due, by number: {}", due.join(" "));
    }
}

fn compare_all(n: usize) -> ExitCode {
    let mut failed = 0;
    for operation in Operation::ALL {
        let tally = compare(operation, n, None);
        tally.print(operation);
        failed += (tally.differences > 0) as usize;
    }
    println!("{} passed, {failed} failed", Operation::ALL.len() - failed);
    if failed == 0 {
        ExitCode::SUCCESS
    } else {
        ExitCode::FAILURE
    }
}

/// Puts each fault into each operation, and looks whether the comparison reports it.
fn find_faults() -> ExitCode {
    let (mut found, mut missed) = (0, 0);
    for operation in Operation::ALL {
        for fault in Fault::ALL {
            if compare(operation, 2000, Some(fault)).differences == 1 {
                found += 1;
            } else {
                missed += 1;
                println!("{}: {fault:?} is not reported", operation.name());
            }
        }
    }
    println!("{found} faults found, {missed} missed");
    if missed == 0 {
        ExitCode::SUCCESS
    } else {
        ExitCode::FAILURE
    }
}

/// A fault that is put into one answer of the library on purpose.
#[derive(Clone, Copy, Debug)]
enum Fault {
    Refusal,
    Kind,
    Count,
    FirstEntry,
    EntryBehind,
}

impl Fault {
    const ALL: [Fault; 5] = [
        Fault::Refusal,
        Fault::Kind,
        Fault::Count,
        Fault::FirstEntry,
        Fault::EntryBehind,
    ];

    fn put_into(self, outcome: &mut Outcome) {
        match self {
            Fault::Refusal => outcome.numbers.refusal ^= 1,
            Fault::Kind => outcome.numbers.kind ^= 1,
            Fault::Count => outcome.numbers.count ^= 1,
            Fault::FirstEntry => outcome.out[0] ^= 1,
            Fault::EntryBehind => *outcome.out.last_mut().unwrap() ^= 1,
        }
    }
}

fn compare(operation: Operation, n: usize, fault: Option<Fault>) -> Tally {
    let mut tally = Tally::default();
    let told = if fault.is_none() { 3 } else { 0 };
    let mut fault = fault;
    cases::each_case(operation, n, SEED, &mut |case| {
        let (source, answer) = expected::expected(case);
        let lent = lengths(&answer, tally.calls);
        let wanted = with_lengths(&answer, lent);
        let mut got = ours::call(case, lent.0, lent.1);
        if tally.calls > 1000 && lent.0 > 1 && answer.numbers.refusal == 0 {
            if let Some(fault) = fault.take() {
                fault.put_into(&mut got);
            }
        }
        tally.calls += 1;
        if wanted.numbers.refusal != 0 {
            *tally.due.entry(wanted.numbers.refusal).or_default() += 1;
        }
        match (source, wanted.numbers.refusal) {
            (Source::Paper, _) => tally.paper += 1,
            (_, 7) => tally.short += 1,
            (Source::Mended, _) => tally.mended += 1,
            (Source::Rust, 0) => tally.answers += 1,
            (Source::Rust, _) => tally.refusals += 1,
        }
        if got != wanted {
            tally.differences += 1;
            if tally.differences <= told {
                println!(
                    "{}: {case:?}\n  wanted {wanted:?}\n  got    {got:?}",
                    operation.name()
                );
            }
        }
    });
    tally
}

/// How long the lent outputs are: exact, longer, or one entry short, in turn.
pub fn lengths(answer: &Outcome, turn: usize) -> (usize, usize) {
    let (out, ends) = (answer.out.len(), answer.ends.len());
    match turn % 8 {
        0 => (out.saturating_sub(1), ends),
        1 => (out, ends.saturating_sub(1)),
        2 => (out + 1, ends),
        3 => (out + 30, ends + 5),
        4 => (out, ends + 1),
        _ => (out + turn % 4, ends + turn % 3),
    }
}

/// What the outputs of these lengths hold after the call, and the numbers: 7 if one is too short.
pub fn with_lengths(answer: &Outcome, (n_out, n_ends): (usize, usize)) -> Outcome {
    let mut whole = Outcome {
        numbers: answer.numbers,
        out: lent(n_out),
        ends: lent(n_ends),
    };
    if n_out < answer.out.len() || n_ends < answer.ends.len() {
        whole.numbers = Numbers::refused(7);
        return whole;
    }
    whole.out[..answer.out.len()].copy_from_slice(&answer.out);
    whole.ends[..answer.ends.len()].copy_from_slice(&answer.ends);
    whole
}
