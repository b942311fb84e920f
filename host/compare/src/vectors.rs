//! The stored answers of the program `replay`: a few calls of each sort, with what must come of them.
//!
//! A record is sixteen 2-byte numbers, then 8-byte words, all little-endian. The numbers are:
//! operation (1 to 7, in the order of `Operation`; `split_record` is not stored), kind, codimension or dimension, then how many
//! ids, coordinates, entries of the first and of the second lent output follow; the refusal, kind,
//! count, second kind and second count of the answer; who gives it (0 the Rust, 1 the Rust with the
//! mended wedge row, 2 document 01); three zeros. Entry i of a lent output holds 0x5a5a << 48 plus i
//! before the call; the words are what the outputs hold after it.

use std::collections::BTreeMap;
use std::process::ExitCode;

use crate::case::{Case, Operation, Outcome};
use crate::expected::{ELEMENT_LIMIT, HEX21, PGON, PHED, QUAD4, Source, TRI3, WEDGE6, expected};
use crate::{SEED, cases, lengths, with_lengths};

/// So many calls are made to choose from.
const CALLS: usize = 200_000;
/// A stored call has at most so many ids, coordinates or entries, save at the limit of an element.
const LONG: usize = 100;

/// Operation, kind, parameter, refusal, kind of the answer, source.
type Sort = (Operation, u64, u64, u64, u64, u8);

/// How many calls of a sort are kept: most where the rules have most cases.
fn kept(operation: Operation, kind: u64, refusal: u64) -> usize {
    use Operation::*;
    match (refusal, operation, kind) {
        (0, ToSimplexes | SplitBlock, WEDGE6..=HEX21) => 60,
        (0, FromPoly, PHED) => 60,
        (0, Reorient, TRI3 | QUAD4 | PGON | PHED) => 60,
        (0, _, _) => 8,
        (8..=18, _, _) => 40,
        _ => 2,
    }
}

pub fn write(file: &str) -> ExitCode {
    let mut sorts: BTreeMap<Sort, usize> = BTreeMap::new();
    let mut records = Vec::new();
    let stored = Operation::ALL
        .into_iter()
        .filter(|o| *o != Operation::SplitRecord);
    for operation in stored {
        let mut turn = 0;
        cases::each_case(operation, CALLS, SEED, &mut |case| {
            let (source, answer) = expected(case);
            let lent = lengths(&answer, turn);
            turn += 1;
            let wanted = with_lengths(&answer, lent);
            let longest = case
                .ids
                .len()
                .max(case.points.len())
                .max(lent.0)
                .max(lent.1);
            let refusal = wanted.numbers.refusal;
            let long = longest > LONG;
            let parameter = match source {
                _ if long => case.ids.len() as u64,
                Source::Paper => 0,
                _ => case.parameter,
            };
            let sort = (
                operation,
                case.kind,
                parameter,
                refusal,
                wanted.numbers.kind,
                source as u8,
            );
            let seen = sorts.entry(sort).or_default();
            let wished = if long {
                at_limit(case) as usize
            } else {
                kept(operation, case.kind, refusal)
            };
            if *seen < wished && case.kind < 65536 && case.parameter < 65536 {
                *seen += 1;
                put(&mut records, case, source, &wanted);
            }
        });
    }
    std::fs::write(file, &records).unwrap();
    println!("{} bytes in {file}", records.len());
    ExitCode::SUCCESS
}

/// The longest calls that are kept: 4,096 entries pass the limit, 4,097 do not.
fn at_limit(case: &Case) -> bool {
    let long = case.ids.len() == ELEMENT_LIMIT || case.ids.len() == ELEMENT_LIMIT + 1;
    case.operation == Operation::FromPoly && case.kind == PHED && long
}

fn put(records: &mut Vec<u8>, case: &Case, source: Source, wanted: &Outcome) {
    let n = &wanted.numbers;
    let lengths = [
        case.ids.len(),
        case.points.len(),
        wanted.out.len(),
        wanted.ends.len(),
    ]
    .map(|n| n as u64);
    let head = [case.operation as u64, case.kind, case.parameter];
    let tail = [
        n.refusal,
        n.kind,
        n.count,
        n.kind2,
        n.count2,
        source as u64,
        0,
        0,
        0,
    ];
    for number in head.iter().chain(&lengths).chain(&tail) {
        records.extend(u16::try_from(*number).unwrap().to_le_bytes());
    }
    let points = case.points.iter().map(|p| p.to_bits());
    for word in case
        .ids
        .iter()
        .copied()
        .chain(points)
        .chain(wanted.out.iter().copied())
        .chain(wanted.ends.iter().copied())
    {
        records.extend(word.to_le_bytes());
    }
}
