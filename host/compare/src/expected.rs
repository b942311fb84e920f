//! What must come of a call: the Rust's answer, or document 01's where it is no matter of the Rust.

use std::panic::{AssertUnwindSafe, catch_unwind};

use mefikit::dimension::Dimension;
use mefikit::element_traits::ElementTopo;
use mefikit::mesh::{Element, ElementType};
use mefikit::reorient::wound;
use ndarray::ArrayView2;

use crate::case::{Case, Numbers, Operation, Outcome, SEPARATOR};

/// Where an expected outcome comes from.
#[derive(Clone, Copy, PartialEq, Eq, Debug)]
pub enum Source {
    /// The Rust's answer, error or panic.
    Rust,
    /// The Rust's answer, with the wedge row that document 01 mends.
    Mended,
    /// Document 01 alone: the input meets 1 to 4, 19, 20, a codimension above 3, 21, or an added rule.
    Paper,
}

pub const NODES: [usize; 17] = [0, 1, 2, 3, 4, 3, 6, 7, 4, 8, 9, 4, 10, 6, 15, 8, 21];
pub const TRI3: u64 = 5;
pub const QUAD4: u64 = 8;
pub const TET4: u64 = 11;
pub const WEDGE6: u64 = 13;
pub const WEDGE15: u64 = 14;
pub const HEX8: u64 = 15;
pub const HEX21: u64 = 16;
pub const PLINE: u64 = 17;
pub const PGON: u64 = 18;
pub const PHED: u64 = 19;
pub const ELEMENT_LIMIT: usize = 4096;
pub const BLOCK_LIMIT: usize = 65536;

/// The numbers, and what is written over the fronts of outputs that are long enough.
pub fn expected(case: &Case) -> (Source, Outcome) {
    if case.operation == Operation::SplitRecord {
        return record(case);
    }
    let refusal = paper_refusal(case);
    if refusal != 0 {
        return (Source::Paper, Outcome::refused(refusal));
    }
    let nodes: Vec<usize> = case.ids.iter().map(|&id| id as usize).collect();
    let kind = ElementType::ALL[case.kind as usize - 1];
    let columns = if case.operation == Operation::Reorient {
        case.parameter as usize
    } else {
        1
    };
    let coords = ArrayView2::from_rows(&case.points, columns);
    let cell = Element {
        kind,
        nodes: &nodes,
        coords,
    };
    if case.operation == Operation::SplitBlock {
        return block(case, &nodes, cell);
    }
    let answer = catch_unwind(AssertUnwindSafe(|| rust(case, cell)));
    match answer {
        Ok(outcome) if is_mended(case) => (Source::Mended, mended(case, outcome)),
        Ok(outcome) => (Source::Rust, outcome),
        Err(panic) => {
            let words = panic.downcast_ref::<String>().cloned();
            let words = words.or_else(|| panic.downcast_ref::<&str>().map(|s| s.to_string()));
            (
                Source::Rust,
                Outcome::refused(refusal_of_panic(case.operation, &words.unwrap_or_default())),
            )
        }
    }
}

/// The refusals that document 01 alone fixes, in its order; 0 where the Rust is asked.
fn paper_refusal(case: &Case) -> u64 {
    let Case {
        operation,
        kind,
        parameter,
        ids,
        points,
    } = case;
    let block = *operation == Operation::SplitBlock;
    let limit = if block { BLOCK_LIMIT } else { ELEMENT_LIMIT };
    if !(1..=19).contains(kind) {
        return 1;
    }
    if ids.len() > limit {
        return 2;
    }
    let count_fits = match *kind {
        PLINE | PGON => block || !ids.is_empty(),
        PHED => true,
        k if block => ids.len() % NODES[k as usize] == 0,
        k => ids.len() == NODES[k as usize],
    };
    if !count_fits {
        return 3;
    }
    if *kind != PHED && ids.contains(&SEPARATOR) {
        return 4;
    }
    let solid = matches!(*kind, TET4 | WEDGE6 | HEX8);
    match operation {
        Operation::Reorient => {
            if !matches!(parameter, 2 | 3) || points.len() as u64 % parameter != 0 {
                return 20;
            }
            if *parameter == 3 && solid {
                return 6;
            }
            let wound = if *parameter == 2 {
                matches!(*kind, TRI3 | QUAD4 | PGON)
            } else {
                *kind == PHED
            };
            let known = points.len() as u64 / parameter;
            if wound && ids.iter().any(|&id| id != SEPARATOR && id >= known) {
                19
            } else {
                0
            }
        }
        Operation::SubentitiesOf if *parameter > 3 => 5,
        Operation::SplitBlock if !solid => 6,
        _ => 0,
    }
}

fn rust(case: &Case, cell: Element) -> Outcome {
    match case.operation {
        Operation::Subentities => parts(cell.subentities(None)),
        Operation::SubentitiesOf => {
            parts(cell.subentities(Some(Dimension::try_from(case.parameter as usize).unwrap())))
        }
        Operation::ToPoly => listed(cell.to_poly()),
        Operation::FromPoly => match cell.from_poly() {
            Ok(found) => listed(found),
            Err(words) => Outcome::refused(refusal_of_error(&words)),
        },
        Operation::ToSimplexes => simplexes(cell.to_simplexes()),
        Operation::Reorient => {
            listed((cell.kind, wound(cell, cell.coords, case.parameter as usize)))
        }
        Operation::SplitBlock | Operation::SplitRecord => unreachable!("they are split as cells"),
    }
}

fn parts(pairs: Vec<(ElementType, mefikit::mesh::Connectivity)>) -> Outcome {
    let mut outcome = Outcome::refused(0);
    for (_, lists) in &pairs {
        outcome.out.extend(lists.nodes().iter().map(|&n| n as u64));
        outcome.ends.extend(lists.ends().iter().map(|&n| n as u64));
    }
    let pair = |i: usize| {
        pairs
            .get(i)
            .map_or((0, 0), |(kind, lists)| (*kind as u64, lists.len() as u64))
    };
    let ((kind, count), (kind2, count2)) = (pair(0), pair(1));
    outcome.numbers = Numbers {
        refusal: 0,
        kind,
        count,
        kind2,
        count2,
    };
    outcome
}

fn listed((kind, nodes): (ElementType, Vec<usize>)) -> Outcome {
    let out: Vec<u64> = nodes.iter().map(|&n| n as u64).collect();
    let numbers = Numbers {
        kind: kind as u64,
        count: out.len() as u64,
        ..Default::default()
    };
    Outcome {
        numbers,
        out,
        ends: vec![],
    }
}

fn simplexes(list: Vec<(ElementType, Vec<usize>)>) -> Outcome {
    let kind = list[0].0;
    assert!(
        list.iter().all(|(k, _)| *k == kind),
        "the Rust's simplexes are of several kinds"
    );
    let out = list
        .iter()
        .flat_map(|(_, nodes)| nodes.iter().map(|&n| n as u64))
        .collect();
    let numbers = Numbers {
        kind: kind as u64,
        count: list.len() as u64,
        ..Default::default()
    };
    Outcome {
        numbers,
        out,
        ends: vec![],
    }
}

/// A record that is damaged or too long is refused; any other is split as its kind and ids are.
fn record(case: &Case) -> (Source, Outcome) {
    if case.parameter != 0 || case.ids.len() > ELEMENT_LIMIT {
        return (Source::Paper, Outcome::refused(21));
    }
    let operation = Operation::ToSimplexes;
    expected(&Case {
        operation,
        kind: case.kind,
        parameter: 0,
        ids: case.ids.clone(),
        points: vec![],
    })
}

/// The cells' answers one after another.
fn block(case: &Case, nodes: &[usize], cell: Element) -> (Source, Outcome) {
    let mut whole = Outcome::refused(0);
    whole.numbers.kind = TET4;
    let mut source = Source::Rust;
    for nodes in nodes.chunks(NODES[case.kind as usize]) {
        let ids = nodes.iter().map(|&n| n as u64).collect();
        let one = Case {
            operation: Operation::ToSimplexes,
            kind: case.kind,
            parameter: 0,
            ids,
            points: vec![],
        };
        let mut answer = simplexes(Element { nodes, ..cell }.to_simplexes());
        if is_mended(&one) {
            source = Source::Mended;
            answer = mended(&one, answer);
        }
        whole.numbers.count += answer.numbers.count;
        whole.out.extend(answer.out);
    }
    (source, whole)
}

fn position_min(ids: &[u64]) -> usize {
    (0..ids.len()).min_by_key(|&i| ids[i]).unwrap()
}

/// Whether a split meets the row that document 01 mends: smallest at 2, diagonal 13.
fn is_mended(case: &Case) -> bool {
    let co = &case.ids;
    case.operation == Operation::ToSimplexes
        && matches!(case.kind, WEDGE6 | WEDGE15)
        && position_min(co) == 2
        && position_min(&[co[0], co[1], co[4], co[3]]) % 2 == 1
}

/// The third tetrahedron 2314 is 2130, and nothing else differs.
fn mended(case: &Case, mut outcome: Outcome) -> Outcome {
    let co = &case.ids;
    assert_eq!(
        outcome.out[8..12],
        [co[2], co[3], co[1], co[4]],
        "the Rust's wedge row is another"
    );
    outcome.out[8..12].copy_from_slice(&[co[2], co[1], co[3], co[0]]);
    outcome
}

/// The number of document 01 for an error of `from_poly`. That of the missing fourth node, 16, is not among them: no
/// input meets it, and one that did would end the comparison.
fn refusal_of_error(words: &str) -> u64 {
    let numbers = [
        ("PLINE with", 9),
        ("PGON with", 9),
        ("This element with faces of more than 2", 10),
        ("Has faces that does not map", 11),
        ("No match found", 12),
        ("Edge ", 14),
        ("PHED with", 15),
        ("Could not find opposite face", 17),
        ("Could not find side face", 18),
    ];
    let known = numbers.iter().find(|(start, _)| words.starts_with(start));
    known
        .unwrap_or_else(|| panic!("an error that document 01 does not number: {words}"))
        .1
}

/// The number of document 01 for a panic; 99 where it has none.
fn refusal_of_panic(operation: Operation, words: &str) -> u64 {
    let starts = |start: &str| words.starts_with(start);
    match operation {
        Operation::Subentities | Operation::SubentitiesOf
            if starts("It is not possible to ask") =>
        {
            5
        }
        Operation::Subentities | Operation::SubentitiesOf | Operation::ToPoly
            if starts("not yet implemented") =>
        {
            6
        }
        // A PHED of no entry has no smallest node either.
        Operation::ToSimplexes
            if starts("not yet implemented") || starts("called `Option::unwrap()`") =>
        {
            6
        }
        Operation::FromPoly if starts("index out of bounds") => 8,
        Operation::FromPoly if starts("no entry found for key") => 11,
        Operation::FromPoly if starts("called `Option::unwrap()`") => 13,
        _ => 99,
    }
}
