//! The calls that are compared: first every small input, then random ones, many of them damaged.

use crate::case::{Case, Operation, SEPARATOR};
use crate::coordinates::coordinates;
use crate::expected::{BLOCK_LIMIT, ELEMENT_LIMIT, HEX8, NODES, PGON, PHED, PLINE, TET4, WEDGE6};
use crate::polyhedra::phed;
use crate::random::Random;

/// Hands on n calls of an operation; from a million on every small input is among them.
pub fn each_case(operation: Operation, n: usize, seed: u64, take: &mut dyn FnMut(&Case)) {
    let mut small = 0;
    if n >= 1_000_000 {
        every_small(operation, &mut |case| {
            take(case);
            small += 1;
        });
    }
    let mut random = Random(seed ^ operation as u64);
    for _ in small..n {
        take(&any(operation, &mut random));
    }
}

fn case(operation: Operation, kind: u64, parameter: u64, ids: Vec<u64>) -> Case {
    Case {
        operation,
        kind,
        parameter,
        ids,
        points: vec![],
    }
}

fn every_small(operation: Operation, take: &mut dyn FnMut(&Case)) {
    match operation {
        Operation::Subentities | Operation::SubentitiesOf | Operation::ToPoly => {
            every_table(operation, take)
        }
        Operation::FromPoly => every_phed(operation, take),
        Operation::ToSimplexes => every_order(operation, take),
        Operation::Reorient => every_triangle(operation, take),
        Operation::SplitBlock | Operation::SplitRecord => {
            words(6, 6, &mut |ids| {
                take(&case(operation, WEDGE6, 0, ids.to_vec()))
            });
            words(4, 8, &mut |ids| {
                take(&case(operation, HEX8, 0, ids.to_vec()))
            });
        }
    }
}

/// Every word of a length over the letters 0 to below n.
fn words(n: u64, length: usize, take: &mut dyn FnMut(&[u64])) {
    let mut word = vec![0; length];
    loop {
        take(&word);
        let Some(i) = word.iter().rposition(|&x| x + 1 < n) else {
            return;
        };
        word[i] += 1;
        word[i + 1..].fill(0);
    }
}

/// Every kind, codimension and length from 0 to 24.
fn every_table(operation: Operation, take: &mut dyn FnMut(&Case)) {
    for kind in 0..=20 {
        for length in 0..=24 {
            for codimension in 0..=5 {
                take(&case(
                    operation,
                    kind,
                    codimension,
                    (100..100 + length).collect(),
                ));
            }
        }
    }
    words(4, 8, &mut |ids| {
        take(&case(operation, PHED, 1, with_separators(ids, 3)))
    });
}

/// Every PHED of up to nine entries over three ids, and of up to seven over four.
fn every_phed(operation: Operation, take: &mut dyn FnMut(&Case)) {
    for length in 0..=9 {
        words(4, length, &mut |ids| {
            take(&case(operation, PHED, 0, with_separators(ids, 3)))
        });
    }
    for length in 0..=7 {
        words(5, length, &mut |ids| {
            take(&case(operation, PHED, 0, with_separators(ids, 4)))
        });
    }
}

fn with_separators(ids: &[u64], separator: u64) -> Vec<u64> {
    ids.iter()
        .map(|&id| if id == separator { SEPARATOR } else { id })
        .collect()
}

/// Every order that the ids of an element of up to eight nodes can stand in, equal ids too.
fn every_order(operation: Operation, take: &mut dyn FnMut(&Case)) {
    for kind in [1, 2, 3, 4, 5, 6, 8, 11, 13] {
        let n = NODES[kind as usize];
        words(n as u64, n, &mut |ids| {
            take(&case(operation, kind, 0, ids.to_vec()))
        });
    }
    words(8, 8, &mut |ids| {
        let used = ids.iter().fold(0u32, |set, &id| set | 1 << id);
        if used & (used + 1) == 0 {
            take(&case(operation, HEX8, 0, ids.to_vec()));
        }
    });
}

/// Every triangle in the plane over eight coordinates, special ones among them.
fn every_triangle(operation: Operation, take: &mut dyn FnMut(&Case)) {
    let values = [
        0.0,
        -0.0,
        1.0,
        -1.0,
        f64::INFINITY,
        f64::NAN,
        5e-324,
        -5e-324,
    ];
    words(8, 6, &mut |word| {
        let mut triangle = case(operation, 5, 2, vec![0, 1, 2]);
        triangle.points = word.iter().map(|&i| values[i as usize]).collect();
        take(&triangle);
    });
}

/// One random call.
fn any(operation: Operation, random: &mut Random) -> Case {
    match operation {
        Operation::Subentities | Operation::SubentitiesOf | Operation::ToPoly => {
            let kind = kind_of(random, &[PGON, PHED, TET4, WEDGE6, HEX8]);
            let parameter = match operation {
                Operation::SubentitiesOf if random.one_in(50) => random.bits(),
                Operation::SubentitiesOf => random.below(5) as u64,
                _ => 0,
            };
            case(operation, kind, parameter, list(random, kind))
        }
        Operation::FromPoly => {
            let kind = kind_of(random, &[PHED; 9]);
            case(operation, kind, 0, list(random, kind))
        }
        Operation::ToSimplexes => {
            let kind = kind_of(random, &[8, 9, 10, 13, 14, 15, 16]);
            case(operation, kind, 0, list(random, kind))
        }
        Operation::Reorient => reorient(random),
        Operation::SplitBlock => block(random),
        Operation::SplitRecord => record(random),
    }
}

/// Mostly one of these; else any kind, seldom one that is none.
fn kind_of(random: &mut Random, often: &[u64]) -> u64 {
    match random.below(100) {
        0 => random.pick(&[0, 20, 21, 1 << 32, (1 << 32) + 5, u64::MAX]),
        1..=20 => 1 + random.below(19) as u64,
        _ => random.pick(often),
    }
}

/// A node list for the kind, seldom of a wrong length or with a separator.
fn list(random: &mut Random, kind: u64) -> Vec<u64> {
    if kind == PHED {
        return phed(random);
    }
    let right = match kind {
        1..=16 => NODES[kind as usize],
        PLINE | PGON if random.one_in(2000) => ELEMENT_LIMIT - 1 + random.below(3),
        PLINE | PGON => 1 + random.below(9),
        _ => random.below(9),
    };
    let length = match random.below(100) {
        0 => right.saturating_sub(1),
        1 => right + 1,
        2 => random.below(40),
        3 if random.one_in(100) => ELEMENT_LIMIT + random.below(2),
        _ => right,
    };
    let mut ids = nodes(random, length);
    if length > 0 && random.one_in(50) {
        ids[random.below(length)] = SEPARATOR;
    }
    ids
}

/// Ids: distinct in any order, from a small pool, large, or at the ends of the range.
pub fn nodes(random: &mut Random, length: usize) -> Vec<u64> {
    let mut ids: Vec<u64> = (0..length as u64).collect();
    match random.below(4) {
        0 => random.shuffle(&mut ids),
        1 => {
            let pool = 1 + random.below(length + 2);
            ids.iter_mut()
                .for_each(|id| *id = random.below(pool) as u64);
        }
        2 => ids
            .iter_mut()
            .for_each(|id| *id = random.bits() % SEPARATOR),
        _ => ids.iter_mut().for_each(|id| {
            *id = random.pick(&[0, 1, 2, 1 << 32, 1 << 63, SEPARATOR - 2, SEPARATOR - 1])
        }),
    }
    ids
}

/// A record of a cell, seldom damaged. Its kind has 16 bits.
fn record(random: &mut Random) -> Case {
    let kind = kind_of(random, &[8, 9, 10, 13, 14, 15, 16]).min(0xffff);
    let damage = if random.one_in(20) {
        1 + random.below(3) as u64
    } else {
        0
    };
    case(Operation::SplitRecord, kind, damage, list(random, kind))
}

/// Cells one after another, seldom with a ragged end or up to the limit of a block.
fn block(random: &mut Random) -> Case {
    let kind = kind_of(random, &[TET4, WEDGE6, WEDGE6, HEX8, HEX8]);
    let size = if (1..=16).contains(&kind) {
        NODES[kind as usize]
    } else {
        1
    };
    let cells = if random.one_in(20_000) {
        BLOCK_LIMIT / size
    } else {
        random.below(6)
    };
    let mut ids: Vec<u64> = (0..cells).flat_map(|_| nodes(random, size)).collect();
    match random.below(60) {
        0 => drop(ids.pop()),
        1 => ids.push(7),
        2 => ids.push(SEPARATOR),
        3 if random.one_in(100) => ids.resize(BLOCK_LIMIT + 1, 0),
        _ => {}
    }
    case(Operation::SplitBlock, kind, 0, ids)
}

/// A cell over points of its own; seldom a missing point, a ragged list or another dimension.
fn reorient(random: &mut Random) -> Case {
    let dimension = match random.below(40) {
        0 => random.pick(&[0, 1, 4, u64::MAX]),
        1..=20 => 2,
        _ => 3,
    };
    let kind = if dimension == 2 {
        kind_of(random, &[5, 8, PGON])
    } else {
        kind_of(random, &[PHED; 9])
    };
    let mut ids = list(random, kind);
    let known = 1 + random.below(12);
    let rename = random.one_in(20);
    if !rename {
        ids.iter_mut()
            .filter(|id| **id != SEPARATOR)
            .for_each(|id| *id %= known as u64);
    }
    let mut points = coordinates(random, known * (dimension.min(4) as usize));
    if random.one_in(40) {
        points.pop();
    }
    Case {
        operation: Operation::Reorient,
        kind,
        parameter: dimension,
        ids,
        points,
    }
}
