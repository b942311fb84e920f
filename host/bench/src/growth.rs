//! The time of a block against its size.

use compare::expected::{HEX8, TET4, WEDGE6};

use crate::inputs::{BLOCK, block};
use crate::sides::{memcpy, sides};
use crate::table::{self, nanoseconds, verdict};
use crate::timing::{Work, best_of};

const SIZES: [usize; 6] = [256, 512, 1024, 2048, 4096, BLOCK];
const KINDS: [u64; 3] = [HEX8, WEDGE6, TET4];
/// What twice the cells may cost.
const GOAL: f64 = 2.1;

/// Prints the time of a cell in blocks of each size, beside a copy of the tetrahedra that a block of
/// tetrahedra comes to, and the largest factors for twice the cells.
pub fn print() {
    let ours = |size, kind| sides("split_block", block(kind, size)).swap_remove(0);
    let of_size = |&size: &usize| {
        let blocks = KINDS.map(|kind| ours(size, kind)).into_iter();
        blocks.chain([memcpy(size * 4)]).collect::<Vec<Work>>()
    };
    let times = best_of(&mut SIZES.iter().flat_map(of_size).collect::<Vec<Work>>());
    let times: Vec<&[f64]> = times.chunks(KINDS.len() + 1).collect();

    let line = |i: usize| {
        let mut line = vec![SIZES[i].to_string()];
        line.extend(times[i].iter().map(|ns| nanoseconds(ns / SIZES[i] as f64)));
        line
    };
    let lines: Vec<Vec<String>> = (0..SIZES.len()).map(line).collect();
    let head = [
        "cells",
        "a brick, ns",
        "a wedge, ns",
        "a tetrahedron, ns",
        "its memcpy, ns",
    ];
    table::print(&head, &lines);
    let [bricks, wedges, tetrahedra, copies] = [0, 1, 2, 3].map(|column| largest(&times, column));
    let met = |factor: f64| verdict(factor <= GOAL);
    println!(
        "\nTwice the cells take at most {bricks:.2} times the time for bricks ({}), {wedges:.2} for wedges ({}) and \
         {tetrahedra:.2} for tetrahedra ({}),\nwhere {copies:.2} is the memcpy's; the goal is <= {GOAL}.",
        met(bricks),
        met(wedges),
        met(tetrahedra),
    );
}

/// The largest factor between one size and the next in a column.
fn largest(times: &[&[f64]], column: usize) -> f64 {
    let factors = times.windows(2).map(|two| two[1][column] / two[0][column]);
    factors.fold(0.0, f64::max)
}
