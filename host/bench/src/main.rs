//! Times every operation beside the Rust that is ported, and prints two Markdown tables:
//!
//!     bench SPLIT PLAIN_SPLIT STREAM
//!
//! SPLIT and PLAIN_SPLIT are the two splitting programs, STREAM the file that their records are put in.
//! Before a row is timed its answers are compared; one that differs ends the run.

mod growth;
mod inputs;
mod programs;
mod sides;
mod table;
mod timing;

use compare::case::Case;
use compare::case::Operation::{SplitBlock, Subentities, ToPoly, ToSimplexes};
use compare::expected::{HEX8, TET4, WEDGE6, expected};
use inputs::{BLOCK, block, cells, polyhedra};
use table::Goal::{self, Copies, Milliseconds, Times};
use table::{HEAD, Measured, line};
use timing::{Work, best_of};

/// A row that is made of calls: what it is, what is called, and what it is held to.
type Row = (&'static str, Vec<Case>, &'static [Goal]);

#[rustfmt::skip]
fn rows() -> Vec<Row> {
    vec![
        ("split_block, 8,192 bricks, a brick", block(HEX8, BLOCK), &[Times(8.0), Copies(3.0)]),
        ("split_block, 8,192 wedges, a wedge", block(WEDGE6, BLOCK), &[Times(8.0)]),
        ("split_block, 8,192 tetrahedra, one", block(TET4, BLOCK), &[]),
        ("to_simplexes, a brick", cells(ToSimplexes, HEX8), &[Times(3.0)]),
        ("to_simplexes, a wedge", cells(ToSimplexes, WEDGE6), &[Times(3.0)]),
        ("from_poly, a tetrahedron", polyhedra(TET4), &[Times(8.0)]),
        ("from_poly, a brick", polyhedra(HEX8), &[Times(8.0)]),
        ("from_poly, a wedge", polyhedra(WEDGE6), &[Times(4.0)]),
        ("from_poly, a torus of 3,919 entries", vec![inputs::torus(28, 28)], &[Milliseconds(10.0)]),
        ("subentities, a tetrahedron", cells(Subentities, TET4), &[Times(4.0)]),
        ("subentities, a wedge", cells(Subentities, WEDGE6), &[Times(4.0)]),
        ("subentities, a brick", cells(Subentities, HEX8), &[Times(4.0)]),
        ("to_poly, a brick", cells(ToPoly, HEX8), &[Times(1.0)]),
        ("reorient, QUAD4 in the plane", inputs::quads_in_plane(), &[Times(4.0)]),
        ("reorient, a brick as PHED in space", inputs::bricks_in_space(), &[Times(4.0)]),
        ("reorient, a torus of 4,094 entries", vec![inputs::torus_in_space(21, 39)], &[]),
    ]
}

fn main() {
    let words: Vec<String> = std::env::args().skip(1).collect();
    let [ours, plain, stream] = &words[..] else {
        eprintln!("bench: use it as bench SPLIT PLAIN_SPLIT STREAM");
        std::process::exit(2);
    };
    let mut lines: Vec<Vec<String>> = rows().into_iter().map(measured).collect();
    let mut works = programs::programs(ours, plain, stream);
    let m = measure(&mut works, programs::RECORDS);
    lines.push(line("the program split, HEX8, a record", &[Times(1.0)], &m));
    table::print(&HEAD, &lines);
    println!();
    growth::print();
}

/// A row's line: a block is timed beside a copy of its answer, and its time is that of a cell.
fn measured((what, cases, goals): Row) -> Vec<String> {
    let is_block = cases[0].operation == SplitBlock;
    let answer = is_block.then(|| expected(&cases[0]).1.out.len());
    let count = if is_block { BLOCK } else { cases.len() };
    let mut works = sides::sides(what, cases);
    works.extend(answer.map(sides::memcpy));
    line(what, goals, &measure(&mut works, count))
}

fn measure(works: &mut [Work], cells: usize) -> Measured {
    let times: Vec<f64> = best_of(works).iter().map(|ns| ns / cells as f64).collect();
    Measured {
        ours: times[0],
        rust: times[1],
        memcpy: times.get(2).copied(),
    }
}
