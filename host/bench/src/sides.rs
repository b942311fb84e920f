//! The two sides of a row: the library's call and the Rust's, whose answers are compared before either
//! is timed.

use std::hint::black_box;
use std::process::exit;

use compare::case::{Case, Operation};
use compare::expected::{ELEMENT_LIMIT, NODES, expected};
use compare::ours;
use mefikit::element_traits::ElementTopo;
use mefikit::mesh::{Element, ElementType};
use mefikit::reorient::wound_alone;
use ndarray::ArrayView2;

use crate::inputs::BLOCK;
use crate::timing::Work;

/// The ids of the largest answer, that of a block of bricks.
const LONGEST: usize = BLOCK * 24;

/// The calls of the library and those of the Rust, each for all the cases in turn. Ends the run if an
/// answer of theirs differs.
pub fn sides(what: &str, cases: Vec<Case>) -> Vec<Work> {
    let (mut out, mut ends) = (vec![0; LONGEST], vec![0; ELEMENT_LIMIT]);
    let nodes: Vec<Vec<usize>> = cases
        .iter()
        .map(|case| case.ids.iter().map(|&id| id as usize).collect())
        .collect();
    for (case, nodes) in cases.iter().zip(&nodes) {
        if !agree(case, nodes, &mut out, &mut ends) {
            eprintln!("bench: {what}: the answers differ for {case:?}");
            exit(1);
        }
    }
    let cases: &'static [Case] = cases.leak();
    vec![library(cases, out, ends), rust(cases, nodes)]
}

/// The library's calls. Which one it is, is settled before any is timed, and an answer is left where the
/// library put it: it is stored by 8 bytes, and a copy by 16 would wait until all is written.
fn library(cases: &'static [Case], mut out: Vec<u64>, mut ends: Vec<u64>) -> Work {
    fn each<A>(cases: &'static [Case], mut call: impl FnMut(&Case) -> A + 'static) -> Work {
        Box::new(move || {
            for case in cases {
                black_box(&call(black_box(case)));
            }
        })
    }
    match cases[0].operation {
        Operation::Subentities => each(cases, move |c| ours::subentities(c, &mut out, &mut ends)),
        Operation::ToPoly => each(cases, move |c| ours::to_poly(c, &mut out)),
        Operation::FromPoly => each(cases, move |c| ours::from_poly(c, &mut out)),
        Operation::ToSimplexes => each(cases, move |c| ours::to_simplexes(c, &mut out)),
        Operation::Reorient => each(cases, move |c| ours::reorient(c, &mut out)),
        Operation::SplitBlock => each(cases, move |c| ours::split_block(c, &mut out)),
        Operation::SubentitiesOf | Operation::SplitRecord => unreachable!("they have no row"),
    }
}

/// The Rust's calls; a block is split cell by cell. Nothing is done with an answer but to drop it.
fn rust(cases: &'static [Case], nodes: Vec<Vec<usize>>) -> Work {
    fn each(
        cases: &'static [Case],
        nodes: Vec<Vec<usize>>,
        call: impl Fn(Element<'_>) + 'static,
    ) -> Work {
        Box::new(move || {
            for (case, nodes) in cases.iter().zip(&nodes) {
                call(element(case, black_box(nodes)));
            }
        })
    }
    let (kind, dimension) = (cases[0].kind as usize, cases[0].parameter as usize);
    match cases[0].operation {
        Operation::Subentities => each(cases, nodes, |e| drop(black_box(e.subentities(None)))),
        Operation::ToPoly => each(cases, nodes, |e| drop(black_box(e.to_poly()))),
        Operation::FromPoly => each(cases, nodes, |e| drop(black_box(e.from_poly()))),
        Operation::ToSimplexes => each(cases, nodes, |e| drop(black_box(e.to_simplexes()))),
        Operation::Reorient => each(cases, nodes, move |e| {
            drop(black_box(wound_alone(e, e.coords, dimension)))
        }),
        Operation::SplitBlock => each(cases, nodes, move |block| {
            for nodes in block.nodes.chunks(NODES[kind]) {
                drop(black_box(Element { nodes, ..block }.to_simplexes()))
            }
        }),
        Operation::SubentitiesOf | Operation::SplitRecord => unreachable!("they have no row"),
    }
}

/// A copy of as many ids.
pub fn memcpy(ids: usize) -> Work {
    let (from, mut to) = (vec![1u64; ids], vec![0; ids]);
    Box::new(move || black_box(&mut to).copy_from_slice(black_box(&from)))
}

/// Whether the library's answer is the Rust's, with the wedge row that document 01 mends.
fn agree(case: &Case, nodes: &[usize], out: &mut [u64], ends: &mut [u64]) -> bool {
    let (_, wanted) = expected(case);
    let numbers = ours::call_over(case, out, ends);
    let alone = case.operation != Operation::Reorient || {
        let cell = element(case, nodes);
        let wound = wound_alone(cell, cell.coords, case.parameter as usize);
        wound
            .iter()
            .map(|&n| n as u64)
            .eq(wanted.out.iter().copied())
    };
    alone
        && numbers == wanted.numbers
        && out.starts_with(&wanted.out)
        && ends.starts_with(&wanted.ends)
}

fn element<'a>(case: &'a Case, nodes: &'a [usize]) -> Element<'a> {
    Element {
        kind: ElementType::ALL[case.kind as usize - 1],
        nodes,
        coords: ArrayView2::from_rows(&case.points, case.parameter as usize),
    }
}
