//! The inputs, the same in every run: cells with random ids, so that every row of the tables is met in
//! an order that no branch can learn by heart, and closed surfaces.

use std::f64::consts::TAU;

use compare::case::{Case, Operation, SEPARATOR};
use compare::expected::{HEX8, NODES, PHED, QUAD4, expected};
use compare::random::Random;

/// So many cells stand in a block, and half of them take turns where calls are for one cell.
pub const BLOCK: usize = 8192;
pub const SINGLE: usize = BLOCK / 2;

fn case(operation: Operation, kind: u64, ids: Vec<u64>) -> Case {
    Case {
        operation,
        kind,
        parameter: 0,
        ids,
        points: vec![],
    }
}

fn random_ids(random: &mut Random, n: usize) -> Vec<u64> {
    (0..n).map(|_| random.bits() >> 1).collect()
}

/// A block of cells of one kind.
pub fn block(kind: u64, cells: usize) -> Vec<Case> {
    let ids = random_ids(&mut Random(kind), cells * NODES[kind as usize]);
    vec![case(Operation::SplitBlock, kind, ids)]
}

/// A call for each of many cells.
pub fn cells(operation: Operation, kind: u64) -> Vec<Case> {
    let mut random = Random(kind);
    let mut cell = || random_ids(&mut random, NODES[kind as usize]);
    (0..SINGLE).map(|_| case(operation, kind, cell())).collect()
}

/// Many cells as polyhedra, to be recognised.
pub fn polyhedra(kind: u64) -> Vec<Case> {
    cells(Operation::ToPoly, kind)
        .iter()
        .map(|cell| case(Operation::FromPoly, PHED, expected(cell).1.out))
        .collect()
}

/// The quads of a grid that closes on itself both ways.
pub fn torus(wide: u64, round: u64) -> Case {
    let node = |i: u64, j: u64| (i % wide) * round + j % round;
    let mut ids = vec![];
    for (i, j) in (0..wide).flat_map(|i| (0..round).map(move |j| (i, j))) {
        ids.extend([node(i, j), node(i + 1, j), node(i + 1, j + 1)]);
        ids.extend([node(i, j + 1), SEPARATOR]);
    }
    ids.pop();
    case(Operation::FromPoly, PHED, ids)
}

/// Quads in the plane, about half of them wound the wrong way.
pub fn quads_in_plane() -> Vec<Case> {
    let mut random = Random(QUAD4);
    (0..SINGLE)
        .map(|_| {
            let mut ids: Vec<u64> = (0..4).collect();
            random.shuffle(&mut ids);
            let points = (0..8).map(|_| unit(&mut random)).collect();
            in_dimension(2, QUAD4, ids, points)
        })
        .collect()
}

/// Bricks as polyhedra in space, each a bent cube with some of its faces turned round.
pub fn bricks_in_space() -> Vec<Case> {
    const CUBE: [[f64; 3]; 8] = [
        [0.0, 0.0, 0.0],
        [1.0, 0.0, 0.0],
        [1.0, 1.0, 0.0],
        [0.0, 1.0, 0.0],
        [0.0, 0.0, 1.0],
        [1.0, 0.0, 1.0],
        [1.0, 1.0, 1.0],
        [0.0, 1.0, 1.0],
    ];
    let mut random = Random(PHED);
    let brick = case(Operation::ToPoly, HEX8, (0..8).collect());
    let faces = expected(&brick).1.out;
    (0..SINGLE)
        .map(|_| {
            let points = CUBE.as_flattened().iter();
            let points = points.map(|x| x + 0.2 * unit(&mut random)).collect();
            in_dimension(3, PHED, some_turned(&mut random, &faces), points)
        })
        .collect()
}

/// The torus in space, with some of its faces turned round.
pub fn torus_in_space(wide: u64, round: u64) -> Case {
    let faces = torus(wide, round).ids;
    let point = |i: u64, j: u64| {
        let (a, b) = (TAU * i as f64 / wide as f64, TAU * j as f64 / round as f64);
        let radius = 2.0 + b.cos();
        [radius * a.cos(), radius * a.sin(), b.sin()]
    };
    let points = (0..wide).flat_map(|i| (0..round).flat_map(move |j| point(i, j)));
    let turned = some_turned(&mut Random(wide), &faces);
    in_dimension(3, PHED, turned, points.collect())
}

fn in_dimension(dimension: u64, kind: u64, ids: Vec<u64>, points: Vec<f64>) -> Case {
    Case {
        parameter: dimension,
        points,
        ..case(Operation::Reorient, kind, ids)
    }
}

/// From 0 to below 1.
fn unit(random: &mut Random) -> f64 {
    (random.bits() >> 11) as f64 / (1u64 << 53) as f64
}

fn some_turned(random: &mut Random, faces: &[u64]) -> Vec<u64> {
    let turned = faces.split(|&id| id == SEPARATOR).map(|face| {
        let mut face = face.to_vec();
        if random.one_in(2) {
            face.reverse();
        }
        face
    });
    turned.collect::<Vec<_>>().join(&SEPARATOR)
}
