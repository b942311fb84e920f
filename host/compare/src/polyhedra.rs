//! Polyhedra to recognise and to wind: good ones, and damaged copies of them.

use crate::case::SEPARATOR;
use crate::cases::nodes;
use crate::expected::ELEMENT_LIMIT;
use crate::random::Random;

/// The faces of TET4, WEDGE6 and HEX8, and document 01's quads with no side face at a bottom edge.
const FACES: [&[&[usize]]; 4] = [
    &[&[0, 1, 3], &[1, 2, 3], &[2, 0, 3], &[0, 2, 1]],
    &[
        &[0, 2, 1],
        &[3, 4, 5],
        &[0, 1, 4, 3],
        &[1, 2, 5, 4],
        &[2, 0, 3, 5],
    ],
    &[
        &[0, 3, 2, 1],
        &[4, 5, 6, 7],
        &[0, 1, 5, 4],
        &[1, 2, 6, 5],
        &[2, 3, 7, 6],
        &[3, 0, 4, 7],
    ],
    &[
        &[0, 0, 1, 1],
        &[0, 0, 2, 2],
        &[1, 1, 3, 3],
        &[2, 2, 3, 3],
        &[4, 5, 6, 7],
        &[4, 5, 6, 7],
    ],
];

/// A polyhedron: a cell's faces, doubled faces, faces of some lengths, or anything; often damaged.
pub fn phed(random: &mut Random) -> Vec<u64> {
    let mut faces = match random.below(8) {
        0..=3 => cell_faces(random),
        4 | 5 => doubled_faces(random),
        6 => mixed_faces(random),
        _ => return random_entries(random),
    };
    if random.one_in(2) {
        random.shuffle(&mut faces);
    }
    if random.one_in(2) {
        faces.iter_mut().for_each(|face| turn(random, face));
    }
    let mut ids = faces.join(&SEPARATOR);
    while random.one_in(3) {
        damage(random, &mut ids);
    }
    ids
}

fn cell_faces(random: &mut Random) -> Vec<Vec<u64>> {
    let faces = random.pick(&FACES);
    let mut ids = nodes(random, 8);
    if random.one_in(2) {
        random.shuffle(&mut ids);
    }
    while random.one_in(3) {
        ids[random.below(8)] = ids[random.below(8)];
    }
    faces
        .iter()
        .map(|face| face.iter().map(|&i| ids[i]).collect())
        .collect()
}

/// Faces that stand there twice, so that each edge does too; seldom up to the limit of an element.
fn doubled_faces(random: &mut Random) -> Vec<Vec<u64>> {
    if random.one_in(2000) {
        let half = ELEMENT_LIMIT / 2 - random.below(2);
        let face: Vec<u64> = (0..half as u64).collect();
        return vec![face; 2];
    }
    let (pairs, length) = random.pick(&[
        (2, 3),
        (3, 4),
        (3, 4),
        (3, 4),
        (1, 5),
        (2, 4),
        (3, 3),
        (1, 1),
        (1, 2),
    ]);
    let pool = nodes(random, pairs * length + 1);
    let face = |random: &mut Random| (0..length).map(|_| random.pick(&pool)).collect();
    let mut faces: Vec<Vec<u64>> = (0..pairs).map(|_| face(random)).collect();
    faces.extend(faces.clone());
    faces
}

fn mixed_faces(random: &mut Random) -> Vec<Vec<u64>> {
    let mut lengths: Vec<usize> = vec![3; random.below(4)];
    lengths.extend(vec![4; random.below(5)]);
    if random.one_in(6) {
        lengths.push(1 + random.below(6));
    }
    let pool = 2 + random.below(6);
    lengths
        .iter()
        .map(|&n| (0..n).map(|_| random.below(pool) as u64).collect())
        .collect()
}

fn random_entries(random: &mut Random) -> Vec<u64> {
    let length = if random.one_in(500) {
        ELEMENT_LIMIT - 1 + random.below(3)
    } else {
        random.below(34)
    };
    let pool = 1 + random.below(9);
    (0..length)
        .map(|_| {
            if random.one_in(4) {
                SEPARATOR
            } else {
                random.below(pool) as u64
            }
        })
        .collect()
}

fn turn(random: &mut Random, face: &mut [u64]) {
    if random.one_in(2) {
        face.reverse();
    }
    if !face.is_empty() {
        face.rotate_left(random.below(face.len()));
    }
}

fn damage(random: &mut Random, ids: &mut Vec<u64>) {
    let at = random.below(ids.len() + 1);
    if at == ids.len() || random.one_in(4) {
        ids.insert(at, SEPARATOR);
        return;
    }
    match random.below(5) {
        0 => ids[at] = random.pick(ids),
        1 => ids[at] = random.below(9) as u64,
        2 => drop(ids.remove(at)),
        3 => ids.truncate(at),
        _ => ids.swap(at, 0),
    }
}
