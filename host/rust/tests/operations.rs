//! The examples of document 01 through the crate, and the two forms of each operation against each other.
use tallyspool::*;

fn rows(simplexes: &Simplexes<Vec<u64>>) -> Vec<Vec<u64>> {
    simplexes.iter().map(|ids| ids.to_vec()).collect()
}

fn upto(n: u64) -> Vec<u64> {
    (0..n).collect()
}

/// Faces as one list, a separator between two.
fn joined(faces: &[&[u64]]) -> Vec<u64> {
    faces.join(&SEPARATOR)
}

#[test]
fn bricks_and_wedges_split_as_the_document_says() {
    let brick = to_simplexes(Kind::Hex8, &[0, 4, 2, 5, 6, 1, 7, 3]).unwrap();
    assert_eq!(
        rows(&brick),
        [
            [0, 1, 3, 6],
            [0, 4, 2, 1],
            [2, 7, 3, 1],
            [0, 2, 5, 3],
            [0, 1, 2, 3]
        ]
    );
    let wedge = to_simplexes(Kind::Wedge6, &upto(6)).unwrap();
    assert_eq!(rows(&wedge), [[0, 4, 5, 3], [0, 1, 5, 4], [0, 5, 1, 2]]);
    assert_eq!(
        to_simplexes(Kind::Vertex, &[7]).unwrap().kind(),
        Kind::Vertex
    );
}

#[test]
fn poly_and_back() {
    for (kind, back) in [
        (Kind::Tet4, vec![0, 1, 3, 2]),
        (Kind::Hex8, vec![0, 3, 2, 1, 4, 7, 6, 5]),
        (Kind::Wedge6, upto(6)),
    ] {
        let poly = to_poly(kind, &upto(kind.nodes().unwrap() as u64)).unwrap();
        let cell = from_poly(poly.kind(), poly.ids()).unwrap();
        assert_eq!((cell.kind(), cell.ids()), (kind, &back[..]));
    }
}

#[test]
fn recognition_refuses() {
    let opposite = joined(&[
        &[1, 2, 3, 4],
        &[1, 2, 3, 4],
        &[1, 5, 6, 7],
        &[1, 5, 6, 7],
        &[1, 8, 9, 10],
        &[1, 8, 9, 10],
    ]);
    assert_eq!(
        from_poly(Kind::Phed, &opposite).unwrap_err(),
        Refusal::NoOppositeFace
    );
    let side = joined(&[
        &[1, 1, 2, 2],
        &[1, 1, 3, 3],
        &[2, 2, 4, 4],
        &[3, 3, 4, 4],
        &[5, 6, 7, 8],
        &[5, 6, 7, 8],
    ]);
    assert_eq!(
        from_poly(Kind::Phed, &side).unwrap_err(),
        Refusal::NoSideFace
    );
    assert_eq!(from_poly(Kind::Phed, &[]).unwrap_err(), Refusal::NoFace);
}

#[test]
fn limits() {
    assert_eq!(
        to_poly(Kind::Pgon, &vec![1; ELEMENT_LIMIT])
            .unwrap()
            .ids()
            .len(),
        ELEMENT_LIMIT
    );
    assert_eq!(
        to_poly(Kind::Pgon, &vec![1; ELEMENT_LIMIT + 1]).unwrap_err(),
        Refusal::TooManyEntries
    );
    assert_eq!(
        subentities(Kind::Pgon, None, &vec![1; ELEMENT_LIMIT])
            .unwrap()
            .len(),
        ELEMENT_LIMIT
    );
    let block = split_block(Kind::Hex8, &upto(BLOCK_LIMIT as u64)).unwrap();
    assert_eq!(block.len(), 6 * BLOCK_LIMIT / 8);
    assert_eq!(
        split_block(Kind::Hex8, &upto(BLOCK_LIMIT as u64 + 8)).unwrap_err(),
        Refusal::TooManyEntries
    );
    assert!(split_block(Kind::Tet4, &[]).unwrap().is_empty());
}

#[test]
fn faces_of_a_polyhedron() {
    let ids = [SEPARATOR, 1, 2, 3, SEPARATOR, SEPARATOR, 4, 5, SEPARATOR, 6];
    let faces = subentities(Kind::Phed, None, &ids).unwrap();
    assert_eq!(faces.ends(), [3, 5, 6]);
    let faces: Vec<_> = faces.iter().collect();
    assert_eq!(
        faces,
        [
            (Kind::Pgon, &[1, 2, 3][..]),
            (Kind::Pgon, &[4, 5][..]),
            (Kind::Pgon, &[6][..])
        ]
    );
    assert_eq!(
        subentities(Kind::Phed, Some(2), &ids).unwrap_err(),
        Refusal::NoRule
    );
    assert_eq!(
        subentities(Kind::Hex8, Some(4), &upto(8)).unwrap_err(),
        Refusal::NoSuchCodimension
    );
}

#[test]
fn winding() {
    let cube: Vec<[f64; 3]> = (0..8)
        .map(|i| [(i & 1) as f64, (i >> 1 & 1) as f64, (i >> 2) as f64])
        .collect();
    let inward = joined(&[
        &[0, 1, 3, 2],
        &[4, 6, 7, 5],
        &[0, 4, 5, 1],
        &[2, 3, 7, 6],
        &[0, 2, 6, 4],
        &[1, 5, 7, 3],
    ]);
    let outward = joined(&[
        &[2, 3, 1, 0],
        &[5, 7, 6, 4],
        &[1, 5, 4, 0],
        &[6, 7, 3, 2],
        &[4, 6, 2, 0],
        &[3, 7, 5, 1],
    ]);
    assert_eq!(
        reorient(Kind::Phed, &inward, Points::Space(&cube))
            .unwrap()
            .ids(),
        outward
    );
    assert_eq!(
        reorient(Kind::Phed, &outward, Points::Space(&cube))
            .unwrap()
            .ids(),
        outward
    );
    assert_eq!(
        reorient(Kind::Phed, &[0, 1, 8], Points::Space(&cube)).unwrap_err(),
        Refusal::NoPoint
    );
    assert_eq!(
        reorient(Kind::Hex8, &upto(8), Points::Space(&cube)).unwrap_err(),
        Refusal::NoRule
    );
    assert_eq!(
        reorient(Kind::Hex8, &upto(8), Points::Plane(&[]))
            .unwrap()
            .ids(),
        upto(8)
    );
}

#[test]
fn owned_answers_are_the_lent_ones_for_every_kind() {
    for kind in Kind::ALL {
        let ids = upto(kind.nodes().unwrap_or(5) as u64);
        let mut out = [SEPARATOR; 64];
        assert_eq!(
            to_simplexes(kind, &ids).map(|s| (s.kind(), s.into_ids())),
            lent::to_simplexes(kind, &ids, &mut out).map(|s| (s.kind(), s.ids().to_vec()))
        );
        assert_eq!(
            to_poly(kind, &ids).map(|e| (e.kind(), e.into_ids())),
            lent::to_poly(kind, &ids, &mut out).map(|e| (e.kind(), e.ids().to_vec()))
        );
        assert_eq!(
            from_poly(kind, &ids).map(|e| (e.kind(), e.into_ids())),
            lent::from_poly(kind, &ids, &mut out).map(|e| (e.kind(), e.ids().to_vec()))
        );
        for codimension in [None, Some(0), Some(1), Some(2), Some(3), Some(4)] {
            let mut ends = [SEPARATOR; 8];
            let list = |p: Vec<(Kind, &[u64])>| {
                p.into_iter()
                    .map(|(k, ids)| (k, ids.to_vec()))
                    .collect::<Vec<_>>()
            };
            let owned = subentities(kind, codimension, &ids).map(|p| list(p.iter().collect()));
            assert_eq!(
                owned,
                lent::subentities(kind, codimension, &ids, &mut out, &mut ends)
                    .map(|p| list(p.iter().collect()))
            );
        }
    }
}

#[test]
fn numbers_and_words() {
    for (i, kind) in Kind::ALL.iter().enumerate() {
        assert_eq!(Kind::try_from(i as u64 + 1), Ok(*kind));
    }
    let numbers = (1..=21).filter(|number| *number != 16);
    assert_eq!(numbers.clone().count(), Refusal::ALL.len());
    for (number, refusal) in numbers.zip(Refusal::ALL) {
        assert_eq!(Refusal::try_from(number), Ok(refusal));
        assert!(refusal.to_string().len() > 20);
    }
    assert_eq!(Refusal::try_from(16), Err(16));
    assert_eq!(Kind::try_from(0), Err(Refusal::UnknownKind));
    assert_eq!(Refusal::try_from(0), Err(0));
    assert_eq!(Refusal::try_from(22), Err(22));
}

#[test]
fn records() {
    let mut record = vec![50, 0, 0, 0, 13, 0];
    record.extend(write_ids(&[10, 8, 7, 9, 11, 12]));
    assert_eq!(
        rows(&split_record(&record).unwrap()),
        [[7, 9, 11, 12], [7, 11, 9, 8], [7, 8, 9, 10]]
    );
    assert_eq!(
        split_record(&[2, 0, 0, 0, 19, 0]).unwrap_err(),
        Refusal::NoRule
    );
    record.push(0);
    assert_eq!(split_record(&record).unwrap_err(), Refusal::BadRecord);
    assert_eq!(read_ids(&record).unwrap_err(), Refusal::BadRecord);
}
