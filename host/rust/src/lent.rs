//! The operations over lent buffers: nothing is allocated, an answer is written from the front, and
//! what lies behind it stays. A refusal leaves every buffer as it was; [`Refusal::ShortOutput`] says
//! that one of them is shorter than the answer.
//!
//! ```
//! use tallyspool::{lent, Kind, Refusal};
//!
//! let mut out = [9; 10];
//! let refused = lent::to_simplexes(Kind::Hex8, &[0, 1, 2, 3, 4, 5, 6, 7], &mut out);
//! assert_eq!(refused.unwrap_err(), Refusal::ShortOutput);
//! assert_eq!(out, [9; 10]);
//!
//! let cut = lent::to_simplexes(Kind::Quad4, &[5, 3, 9, 8], &mut out)?;
//! assert_eq!(cut.iter().collect::<Vec<_>>(), [[5, 3, 8], [9, 8, 3]]);
//! assert_eq!(out[6..], [9; 4]);
//! # Ok::<(), tallyspool::Refusal>(())
//! ```
use crate::answers::{Element, Parts, Shape, Simplexes};
use crate::ffi;
use crate::{Kind, Points, Refusal};

/// The sub-entities over the front of `out`. The ends of a polyhedron's faces go over the front of
/// `ends`, which the other kinds leave alone.
pub fn subentities<'a>(
    kind: Kind,
    codimension: Option<u64>,
    ids: &[u64],
    out: &'a mut [u64],
    ends: &'a mut [u64],
) -> Result<Parts<&'a [u64]>, Refusal> {
    let answer = ffi::subentities(kind.number(), codimension, ids, out, ends);
    Refusal::check(answer.refusal)?;
    let second = (answer.kind2 != 0).then(|| (Kind::known(answer.kind2), answer.count2 as usize));
    let shape = Shape {
        kind: Kind::known(answer.kind),
        count: answer.count as usize,
        second,
    };
    let n_ends = if kind == Kind::Phed { shape.count } else { 0 };
    let ends = &ends[..n_ends];
    let n = if kind == Kind::Phed {
        ends.last().map_or(0, |end| *end as usize)
    } else {
        shape.entries()
    };
    Ok(Parts::new(shape, &out[..n], ends))
}

/// The poly form over the front of `out`.
pub fn to_poly<'a>(
    kind: Kind,
    ids: &[u64],
    out: &'a mut [u64],
) -> Result<Element<&'a [u64]>, Refusal> {
    let answer = ffi::to_poly(kind.number(), ids, out);
    element(answer, out)
}

/// What an element of a poly kind is, over the front of `out`.
pub fn from_poly<'a>(
    kind: Kind,
    ids: &[u64],
    out: &'a mut [u64],
) -> Result<Element<&'a [u64]>, Refusal> {
    let answer = ffi::from_poly(kind.number(), ids, out);
    element(answer, out)
}

/// The simplexes of one cell over the front of `out`; [`SIMPLEX_IDS`](crate::SIMPLEX_IDS) places are
/// always enough.
pub fn to_simplexes<'a>(
    kind: Kind,
    ids: &[u64],
    out: &'a mut [u64],
) -> Result<Simplexes<&'a [u64]>, Refusal> {
    let answer = ffi::to_simplexes(kind.number(), ids, out);
    simplexes(answer, out)
}

/// The element wound, over the front of `out`.
pub fn reorient<'a>(
    kind: Kind,
    ids: &[u64],
    points: Points,
    out: &'a mut [u64],
) -> Result<Element<&'a [u64]>, Refusal> {
    let answer = ffi::reorient(kind.number(), ids, points, out);
    element(answer, out)
}

/// The tetrahedra of a block over the front of `out`; three places for each id are always enough.
pub fn split_block<'a>(
    kind: Kind,
    ids: &[u64],
    out: &'a mut [u64],
) -> Result<Simplexes<&'a [u64]>, Refusal> {
    let answer = ffi::split_block(kind.number(), ids, out);
    simplexes(answer, out)
}

/// The ids that little-endian bytes hold, over the front of `out`.
pub fn read_ids<'a>(bytes: &[u8], out: &'a mut [u64]) -> Result<&'a [u64], Refusal> {
    let answer = ffi::read_ids(bytes, out);
    Refusal::check(answer.refusal)?;
    Ok(&out[..answer.count as usize])
}

/// The ids as little-endian bytes over the front of `out`.
pub fn write_ids<'a>(ids: &[u64], out: &'a mut [u8]) -> Result<&'a [u8], Refusal> {
    let answer = ffi::write_ids(ids, out);
    Refusal::check(answer.refusal)?;
    Ok(&out[..answer.count as usize])
}

/// The simplexes of the cell that one record holds, over the front of `out`.
pub fn split_record<'a>(bytes: &[u8], out: &'a mut [u64]) -> Result<Simplexes<&'a [u64]>, Refusal> {
    let answer = ffi::split_record(bytes, out);
    simplexes(answer, out)
}

fn element(answer: ffi::Answer, out: &[u64]) -> Result<Element<&[u64]>, Refusal> {
    Refusal::check(answer.refusal)?;
    Ok(Element::new(
        Kind::known(answer.kind),
        &out[..answer.count as usize],
    ))
}

fn simplexes(answer: ffi::Answer, out: &[u64]) -> Result<Simplexes<&[u64]>, Refusal> {
    Refusal::check(answer.refusal)?;
    let kind = Kind::known(answer.kind);
    let n = answer.count as usize * kind.nodes().expect("a simplex has a node count");
    Ok(Simplexes::new(kind, &out[..n]))
}
