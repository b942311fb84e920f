//! Tallyspool cuts bricks and prisms into tetrahedra without a slit between neighbours.
//!
//! These are safe functions over the proved archive `libtallyspool.a`; they add types and buffers and
//! nothing else. Every function takes any input: it answers, or it refuses by a [`Refusal`].
//!
//! The functions here return what they own. Those of [`lent`] write into buffers of the caller, allocate
//! nothing, and leave a buffer as it was if they refuse.
//!
//! ```
//! use tallyspool::{to_simplexes, Kind};
//!
//! let brick = [0, 1, 2, 3, 4, 5, 6, 7];
//! let tetrahedra = to_simplexes(Kind::Hex8, &brick)?;
//! assert_eq!(tetrahedra.kind(), Kind::Tet4);
//! assert_eq!(tetrahedra.len(), 6);
//! assert_eq!(tetrahedra.iter().next(), Some(&[0, 5, 6, 4][..]));
//! # Ok::<(), tallyspool::Refusal>(())
//! ```
//!
//! Two neighbours cut their common face along the same diagonal, the one through its smallest id:
//!
//! ```
//! use tallyspool::{split_block, Kind};
//!
//! let bricks = [0, 1, 2, 3, 4, 5, 6, 7, /* and behind 1 2 6 5: */ 1, 8, 9, 2, 5, 10, 11, 6];
//! let tetrahedra = split_block(Kind::Hex8, &bricks)?;
//! assert_eq!(tetrahedra.len(), 12);
//! let along = |a, b| {
//!     let face = [1, 2, 5, 6];
//!     tetrahedra.iter().filter(|t| t.iter().filter(|id| face.contains(id)).count() == 3 && t.contains(&a) && t.contains(&b)).count()
//! };
//! assert_eq!((along(1, 6), along(2, 5)), (4, 0));
//! # Ok::<(), tallyspool::Refusal>(())
//! ```

mod answers;
mod ffi;
mod kind;
pub mod lent;
mod refusal;

pub use answers::{Element, Parts, Simplexes};
pub use kind::{Kind, BLOCK_LIMIT, ELEMENT_LIMIT, SEPARATOR};
pub use refusal::Refusal;

/// The most ids that the simplexes of one cell take.
pub const SIMPLEX_IDS: usize = 24;

/// The ids of a brick's six faces, with a separator between two.
const BRICK_FACES: usize = 29;

/// The points of a mesh, in the plane or in space; point i belongs to id i.
#[derive(Clone, Copy, Debug)]
pub enum Points<'a> {
    Plane(&'a [[f64; 2]]),
    Space(&'a [[f64; 3]]),
}

/// The sub-entities of an element `codimension` below it; `None` means 1.
///
/// ```
/// use tallyspool::{subentities, Kind};
///
/// let faces = subentities(Kind::Wedge6, None, &[10, 11, 12, 13, 14, 15])?;
/// let faces: Vec<_> = faces.iter().collect();
/// assert_eq!(faces[0], (Kind::Tri3, &[10, 12, 11][..]));
/// assert_eq!(faces[2], (Kind::Quad4, &[10, 11, 14, 13][..]));
/// assert_eq!(faces.len(), 5);
/// # Ok::<(), tallyspool::Refusal>(())
/// ```
pub fn subentities(
    kind: Kind,
    codimension: Option<u64>,
    ids: &[u64],
) -> Result<Parts<Vec<u64>>, Refusal> {
    let mut out = vec![0; SIMPLEX_IDS.max(2 * ids.len())];
    let mut ends = vec![0; if kind == Kind::Phed { ids.len() } else { 0 }];
    let parts = lent::subentities(kind, codimension, ids, &mut out, &mut ends)?;
    let (shape, n, n_ends) = (parts.shape(), parts.ids().len(), parts.ends().len());
    out.truncate(n);
    ends.truncate(n_ends);
    Ok(Parts::new(shape, out, ends))
}

/// The poly form of an element: a cell as its faces, for example.
///
/// ```
/// use tallyspool::{to_poly, Kind};
///
/// let poly = to_poly(Kind::Tet4, &[0, 1, 2, 3])?;
/// assert_eq!(poly.kind(), Kind::Phed);
/// assert_eq!(poly.faces().collect::<Vec<_>>(), [[0, 1, 3], [1, 2, 3], [2, 0, 3], [0, 2, 1]]);
/// # Ok::<(), tallyspool::Refusal>(())
/// ```
pub fn to_poly(kind: Kind, ids: &[u64]) -> Result<Element<Vec<u64>>, Refusal> {
    element(BRICK_FACES.max(ids.len()), |out| {
        lent::to_poly(kind, ids, out)
    })
}

/// The fixed kind that an element of a poly kind is; the other kinds as they are.
///
/// ```
/// use tallyspool::{from_poly, Kind, Refusal};
///
/// let quad = from_poly(Kind::Pgon, &[5, 3, 9, 8])?;
/// assert_eq!((quad.kind(), quad.ids()), (Kind::Quad4, &[5, 3, 9, 8][..]));
/// assert_eq!(from_poly(Kind::Pgon, &[5]).unwrap_err(), Refusal::NoSuchPoly);
/// # Ok::<(), tallyspool::Refusal>(())
/// ```
pub fn from_poly(kind: Kind, ids: &[u64]) -> Result<Element<Vec<u64>>, Refusal> {
    element(8.max(ids.len()), |out| lent::from_poly(kind, ids, out))
}

/// The simplexes of one cell.
///
/// ```
/// use tallyspool::{to_simplexes, Kind};
///
/// let wedge = to_simplexes(Kind::Wedge6, &[10, 8, 7, 9, 11, 12])?;
/// assert_eq!(wedge.iter().collect::<Vec<_>>(), [[7, 9, 11, 12], [7, 11, 9, 8], [7, 8, 9, 10]]);
/// # Ok::<(), tallyspool::Refusal>(())
/// ```
pub fn to_simplexes(kind: Kind, ids: &[u64]) -> Result<Simplexes<Vec<u64>>, Refusal> {
    simplexes(SIMPLEX_IDS, |out| lent::to_simplexes(kind, ids, out))
}

/// The element wound: a cycle in the plane so that its area is not below zero, a polyhedron in space so
/// that its faces look out. Every other kind is copied and needs no points.
///
/// ```
/// use tallyspool::{reorient, Kind, Points};
///
/// let points = [[0.0, 0.0], [1.0, 0.0], [0.0, 1.0]];
/// let clockwise = reorient(Kind::Tri3, &[0, 2, 1], Points::Plane(&points))?;
/// assert_eq!(clockwise.ids(), [1, 2, 0]);
/// # Ok::<(), tallyspool::Refusal>(())
/// ```
pub fn reorient(kind: Kind, ids: &[u64], points: Points) -> Result<Element<Vec<u64>>, Refusal> {
    element(ids.len(), |out| lent::reorient(kind, ids, points, out))
}

/// The tetrahedra of a block of TET4, WEDGE6 or HEX8 cells, cell after cell.
///
/// ```
/// use tallyspool::{split_block, Kind, Refusal};
///
/// assert_eq!(split_block(Kind::Wedge6, &[0, 1, 2, 3, 4, 5, 6, 7, 8, 9, 10, 11])?.len(), 6);
/// assert_eq!(split_block(Kind::Wedge6, &[0, 1, 2, 3, 4]).unwrap_err(), Refusal::WrongNodeCount);
/// # Ok::<(), tallyspool::Refusal>(())
/// ```
pub fn split_block(kind: Kind, ids: &[u64]) -> Result<Simplexes<Vec<u64>>, Refusal> {
    simplexes(3 * ids.len().min(BLOCK_LIMIT), |out| {
        lent::split_block(kind, ids, out)
    })
}

/// The ids that little-endian bytes hold.
///
/// ```
/// let bytes = tallyspool::write_ids(&[7, 256]);
/// assert_eq!(bytes[..9], [7, 0, 0, 0, 0, 0, 0, 0, 0]);
/// assert_eq!(tallyspool::read_ids(&bytes)?, [7, 256]);
/// # Ok::<(), tallyspool::Refusal>(())
/// ```
pub fn read_ids(bytes: &[u8]) -> Result<Vec<u64>, Refusal> {
    let mut out = vec![0; bytes.len() / 8];
    lent::read_ids(bytes, &mut out)?;
    Ok(out)
}

/// The ids as little-endian bytes.
pub fn write_ids(ids: &[u64]) -> Vec<u8> {
    let mut out = vec![0; 8 * ids.len()];
    lent::write_ids(ids, &mut out).expect("8 bytes an id have room");
    out
}

/// The simplexes of the cell that one record holds: a 4-byte length of what follows, a 2-byte kind, then
/// 8-byte ids, all little-endian.
///
/// ```
/// use tallyspool::{split_record, write_ids, Refusal};
///
/// let mut record = vec![34, 0, 0, 0, 11, 0];
/// record.extend(write_ids(&[4, 5, 6, 7]));
/// assert_eq!(split_record(&record)?.ids(), [4, 5, 6, 7]);
/// assert_eq!(split_record(&record[1..]).unwrap_err(), Refusal::BadRecord);
/// # Ok::<(), tallyspool::Refusal>(())
/// ```
pub fn split_record(bytes: &[u8]) -> Result<Simplexes<Vec<u64>>, Refusal> {
    simplexes(SIMPLEX_IDS, |out| lent::split_record(bytes, out))
}

/// An element of its own over so many places.
fn element<F>(room: usize, operation: F) -> Result<Element<Vec<u64>>, Refusal>
where
    F: FnOnce(&mut [u64]) -> Result<Element<&[u64]>, Refusal>,
{
    let mut out = vec![0; room];
    let lent = operation(&mut out)?;
    let (kind, n) = (lent.kind(), lent.ids().len());
    out.truncate(n);
    Ok(Element::new(kind, out))
}

/// Simplexes of their own over so many places.
fn simplexes<F>(room: usize, operation: F) -> Result<Simplexes<Vec<u64>>, Refusal>
where
    F: FnOnce(&mut [u64]) -> Result<Simplexes<&[u64]>, Refusal>,
{
    let mut out = vec![0; room];
    let lent = operation(&mut out)?;
    let (kind, n) = (lent.kind(), lent.ids().len());
    out.truncate(n);
    Ok(Simplexes::new(kind, out))
}
