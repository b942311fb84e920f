//! The kinds of element by number.
use crate::Refusal;

/// Stands between the faces of a polyhedron and is no id.
pub const SEPARATOR: u64 = u64::MAX;

/// The most entries of one element, separators counted.
pub const ELEMENT_LIMIT: usize = 4096;

/// The most ids of a block.
pub const BLOCK_LIMIT: usize = 65536;

/// A kind of element. A name that ends in a number has that many nodes.
///
/// ```
/// use tallyspool::{Kind, Refusal};
///
/// assert_eq!(Kind::try_from(15), Ok(Kind::Hex8));
/// assert_eq!(Kind::Hex8.number(), 15);
/// assert_eq!(Kind::Hex8.nodes(), Some(8));
/// assert_eq!(Kind::Phed.nodes(), None);
/// assert_eq!(Kind::try_from(20), Err(Refusal::UnknownKind));
/// ```
#[derive(Clone, Copy, Debug, PartialEq, Eq, Hash)]
#[repr(u64)]
pub enum Kind {
    Vertex = 1,
    Seg2,
    Seg3,
    Seg4,
    Tri3,
    Tri6,
    Tri7,
    Quad4,
    Quad8,
    Quad9,
    Tet4,
    Tet10,
    Wedge6,
    Wedge15,
    Hex8,
    Hex21,
    /// A line of 1 node or more.
    Pline,
    /// A polygon of 1 node or more.
    Pgon,
    /// A polyhedron: faces with [`SEPARATOR`] between them; it may be empty.
    Phed,
}

impl Kind {
    /// Every kind, in the order of the numbers, which begin at 1.
    pub const ALL: [Kind; 19] = [
        Kind::Vertex,
        Kind::Seg2,
        Kind::Seg3,
        Kind::Seg4,
        Kind::Tri3,
        Kind::Tri6,
        Kind::Tri7,
        Kind::Quad4,
        Kind::Quad8,
        Kind::Quad9,
        Kind::Tet4,
        Kind::Tet10,
        Kind::Wedge6,
        Kind::Wedge15,
        Kind::Hex8,
        Kind::Hex21,
        Kind::Pline,
        Kind::Pgon,
        Kind::Phed,
    ];

    pub fn number(self) -> u64 {
        self as u64
    }

    /// How many nodes an element of the kind has, where the kind fixes it.
    pub fn nodes(self) -> Option<usize> {
        const NODES: [usize; 16] = [1, 2, 3, 4, 3, 6, 7, 4, 8, 9, 4, 10, 6, 15, 8, 21];
        NODES.get(self as usize - 1).copied()
    }

    /// The kind of an answer, which is always one.
    pub(crate) fn known(number: u64) -> Kind {
        Kind::try_from(number).expect("an answer has a kind")
    }
}

impl TryFrom<u64> for Kind {
    type Error = Refusal;

    fn try_from(number: u64) -> Result<Kind, Refusal> {
        Kind::ALL
            .iter()
            .copied()
            .find(|kind| kind.number() == number)
            .ok_or(Refusal::UnknownKind)
    }
}
