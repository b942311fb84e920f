//! The refusals by number, in words.
use std::error::Error;
use std::fmt;

/// Why an operation refuses; it says what is wrong and what to do.
///
/// ```
/// use tallyspool::{to_simplexes, Kind, Refusal};
///
/// let refusal = to_simplexes(Kind::Hex8, &[0, 1, 2]).unwrap_err();
/// assert_eq!(refusal, Refusal::WrongNodeCount);
/// assert_eq!(refusal.number(), 3);
/// assert_eq!(
///     refusal.to_string(),
///     "the node count is wrong for the kind: give as many ids as the kind has nodes, in a block a multiple of that"
/// );
/// ```
#[derive(Clone, Copy, Debug, PartialEq, Eq, Hash)]
#[repr(u64)]
pub enum Refusal {
    UnknownKind = 1,
    TooManyEntries,
    WrongNodeCount,
    StraySeparator,
    NoSuchCodimension,
    NoRule,
    ShortOutput,
    NoFace,
    NoSuchPoly,
    ThreeFaceLengths,
    NoWedgeFaces,
    NoQuadAtEdge,
    NotInSecondTriangle,
    OpenSurface,
    NoSuchSurface,
    // 16 is never given.
    NoOppositeFace = 17,
    NoSideFace,
    NoPoint,
    WrongPoints,
    BadRecord,
}

impl Refusal {
    /// Every refusal, in the order of the numbers: 1 to 21 without 16, which is never given.
    pub const ALL: [Refusal; 20] = [
        Refusal::UnknownKind,
        Refusal::TooManyEntries,
        Refusal::WrongNodeCount,
        Refusal::StraySeparator,
        Refusal::NoSuchCodimension,
        Refusal::NoRule,
        Refusal::ShortOutput,
        Refusal::NoFace,
        Refusal::NoSuchPoly,
        Refusal::ThreeFaceLengths,
        Refusal::NoWedgeFaces,
        Refusal::NoQuadAtEdge,
        Refusal::NotInSecondTriangle,
        Refusal::OpenSurface,
        Refusal::NoSuchSurface,
        Refusal::NoOppositeFace,
        Refusal::NoSideFace,
        Refusal::NoPoint,
        Refusal::WrongPoints,
        Refusal::BadRecord,
    ];

    pub fn number(self) -> u64 {
        self as u64
    }

    /// The refusal of an answer, if it has one.
    pub(crate) fn check(number: u64) -> Result<(), Refusal> {
        if number == 0 {
            return Ok(());
        }
        Err(Refusal::try_from(number).expect("an answer's refusal has a number"))
    }
}

/// A number that is no refusal comes back as it was.
impl TryFrom<u64> for Refusal {
    type Error = u64;

    fn try_from(number: u64) -> Result<Refusal, u64> {
        Refusal::ALL
            .iter()
            .copied()
            .find(|refusal| refusal.number() == number)
            .ok_or(number)
    }
}

impl fmt::Display for Refusal {
    fn fmt(&self, f: &mut fmt::Formatter<'_>) -> fmt::Result {
        f.write_str(match self {
            Refusal::UnknownKind => "the number is no kind of element: use 1 (VERTEX) to 19 (PHED)",
            Refusal::TooManyEntries => "there are too many entries: give one element at most 4,096, separators counted, and a block at most 65,536 ids",
            Refusal::WrongNodeCount => "the node count is wrong for the kind: give as many ids as the kind has nodes, in a block a multiple of that",
            Refusal::StraySeparator => "an id is 2^64 - 1, which separates the faces of a polyhedron: number the node otherwise, or give the kind PHED",
            Refusal::NoSuchCodimension => "the kind has no sub-entities at this codimension: use 1 to 3, and no more than the dimension of the element",
            Refusal::NoRule => "the operation has no rule for this kind: convert the element to a kind that it takes, or leave it as it is",
            Refusal::ShortOutput => "an output is shorter than the answer, and nothing was written: lend a longer one",
            Refusal::NoFace => "the polyhedron has no face: give at least one run of ids",
            Refusal::NoSuchPoly => "no fixed kind has this many nodes: a line needs 2, a polygon 3 or 4",
            Refusal::ThreeFaceLengths => "the faces have three or more lengths: a cell that is recognised has triangles, quads, or both",
            Refusal::NoWedgeFaces => "the faces have two lengths: a wedge needs two triangles and three quads",
            Refusal::NoQuadAtEdge => "no quad runs from the second node of the first triangle to its first: check the winding of the faces",
            Refusal::NotInSecondTriangle => "the quad at the first triangle does not lead to the second: check the ids of the three quads",
            Refusal::OpenSurface => "some edge is not there exactly twice: close the surface",
            Refusal::NoSuchSurface => "the surface is closed, but not of 4 triangles or 6 quads: it is no tetrahedron and no brick",
            Refusal::NoOppositeFace => "every face shares a node with the first: a brick needs one opposite",
            Refusal::NoSideFace => "an edge of the first face has no side face: check the ids of the quads",
            Refusal::NoPoint => "an id has no point: give a point for every id that is wound",
            Refusal::WrongPoints => "the points are not in the plane or in space, or their numbers are no multiple of the dimension",
            Refusal::BadRecord => "the bytes are cut short, of a length that the format has not, or too long: give one whole record, or 8 bytes an id",
        })
    }
}

impl Error for Refusal {}
