//! What the operations answer, over a buffer that is lent (`&[u64]`) or owned (`Vec<u64>`).
use crate::{Kind, SEPARATOR};

/// An element: its kind, and its ids with the separators between the faces of a polyhedron.
#[derive(Clone, Copy, Debug, PartialEq, Eq)]
pub struct Element<B> {
    kind: Kind,
    ids: B,
}

impl<B: AsRef<[u64]>> Element<B> {
    pub(crate) fn new(kind: Kind, ids: B) -> Self {
        Element { kind, ids }
    }

    pub fn kind(&self) -> Kind {
        self.kind
    }

    /// Every entry, separators too.
    pub fn ids(&self) -> &[u64] {
        self.ids.as_ref()
    }

    /// The faces of a polyhedron: the runs between separators that are not empty. Of another kind, its ids.
    pub fn faces(&self) -> impl Iterator<Item = &[u64]> + '_ {
        self.ids()
            .split(|id| *id == SEPARATOR)
            .filter(|face| !face.is_empty())
    }

    pub fn into_ids(self) -> B {
        self.ids
    }
}

/// Simplexes of one kind.
#[derive(Clone, Copy, Debug, PartialEq, Eq)]
pub struct Simplexes<B> {
    kind: Kind,
    ids: B,
}

impl<B: AsRef<[u64]>> Simplexes<B> {
    pub(crate) fn new(kind: Kind, ids: B) -> Self {
        Simplexes { kind, ids }
    }

    /// VERTEX, SEG2, TRI3 or TET4.
    pub fn kind(&self) -> Kind {
        self.kind
    }

    /// The ids of all of them, one simplex after another.
    pub fn ids(&self) -> &[u64] {
        self.ids.as_ref()
    }

    fn nodes(&self) -> usize {
        self.kind.nodes().expect("a simplex has a node count")
    }

    /// How many there are.
    pub fn len(&self) -> usize {
        self.ids().len() / self.nodes()
    }

    pub fn is_empty(&self) -> bool {
        self.ids().is_empty()
    }

    /// The ids of each.
    pub fn iter(&self) -> impl Iterator<Item = &[u64]> + '_ {
        self.ids().chunks_exact(self.nodes())
    }

    pub fn into_ids(self) -> B {
        self.ids
    }
}

/// So many parts of a kind, and so many of a second where there is one.
#[derive(Clone, Copy, Debug, PartialEq, Eq)]
pub(crate) struct Shape {
    pub kind: Kind,
    pub count: usize,
    pub second: Option<(Kind, usize)>,
}

impl Shape {
    /// How many ids the parts have in all, where their kinds say it.
    pub fn entries(&self) -> usize {
        let of = |(kind, count): (Kind, usize)| count * kind.nodes().unwrap_or(0);
        of((self.kind, self.count)) + self.second.map_or(0, of)
    }
}

/// The sub-entities of an element. Those of a WEDGE6 are of two kinds, those of a PHED differ in length.
#[derive(Clone, Copy, Debug, PartialEq, Eq)]
pub struct Parts<B> {
    shape: Shape,
    ids: B,
    ends: B,
}

impl<B: AsRef<[u64]>> Parts<B> {
    pub(crate) fn new(shape: Shape, ids: B, ends: B) -> Self {
        Parts { shape, ids, ends }
    }

    pub(crate) fn shape(&self) -> Shape {
        self.shape
    }

    /// The ids of all of them, one sub-entity after another.
    pub fn ids(&self) -> &[u64] {
        self.ids.as_ref()
    }

    /// Where each face of a PHED ends in [`ids`](Parts::ids); empty for the other kinds.
    pub fn ends(&self) -> &[u64] {
        self.ends.as_ref()
    }

    /// How many there are.
    pub fn len(&self) -> usize {
        self.shape.count + self.shape.second.map_or(0, |(_, count)| count)
    }

    pub fn is_empty(&self) -> bool {
        self.len() == 0
    }

    /// The kind and the ids of each.
    pub fn iter(&self) -> impl Iterator<Item = (Kind, &[u64])> + '_ {
        let mut rest = self.ids();
        let mut start = 0;
        (0..self.len()).map(move |i| {
            let kind = match self.shape.second {
                Some((kind, _)) if self.shape.count <= i => kind,
                _ => self.shape.kind,
            };
            let nodes = kind
                .nodes()
                .unwrap_or_else(|| self.ends()[i] as usize - start);
            let (part, behind) = rest.split_at(nodes);
            rest = behind;
            start += nodes;
            (kind, part)
        })
    }
}
