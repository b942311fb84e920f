//! The containers that the Rust's text asks for, as little of each as it uses.

use ndarray::{ArcArray1, ArcArray2, ArrayView2};

pub use crate::dimension::Dimension;

#[allow(clippy::upper_case_acronyms)]
#[derive(Debug, Clone, Copy, PartialEq, Eq, Hash)]
pub enum ElementType {
    VERTEX = 1,
    SEG2,
    SEG3,
    SEG4,
    TRI3,
    TRI6,
    TRI7,
    QUAD4,
    QUAD8,
    QUAD9,
    TET4,
    TET10,
    WEDGE6,
    WEDGE15,
    HEX8,
    HEX21,
    PLINE,
    PGON,
    PHED,
}

impl ElementType {
    /// By document 01's numbers, from 1.
    pub const ALL: [ElementType; 19] = {
        use ElementType::*;
        [
            VERTEX, SEG2, SEG3, SEG4, TRI3, TRI6, TRI7, QUAD4, QUAD8, QUAD9, TET4, TET10, WEDGE6,
            WEDGE15, HEX8, HEX21, PLINE, PGON, PHED,
        ]
    };
}

pub trait ElementLike<'a> {
    fn element_type(&self) -> ElementType;
    fn connectivity(&self) -> &[usize];
    fn coord(&self, i: usize) -> &[f64];
}

/// One cell, and the points of its mesh.
#[derive(Clone, Copy)]
pub struct Element<'a> {
    pub kind: ElementType,
    pub nodes: &'a [usize],
    pub coords: ArrayView2<'a, f64>,
}

impl<'a> ElementLike<'a> for Element<'a> {
    fn element_type(&self) -> ElementType {
        self.kind
    }

    fn connectivity(&self) -> &[usize] {
        self.nodes
    }

    fn coord(&self, i: usize) -> &[f64] {
        self.coords.row(self.nodes[i]).to_slice().unwrap()
    }
}

/// Lists of nodes: all of one length, or each up to its end offset.
pub enum Connectivity {
    Regular(ArcArray2<usize>),
    Poly(ArcArray1<usize>, ArcArray1<usize>),
}

impl Connectivity {
    pub fn new_regular(nodes: ArcArray2<usize>) -> Self {
        Connectivity::Regular(nodes)
    }

    pub fn new_poly(nodes: ArcArray1<usize>, ends: ArcArray1<usize>) -> Self {
        Connectivity::Poly(nodes, ends)
    }

    pub fn len(&self) -> usize {
        match self {
            Connectivity::Regular(nodes) => nodes.items().len() / nodes.columns(),
            Connectivity::Poly(_, ends) => ends.items().len(),
        }
    }

    pub fn is_empty(&self) -> bool {
        self.len() == 0
    }

    pub fn iter(&self) -> impl Iterator<Item = &[usize]> {
        (0..self.len()).map(|i| &self[i])
    }

    /// All nodes, one list after another.
    pub fn nodes(&self) -> &[usize] {
        match self {
            Connectivity::Regular(nodes) => nodes.items(),
            Connectivity::Poly(nodes, _) => nodes.items(),
        }
    }

    /// The end offsets; none where all lists have one length.
    pub fn ends(&self) -> &[usize] {
        match self {
            Connectivity::Regular(_) => &[],
            Connectivity::Poly(_, ends) => ends.items(),
        }
    }
}

impl std::ops::Index<usize> for Connectivity {
    type Output = [usize];

    fn index(&self, i: usize) -> &[usize] {
        match self {
            Connectivity::Regular(nodes) => {
                &nodes.items()[i * nodes.columns()..][..nodes.columns()]
            }
            Connectivity::Poly(nodes, ends) => {
                let from = if i == 0 { 0 } else { ends.items()[i - 1] };
                &nodes.items()[from..ends.items()[i]]
            }
        }
    }
}
