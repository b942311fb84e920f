//! One call, and what came of it.

pub const SEPARATOR: u64 = u64::MAX;

#[derive(Clone, Copy, PartialEq, Eq, Debug, PartialOrd, Ord)]
pub enum Operation {
    Subentities = 1,
    SubentitiesOf,
    ToPoly,
    FromPoly,
    ToSimplexes,
    Reorient,
    SplitBlock,
    SplitRecord,
}

impl Operation {
    pub const ALL: [Operation; 8] = {
        use Operation::*;
        [
            Subentities,
            SubentitiesOf,
            ToPoly,
            FromPoly,
            ToSimplexes,
            Reorient,
            SplitBlock,
            SplitRecord,
        ]
    };

    pub fn name(self) -> &'static str {
        [
            "subentities",
            "subentities_of",
            "to_poly",
            "from_poly",
            "to_simplexes",
            "reorient",
            "split_block",
            "split_record",
        ][self as usize - 1]
    }
}

/// What a call is given, save for the lent outputs.
#[derive(Clone, Debug)]
pub struct Case {
    pub operation: Operation,
    pub kind: u64,
    /// The codimension of `subentities_of`, the dimension of `reorient`, how the bytes of
    /// `split_record` are damaged, else 0.
    pub parameter: u64,
    pub ids: Vec<u64>,
    pub points: Vec<f64>,
}

/// The numbers returned.
#[derive(Clone, Copy, Debug, Default, PartialEq, Eq)]
pub struct Numbers {
    pub refusal: u64,
    pub kind: u64,
    pub count: u64,
    pub kind2: u64,
    pub count2: u64,
}

impl Numbers {
    pub fn refused(refusal: u64) -> Self {
        Numbers {
            refusal,
            ..Default::default()
        }
    }
}

/// The numbers returned, and the lent outputs: what was written, or all that they then hold.
#[derive(Clone, Debug, PartialEq, Eq)]
pub struct Outcome {
    pub numbers: Numbers,
    pub out: Vec<u64>,
    pub ends: Vec<u64>,
}

impl Outcome {
    pub fn refused(refusal: u64) -> Self {
        Outcome {
            numbers: Numbers::refused(refusal),
            out: vec![],
            ends: vec![],
        }
    }
}

impl Case {
    /// The call's kind and ids as a record: whole if the parameter is 0, else cut short, followed by
    /// a byte, or of a length that is one too large.
    pub fn record(&self) -> Vec<u8> {
        let length = 2 + 8 * self.ids.len() as u32 + (self.parameter == 3) as u32;
        let mut bytes = length.to_le_bytes().to_vec();
        bytes.extend((self.kind as u16).to_le_bytes());
        bytes.extend(self.ids.iter().flat_map(|id| id.to_le_bytes()));
        match self.parameter {
            1 => drop(bytes.pop()),
            2 => bytes.push(0),
            _ => {}
        }
        bytes
    }
}

/// What a lent output holds before the call.
pub fn lent(length: usize) -> Vec<u64> {
    (0..length as u64)
        .map(|i| 0x5a5a_0000_0000_0000 + i)
        .collect()
}
