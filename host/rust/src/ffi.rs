//! The C interface of include/tallyspool.h, each function behind a safe one that takes slices.
//!
//! SAFETY, of every call here: a Rust slice is what the header asks of a host. Its pointer is aligned and
//! not null even where it is empty, its elements are initialised, and a `&mut` slice overlaps no other.
use crate::Points;

#[repr(C)]
#[derive(Clone, Copy)]
pub struct Answer {
    pub refusal: u64,
    pub kind: u64,
    pub count: u64,
}

#[repr(C)]
#[derive(Clone, Copy)]
pub struct PartsAnswer {
    pub refusal: u64,
    pub kind: u64,
    pub count: u64,
    pub kind2: u64,
    pub count2: u64,
}

extern "C" {
    fn ts_subentities(
        kind: u64,
        ids: *const u64,
        n_ids: usize,
        out: *mut u64,
        n_out: usize,
        ends: *mut u64,
        n_ends: usize,
    ) -> PartsAnswer;
    fn ts_subentities_of(
        kind: u64,
        codim: u64,
        ids: *const u64,
        n_ids: usize,
        out: *mut u64,
        n_out: usize,
        ends: *mut u64,
        n_ends: usize,
    ) -> PartsAnswer;
    fn ts_to_poly(kind: u64, ids: *const u64, n_ids: usize, out: *mut u64, n_out: usize) -> Answer;
    fn ts_from_poly(
        kind: u64,
        ids: *const u64,
        n_ids: usize,
        out: *mut u64,
        n_out: usize,
    ) -> Answer;
    fn ts_to_simplexes(
        kind: u64,
        ids: *const u64,
        n_ids: usize,
        out: *mut u64,
        n_out: usize,
    ) -> Answer;
    fn ts_reorient(
        kind: u64,
        ids: *const u64,
        n_ids: usize,
        dimension: u64,
        points: *const f64,
        n_points: usize,
        out: *mut u64,
        n_out: usize,
    ) -> Answer;
    fn ts_split_block(
        kind: u64,
        ids: *const u64,
        n_ids: usize,
        out: *mut u64,
        n_out: usize,
    ) -> Answer;
    fn ts_read_ids(bytes: *const u8, n_bytes: usize, out: *mut u64, n_out: usize) -> Answer;
    fn ts_write_ids(ids: *const u64, n_ids: usize, out: *mut u8, n_out: usize) -> Answer;
    fn ts_split_record(bytes: *const u8, n_bytes: usize, out: *mut u64, n_out: usize) -> Answer;
}

pub fn subentities(
    kind: u64,
    codim: Option<u64>,
    ids: &[u64],
    out: &mut [u64],
    ends: &mut [u64],
) -> PartsAnswer {
    let (from, n_ids) = (ids.as_ptr(), ids.len());
    let (to, n_out, marks, n_ends) = (out.as_mut_ptr(), out.len(), ends.as_mut_ptr(), ends.len());
    match codim {
        None => unsafe { ts_subentities(kind, from, n_ids, to, n_out, marks, n_ends) },
        Some(codim) => unsafe {
            ts_subentities_of(kind, codim, from, n_ids, to, n_out, marks, n_ends)
        },
    }
}

pub fn to_poly(kind: u64, ids: &[u64], out: &mut [u64]) -> Answer {
    unsafe { ts_to_poly(kind, ids.as_ptr(), ids.len(), out.as_mut_ptr(), out.len()) }
}

pub fn from_poly(kind: u64, ids: &[u64], out: &mut [u64]) -> Answer {
    unsafe { ts_from_poly(kind, ids.as_ptr(), ids.len(), out.as_mut_ptr(), out.len()) }
}

pub fn to_simplexes(kind: u64, ids: &[u64], out: &mut [u64]) -> Answer {
    unsafe { ts_to_simplexes(kind, ids.as_ptr(), ids.len(), out.as_mut_ptr(), out.len()) }
}

pub fn reorient(kind: u64, ids: &[u64], points: Points, out: &mut [u64]) -> Answer {
    // An array of arrays lies in memory as its numbers one after another.
    let (dimension, numbers, n_points) = match points {
        Points::Plane(points) => (2, points.as_ptr().cast(), 2 * points.len()),
        Points::Space(points) => (3, points.as_ptr().cast(), 3 * points.len()),
    };
    unsafe {
        ts_reorient(
            kind,
            ids.as_ptr(),
            ids.len(),
            dimension,
            numbers,
            n_points,
            out.as_mut_ptr(),
            out.len(),
        )
    }
}

pub fn split_block(kind: u64, ids: &[u64], out: &mut [u64]) -> Answer {
    unsafe { ts_split_block(kind, ids.as_ptr(), ids.len(), out.as_mut_ptr(), out.len()) }
}

pub fn read_ids(bytes: &[u8], out: &mut [u64]) -> Answer {
    unsafe { ts_read_ids(bytes.as_ptr(), bytes.len(), out.as_mut_ptr(), out.len()) }
}

pub fn write_ids(ids: &[u64], out: &mut [u8]) -> Answer {
    unsafe { ts_write_ids(ids.as_ptr(), ids.len(), out.as_mut_ptr(), out.len()) }
}

pub fn split_record(bytes: &[u8], out: &mut [u64]) -> Answer {
    unsafe { ts_split_record(bytes.as_ptr(), bytes.len(), out.as_mut_ptr(), out.len()) }
}
