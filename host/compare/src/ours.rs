//! The library, through its C interface.

use crate::case::{Case, Numbers, Operation, Outcome, lent};

#[repr(C)]
pub struct Answer {
    refusal: u64,
    kind: u64,
    count: u64,
}

#[repr(C)]
pub struct Parts {
    refusal: u64,
    kind: u64,
    count: u64,
    kind2: u64,
    count2: u64,
}

type OneOutput = unsafe extern "C" fn(u64, *const u64, usize, *mut u64, usize) -> Answer;

unsafe extern "C" {
    fn ts_subentities(
        k: u64,
        ids: *const u64,
        n: usize,
        out: *mut u64,
        m: usize,
        ends: *mut u64,
        e: usize,
    ) -> Parts;
    fn ts_subentities_of(
        k: u64,
        codim: u64,
        ids: *const u64,
        n: usize,
        out: *mut u64,
        m: usize,
        ends: *mut u64,
        e: usize,
    ) -> Parts;
    fn ts_to_poly(k: u64, ids: *const u64, n: usize, out: *mut u64, m: usize) -> Answer;
    fn ts_from_poly(k: u64, ids: *const u64, n: usize, out: *mut u64, m: usize) -> Answer;
    fn ts_to_simplexes(k: u64, ids: *const u64, n: usize, out: *mut u64, m: usize) -> Answer;
    fn ts_reorient(
        k: u64,
        ids: *const u64,
        n: usize,
        dimension: u64,
        points: *const f64,
        p: usize,
        out: *mut u64,
        m: usize,
    ) -> Answer;
    fn ts_split_block(k: u64, ids: *const u64, n: usize, out: *mut u64, m: usize) -> Answer;
    fn ts_split_record(bytes: *const u8, n: usize, out: *mut u64, m: usize) -> Answer;
}

/// The call with outputs of these lengths, and all that they hold after it.
pub fn call(case: &Case, n_out: usize, n_ends: usize) -> Outcome {
    let mut out = lent(n_out);
    let mut ends = lent(n_ends);
    let numbers = call_over(case, &mut out, &mut ends);
    Outcome { numbers, out, ends }
}

/// The call over the caller's outputs.
pub fn call_over(case: &Case, out: &mut [u64], ends: &mut [u64]) -> Numbers {
    match case.operation {
        Operation::Subentities => of_parts(subentities(case, out, ends)),
        Operation::SubentitiesOf => of_parts(subentities_of(case, out, ends)),
        Operation::ToPoly => of_answer(to_poly(case, out)),
        Operation::FromPoly => of_answer(from_poly(case, out)),
        Operation::ToSimplexes => of_answer(to_simplexes(case, out)),
        Operation::Reorient => of_answer(reorient(case, out)),
        Operation::SplitBlock => of_answer(split_block(case, out)),
        Operation::SplitRecord => of_answer(split_record(case, out)),
    }
}

fn of_parts(p: Parts) -> Numbers {
    Numbers {
        refusal: p.refusal,
        kind: p.kind,
        count: p.count,
        kind2: p.kind2,
        count2: p.count2,
    }
}

fn of_answer(a: Answer) -> Numbers {
    Numbers {
        refusal: a.refusal,
        kind: a.kind,
        count: a.count,
        ..Default::default()
    }
}

#[inline(always)]
pub fn subentities(case: &Case, out: &mut [u64], ends: &mut [u64]) -> Parts {
    let (ids, n) = (case.ids.as_ptr(), case.ids.len());
    let (o, m, e, k) = (out.as_mut_ptr(), out.len(), ends.as_mut_ptr(), ends.len());
    // SAFETY: every pointer is that of a whole vector with its length, and no two overlap.
    unsafe { ts_subentities(case.kind, ids, n, o, m, e, k) }
}

fn subentities_of(case: &Case, out: &mut [u64], ends: &mut [u64]) -> Parts {
    let (ids, n) = (case.ids.as_ptr(), case.ids.len());
    let (o, m, e, k) = (out.as_mut_ptr(), out.len(), ends.as_mut_ptr(), ends.len());
    // SAFETY: as above, and so below.
    unsafe { ts_subentities_of(case.kind, case.parameter, ids, n, o, m, e, k) }
}

#[inline(always)]
pub fn to_poly(case: &Case, out: &mut [u64]) -> Answer {
    one(ts_to_poly, case, out)
}

#[inline(always)]
pub fn from_poly(case: &Case, out: &mut [u64]) -> Answer {
    one(ts_from_poly, case, out)
}

#[inline(always)]
pub fn to_simplexes(case: &Case, out: &mut [u64]) -> Answer {
    one(ts_to_simplexes, case, out)
}

#[inline(always)]
pub fn split_block(case: &Case, out: &mut [u64]) -> Answer {
    one(ts_split_block, case, out)
}

#[inline(always)]
fn one(operation: OneOutput, case: &Case, out: &mut [u64]) -> Answer {
    let (ids, n) = (case.ids.as_ptr(), case.ids.len());
    unsafe { operation(case.kind, ids, n, out.as_mut_ptr(), out.len()) }
}

#[inline(always)]
pub fn reorient(case: &Case, out: &mut [u64]) -> Answer {
    let (ids, points) = (&case.ids, &case.points);
    unsafe {
        ts_reorient(
            case.kind,
            ids.as_ptr(),
            ids.len(),
            case.parameter,
            points.as_ptr(),
            points.len(),
            out.as_mut_ptr(),
            out.len(),
        )
    }
}

fn split_record(case: &Case, out: &mut [u64]) -> Answer {
    let bytes = case.record();
    unsafe { ts_split_record(bytes.as_ptr(), bytes.len(), out.as_mut_ptr(), out.len()) }
}
