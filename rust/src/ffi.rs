//! The archive's functions, as include/murm.h declares them. Only this file has unsafe code.

use crate::{Arrays, Query, Record};

extern "C" {
    fn murm_library_circuit_matrix(
        width: u32,
        codes: *const u32,
        codes_len: usize,
        out: *mut i16,
        out_len: usize,
    ) -> u64;

    fn murm_synthesize(
        q: u32,
        g: u32,
        e: u32,
        b: u32,
        count1: usize,
        count2: usize,
        count3: usize,
        count4: usize,
        count5: usize,
        fingerprints: *const u64,
        fingerprints_len: usize,
        parents: *const u32,
        parents_len: usize,
        codes: *const u32,
        codes_len: usize,
        width: u32,
        exponent: u16,
        matrix: *const i16,
        matrix_len: usize,
        out: *mut u32,
        out_len: usize,
    ) -> u64;
}

pub(crate) fn library_circuit_matrix(width: u32, codes: &[u32], out: &mut [i16]) -> u64 {
    // SAFETY: each pointer and length is that of a slice that lives for the call, so it is not
    // null, aligned, and has that many initialized elements. `out` is borrowed as mutable, so that
    // it overlaps no other slice. The function asks nothing else and keeps no pointer.
    unsafe {
        murm_library_circuit_matrix(
            width,
            codes.as_ptr(),
            codes.len(),
            out.as_mut_ptr(),
            out.len(),
        )
    }
}

pub(crate) fn synthesize(
    record: &Record,
    arrays: Arrays<'_>,
    query: Query<'_>,
    out: &mut [u32],
) -> u64 {
    let [count1, count2, count3, count4, count5] = record.counts;
    // SAFETY: as in `library_circuit_matrix`, of all five slices.
    unsafe {
        murm_synthesize(
            record.q,
            record.g,
            record.e,
            record.b,
            count1,
            count2,
            count3,
            count4,
            count5,
            arrays.fingerprints.as_ptr(),
            arrays.fingerprints.len(),
            arrays.parents.as_ptr(),
            arrays.parents.len(),
            arrays.codes.as_ptr(),
            arrays.codes.len(),
            query.width,
            query.exponent,
            query.coefficients.as_ptr(),
            query.coefficients.len(),
            out.as_mut_ptr(),
            out.len(),
        )
    }
}
