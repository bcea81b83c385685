//! The proved library through its C face: the one place with unsafe code.
//!
//! Every slice goes over as a pointer and a length in elements; an empty one
//! with a null pointer, which the face allows.

use std::ptr;

use second::compare::call::{Face, Files};

extern "C" {
    fn yellopard_write(
        a: *const u8,
        a_len: usize,
        result: *mut u8,
        result_len: usize,
        row: *mut u64,
        row_len: usize,
    ) -> usize;

    fn yellopard_run(
        a: *const u8,
        a_len: usize,
        vectors: *const u8,
        vectors_len: usize,
        result: *mut u16,
        result_len: usize,
        row: *mut u64,
        row_len: usize,
    ) -> usize;

    fn yellopard_check(
        a: *const u8,
        a_len: usize,
        b: *const u8,
        b_len: usize,
        p: *const u8,
        p_len: usize,
        table: *mut u16,
        table_len: usize,
        row: *mut u64,
        row_len: usize,
    ) -> usize;

    fn yellopard_refine(
        a: *const u8,
        a_len: usize,
        b: *const u8,
        b_len: usize,
        p: *const u8,
        p_len: usize,
        table: *mut u16,
        table_len: usize,
        result: *mut u8,
        result_len: usize,
        row: *mut u64,
        row_len: usize,
    ) -> usize;
}

/// Where the face may read.
fn read<T>(slice: &[T]) -> *const T {
    match slice {
        [] => ptr::null(),
        _ => slice.as_ptr(),
    }
}

/// Where the face may write.
fn written<T>(slice: &mut [T]) -> *mut T {
    match slice {
        [] => ptr::null_mut(),
        _ => slice.as_mut_ptr(),
    }
}

/// Puts a call: the slices that it reads, then those that it writes.
macro_rules! put {
    ($call:ident, [$($read:ident),+], [$($written:ident),+]) => {
        // SAFETY: each pointer and length come from one slice that is borrowed
        // for the whole call, for writing where the call writes, so that no two
        // of them overlap there. An empty slice has no element to reach.
        unsafe { $call($(read($read), $read.len(),)+ $(written($written), $written.len()),+) }
    };
}

pub struct Proved;

impl Face for Proved {
    fn write(&mut self, a: &[u8], result: &mut [u8], row: &mut [u64]) -> usize {
        put!(yellopard_write, [a], [result, row])
    }

    fn run(&mut self, a: &[u8], vectors: &[u8], result: &mut [u16], row: &mut [u64]) -> usize {
        put!(yellopard_run, [a, vectors], [result, row])
    }

    fn check(&mut self, files: &Files, table: &mut [u16], row: &mut [u64]) -> usize {
        let Files { a, b, p } = files;
        put!(yellopard_check, [a, b, p], [table, row])
    }

    fn refine(
        &mut self,
        files: &Files,
        table: &mut [u16],
        result: &mut [u8],
        row: &mut [u64],
    ) -> usize {
        let Files { a, b, p } = files;
        put!(yellopard_refine, [a, b, p], [table, result, row])
    }
}
