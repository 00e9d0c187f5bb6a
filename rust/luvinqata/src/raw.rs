//! The archive's functions as C sees them, and the crate's only unsafe code. A slice passes as a pointer and a length, a
//! lent number or array as a pointer, an answer by value. No compiler compares these lines with the proved source.

use crate::{State, STACK};

#[repr(C)]
pub struct Refusal {
    pub number: u32,
    pub place: u32,
    pub kind: u32,
}

#[repr(C)]
pub struct Ran {
    pub number: u32,
    pub place: u32,
    pub kind: u32,
    pub halt: u32,
    pub steps: u32,
    pub sequence: u32,
    pub cards: usize,
    pub lines: usize,
}

#[repr(C)]
pub struct Written {
    pub number: u32,
    pub place: u32,
    pub kind: u32,
    pub length: u32,
}

extern "C" {
    fn luvinqata_compile(k: u32, deck: *const u8, deck_length: usize, output: *mut u8, output_length: usize)
        -> Written;

    fn luvinqata_check(object: *const u8, object_length: usize) -> Refusal;

    fn luvinqata_run(
        object: *const u8,
        object_length: usize,
        store: *mut i64,
        store_length: usize,
        index: *mut u32,
        height: *mut u32,
        mark: *mut u32,
        places: *mut [i64; STACK],
        cards: *const u8,
        cards_length: usize,
        lines: *mut u8,
        lines_length: usize,
        allowance: u32,
    ) -> Ran;

    fn luvinqata_bench(
        object: *const u8,
        object_length: usize,
        store: *mut i64,
        store_length: usize,
        index: *mut u32,
        height: *mut u32,
        mark: *mut u32,
        places: *mut [i64; STACK],
        cards: *const u8,
        cards_length: usize,
        lines: *mut u8,
        lines_length: usize,
        allowance: u32,
    ) -> Ran;

    fn luvinqata_map(object: *const u8, object_length: usize, table: *mut u8, table_length: usize) -> Written;
}

pub fn compile(k: u32, deck: &[u8], output: &mut [u8]) -> Written {
    // SAFETY: the deck is only read; the output is lent for the call with its own length.
    unsafe { luvinqata_compile(k, deck.as_ptr(), deck.len(), output.as_mut_ptr(), output.len()) }
}

pub fn check(object: &[u8]) -> Refusal {
    // SAFETY: the bytes are lent for the call and only read.
    unsafe { luvinqata_check(object.as_ptr(), object.len()) }
}

pub fn run(object: &[u8], store: &mut [i64], state: &mut State, cards: &[u8], lines: &mut [u8], allowance: u32) -> Ran {
    // SAFETY: all that is lent is lent for the call, each part by itself, with its own length.
    unsafe {
        luvinqata_run(
            object.as_ptr(),
            object.len(),
            store.as_mut_ptr(),
            store.len(),
            &mut state.index,
            &mut state.height,
            &mut state.mark,
            &mut state.places,
            cards.as_ptr(),
            cards.len(),
            lines.as_mut_ptr(),
            lines.len(),
            allowance,
        )
    }
}

pub fn bench(
    object: &[u8],
    store: &mut [i64],
    state: &mut State,
    cards: &[u8],
    lines: &mut [u8],
    allowance: u32,
) -> Ran {
    // SAFETY: as in run.
    unsafe {
        luvinqata_bench(
            object.as_ptr(),
            object.len(),
            store.as_mut_ptr(),
            store.len(),
            &mut state.index,
            &mut state.height,
            &mut state.mark,
            &mut state.places,
            cards.as_ptr(),
            cards.len(),
            lines.as_mut_ptr(),
            lines.len(),
            allowance,
        )
    }
}

pub fn map(object: &[u8], table: &mut [u8]) -> Written {
    // SAFETY: the object is only read; the table is lent for the call with its own length.
    unsafe { luvinqata_map(object.as_ptr(), object.len(), table.as_mut_ptr(), table.len()) }
}

#[cfg(test)]
mod tests;
