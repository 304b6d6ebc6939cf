//! The compiled library's calls: as a C caller makes them, with an area
//! for the answer's fields, and with the types of the second implementation, so
//! that the two can stand in one table.

use second::{Answer, Returned, Settings, Size};

/// Value, sub, row, stamp and distance.
pub type Fields = [u32; 5];

/// The same, and a worker.
pub type DispatchFields = [u32; 6];

/// The library must write every field: none of them starts as zero.
const UNWRITTEN: u32 = 0xdead_beef;

extern "C" {
    fn pool_make(
        words: *mut u32,
        len: usize,
        kind: u32,
        width: u32,
        depth: u32,
        shift: u32,
        rows: u32,
        workers: u32,
        stride: u32,
        fields: *mut u32,
    ) -> u32;
    fn pool_begin_put(
        words: *mut u32,
        len: usize,
        worker: u32,
        value: u32,
        fields: *mut u32,
    ) -> u32;
    fn pool_begin_take(words: *mut u32, len: usize, worker: u32, fields: *mut u32) -> u32;
    fn pool_step(words: *mut u32, len: usize, worker: u32, fields: *mut u32) -> u32;
    fn pool_set_size(words: *mut u32, len: usize, width: u32, depth: u32) -> u32;
    fn pool_dispatch(words: *mut u32, len: usize, worker: u32, steps: u32, fields: *mut u32)
        -> u32;
    fn pool_move_0_to_1(from: *const u32, from_len: usize, to: *mut u32, to_len: usize) -> u32;
    fn pool_move_1_to_0(from: *const u32, from_len: usize, to: *mut u32, to_len: usize) -> u32;
    fn pool_move_1_to_2(from: *const u32, from_len: usize, to: *mut u32, to_len: usize) -> u32;
    fn pool_move_2_to_1(from: *const u32, from_len: usize, to: *mut u32, to_len: usize) -> u32;
}

// As C calls them. Safety, of each: the pointer and length are those of a live,
// unshared slice, and `fields` has five words, or six for a dispatch. A size call has
// no fields. A move's
// source is only read, and its two slices do not overlap, since one is unshared.

#[inline]
pub fn make_into(words: &mut [u32], settings: Settings, fields: &mut Fields) -> u32 {
    let Settings {
        kind,
        width,
        depth,
        shift,
        rows,
        workers,
        stride,
    } = settings;
    let (start, len) = (words.as_mut_ptr(), words.len());
    let fields = fields.as_mut_ptr();
    unsafe {
        pool_make(
            start, len, kind, width, depth, shift, rows, workers, stride, fields,
        )
    }
}

#[inline]
pub fn begin_put_into(words: &mut [u32], worker: u32, value: u32, fields: &mut Fields) -> u32 {
    let (start, len) = (words.as_mut_ptr(), words.len());
    unsafe { pool_begin_put(start, len, worker, value, fields.as_mut_ptr()) }
}

#[inline]
pub fn begin_take_into(words: &mut [u32], worker: u32, fields: &mut Fields) -> u32 {
    let (start, len) = (words.as_mut_ptr(), words.len());
    unsafe { pool_begin_take(start, len, worker, fields.as_mut_ptr()) }
}

#[inline]
pub fn step_into(words: &mut [u32], worker: u32, fields: &mut Fields) -> u32 {
    let (start, len) = (words.as_mut_ptr(), words.len());
    unsafe { pool_step(start, len, worker, fields.as_mut_ptr()) }
}

#[inline]
pub fn set_size(words: &mut [u32], Size { width, depth }: Size) -> u32 {
    let (start, len) = (words.as_mut_ptr(), words.len());
    unsafe { pool_set_size(start, len, width, depth) }
}

#[inline]
pub fn dispatch_into(
    words: &mut [u32],
    worker: u32,
    steps: u32,
    fields: &mut DispatchFields,
) -> u32 {
    let (start, len) = (words.as_mut_ptr(), words.len());
    unsafe { pool_dispatch(start, len, worker, steps, fields.as_mut_ptr()) }
}

#[inline]
pub fn move_0_to_1(from: &[u32], to: &mut [u32]) -> u32 {
    unsafe { pool_move_0_to_1(from.as_ptr(), from.len(), to.as_mut_ptr(), to.len()) }
}

#[inline]
pub fn move_1_to_0(from: &[u32], to: &mut [u32]) -> u32 {
    unsafe { pool_move_1_to_0(from.as_ptr(), from.len(), to.as_mut_ptr(), to.len()) }
}

#[inline]
pub fn move_1_to_2(from: &[u32], to: &mut [u32]) -> u32 {
    unsafe { pool_move_1_to_2(from.as_ptr(), from.len(), to.as_mut_ptr(), to.len()) }
}

#[inline]
pub fn move_2_to_1(from: &[u32], to: &mut [u32]) -> u32 {
    unsafe { pool_move_2_to_1(from.as_ptr(), from.len(), to.as_mut_ptr(), to.len()) }
}

// With the second implementation's answer.

pub fn make(words: &mut [u32], settings: Settings) -> Answer {
    answer(|fields| make_into(words, settings, fields))
}

pub fn begin_put(words: &mut [u32], worker: u32, value: u32) -> Answer {
    answer(|fields| begin_put_into(words, worker, value, fields))
}

pub fn begin_take(words: &mut [u32], worker: u32) -> Answer {
    answer(|fields| begin_take_into(words, worker, fields))
}

pub fn step(words: &mut [u32], worker: u32) -> Answer {
    answer(|fields| step_into(words, worker, fields))
}

pub fn dispatch(words: &mut [u32], worker: u32, steps: u32) -> Returned {
    let mut fields = [UNWRITTEN; 6];
    let number = dispatch_into(words, worker, steps, &mut fields);
    (number, fields)
}

fn answer(call: impl FnOnce(&mut Fields) -> u32) -> Answer {
    let mut fields = [UNWRITTEN; 5];
    let number = call(&mut fields);
    Answer::with(number, fields)
}
