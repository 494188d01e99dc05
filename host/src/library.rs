//! The proved library. All that is unsafe is here: the calls of its functions.

use crate::average::AverageRow;
use crate::fill::Fill;
use crate::message::Record;
use crate::opening::OpeningRow;
use crate::outcome::OutcomeRow;

/// The two arrays that a copy is kept in.
pub const LONGS: usize = 71;
pub const WORDS: usize = 580;

/// How many orders and responses are open.
#[repr(C)]
pub struct Counts {
    pub orders: usize,
    pub responses: usize,
}

/// What a form is answered with: 0 and its bytes, or a number and 0.
#[repr(C)]
pub struct Reply {
    pub number: u32,
    pub size: usize,
}

extern "C" {
    fn tumghavi_open_in(longs: *mut [u64; LONGS], words: *mut [u32; WORDS], opening: OpeningRow) -> u32;
    fn tumghavi_step_in(
        longs: *mut [u64; LONGS],
        words: *mut [u32; WORDS],
        list: *mut u64,
        numbers: usize,
        message: Record,
    ) -> OutcomeRow;
    fn tumghavi_record_in(
        longs: *mut [u64; LONGS],
        words: *mut [u32; WORDS],
        list: *mut u64,
        numbers: usize,
        bytes: *const u8,
        size: usize,
    ) -> OutcomeRow;
    fn tumghavi_counts_in(words: *const [u32; WORDS]) -> Counts;
    fn tumghavi_average_in(list: *const u64, numbers: usize, fills: usize, order: u32) -> AverageRow;
    fn tumghavi_print(tape: *const u8, tape_size: usize, out: *mut u8, out_size: usize) -> usize;
    fn tumghavi_form(tape: *const u8, tape_size: usize, out: *mut u8, out_size: usize) -> Reply;
}

/// The numbers of so many records. A slice has no more bytes than fit, so that this does not overflow.
fn numbers(fills: &[Fill]) -> usize {
    fills.len() * Fill::NUMBERS
}

pub fn open(longs: &mut [u64; LONGS], words: &mut [u32; WORDS], opening: OpeningRow) -> u32 {
    // SAFETY: both arrays are whole, apart and lent for the call, and the library is proved to stay inside them.
    unsafe { tumghavi_open_in(longs, words, opening) }
}

pub fn step(longs: &mut [u64; LONGS], words: &mut [u32; WORDS], fills: &mut [Fill], message: Record) -> OutcomeRow {
    // SAFETY: as in `open`; a fill is eleven numbers and nothing else, so that the slice is as many times eleven numbers.
    unsafe { tumghavi_step_in(longs, words, fills.as_mut_ptr().cast(), numbers(fills), message) }
}

pub fn record(longs: &mut [u64; LONGS], words: &mut [u32; WORDS], fills: &mut [Fill], bytes: &[u8]) -> OutcomeRow {
    // SAFETY: as in `step`; the bytes are only read, and as many as there are.
    unsafe { tumghavi_record_in(longs, words, fills.as_mut_ptr().cast(), numbers(fills), bytes.as_ptr(), bytes.len()) }
}

pub fn counts(words: &[u32; WORDS]) -> Counts {
    // SAFETY: the array is whole and only read.
    unsafe { tumghavi_counts_in(words) }
}

pub fn average(fills: &[Fill], count: usize, order: u32) -> AverageRow {
    // SAFETY: a fill is eleven numbers, as in `step`; they are only read, and whatever the count is the library stays inside them.
    unsafe { tumghavi_average_in(fills.as_ptr().cast(), numbers(fills), count, order) }
}

pub fn print(tape: &[u8], out: &mut [u8]) -> usize {
    // SAFETY: both slices are valid for their lengths and apart, and the library is proved to stay inside them.
    unsafe { tumghavi_print(tape.as_ptr(), tape.len(), out.as_mut_ptr(), out.len()) }
}

pub fn form(tape: &[u8], out: &mut [u8]) -> Reply {
    // SAFETY: as in `print`.
    unsafe { tumghavi_form(tape.as_ptr(), tape.len(), out.as_mut_ptr(), out.len()) }
}
