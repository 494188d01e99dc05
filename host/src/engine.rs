//! A copy of the engine.

use crate::fill::Fill;
use crate::library::{self, LONGS, WORDS};
use crate::message::{Message, Record};
use crate::opening::Opening;
use crate::outcome::{Outcome, Refusal};
use std::fmt;

/// A copy of the engine, which runs one strategy: its state, changed in place by each message.
///
/// Two copies are equal where every number of them is. Copies that were given the same messages from the same opening
/// or the same bytes are; others may stand for the same state and differ in numbers that are not in use.
#[derive(Clone, PartialEq, Eq)]
pub struct Engine {
    longs: [u64; LONGS],
    words: [u32; WORDS],
}

impl Engine {
    /// The bytes of a saved copy.
    pub const SIZE: usize = LONGS * 8 + WORDS * 4;

    const EMPTY: Engine = Engine { longs: [0; LONGS], words: [0; WORDS] };

    /// Opens a strategy: all leg sides absent, nothing open, no auction; or the number, 1 to 7, that refuses it.
    pub fn open(opening: &Opening) -> Result<Engine, Refusal> {
        let mut engine = Engine::EMPTY;
        match library::open(&mut engine.longs, &mut engine.words, opening.row()) {
            0 => Ok(engine),
            number => Err(Refusal::new(number)),
        }
    }

    /// Answers a message. Its fill records stand at the start of `fills`, as many as the outcome counts, and every place
    /// behind them is as it was. They stand order by order, as they execute; those of one order by price from the best, then
    /// by rank, then by the contra's arrival number. A list of fewer than [`Fill::LEAST_PLACES`] places refuses every message
    /// with 10, but a record of no kind is refused with 61, whatever the list. Under a refusal the copy and the list are as they
    /// were.
    pub fn step(&mut self, message: &Message, fills: &mut [Fill]) -> Outcome {
        library::step(&mut self.longs, &mut self.words, fills, message.record()).outcome()
    }

    /// The same from the bytes of a message record.
    pub fn record(&mut self, bytes: &[u8; Record::SIZE], fills: &mut [Fill]) -> Outcome {
        library::record(&mut self.longs, &mut self.words, fills, bytes).outcome()
    }

    /// How many orders are open.
    pub fn open_orders(&self) -> usize {
        library::counts(&self.words).orders
    }

    /// How many responses are open.
    pub fn open_responses(&self) -> usize {
        library::counts(&self.words).responses
    }

    /// The copy as bytes, little-endian, to be kept and brought back by [`Engine::from_bytes`]. While an auction is pending, keep
    /// with them the deadline that [`Outcome::Begun`] told: a clock must be sent at it, and nothing tells it again.
    pub fn to_bytes(&self) -> [u8; Engine::SIZE] {
        let longs = self.longs.iter().flat_map(|long| long.to_le_bytes());
        let words = self.words.iter().flat_map(|word| word.to_le_bytes());
        let mut bytes = [0; Engine::SIZE];
        bytes.iter_mut().zip(longs.chain(words)).for_each(|(to, byte)| *to = byte);
        bytes
    }

    /// The copy that bytes stand for. Any bytes are answered for, but only saved ones are a copy that messages have led to.
    pub fn from_bytes(bytes: &[u8; Engine::SIZE]) -> Engine {
        let mut engine = Engine::EMPTY;
        let (longs, words) = bytes.split_at(LONGS * 8);
        let little_endian = |sum: u64, byte: &u8| sum << 8 | u64::from(*byte);
        let number = |bytes: &[u8]| bytes.iter().rev().fold(0, little_endian);
        engine.longs.iter_mut().zip(longs.chunks_exact(8)).for_each(|(long, bytes)| *long = number(bytes));
        engine.words.iter_mut().zip(words.chunks_exact(4)).for_each(|(word, bytes)| *word = number(bytes) as u32);
        engine
    }
}

impl fmt::Debug for Engine {
    fn fmt(&self, f: &mut fmt::Formatter) -> fmt::Result {
        let mut engine = f.debug_struct("Engine");
        engine.field("open_orders", &self.open_orders()).field("open_responses", &self.open_responses());
        engine.finish_non_exhaustive()
    }
}
