//! "Tape": the header, the sections, the records, and the refusals 60 and 61.

use crate::market::{LocalSide, Quote};
use crate::message::{Message, Request, Terms};
use crate::strategy::{Cents, Leg, Settings};
use crate::{refuse_if, Refusal};
use std::fmt;
use std::ops::Range;

/// "Header, 40 bytes."
#[derive(Clone, Copy, PartialEq, Eq, Debug, Default)]
pub struct Header {
    pub leg_count: u16,
    pub leg_offset: u16,
    pub message_count: u16,
    pub message_offset: u16,
    pub settings: Settings,
}

/// "Messages are 36": one record, with all its fields, used or not.
#[derive(Clone, Copy, PartialEq, Eq, Debug, Default)]
pub struct Record {
    pub kind: u8,
    pub side: u8,
    pub account: u8,
    /// "Auction wish or leg from 0."
    pub wish_or_leg: u8,
    pub id: u32,
    pub participant: u32,
    /// "Units or bid size."
    pub units: u32,
    /// "Price or bid."
    pub price: Cents,
    pub ask: Cents,
    pub ask_size: u32,
    pub time: u64,
}

/// A field of a record, by the name it has in its kind.
#[derive(Clone, Copy, PartialEq, Eq, Debug)]
pub enum Field {
    Side,
    Account,
    Wish,
    Leg,
    Id,
    Participant,
    Units,
    BidSize,
    Price,
    Bid,
    Ask,
    AskSize,
    Time,
}

impl Field {
    /// Where in a record the field begins.
    pub const fn place(self) -> usize {
        match self {
            Field::Side => 1,
            Field::Account => 2,
            Field::Wish | Field::Leg => 3,
            Field::Id => 4,
            Field::Participant => 8,
            Field::Units | Field::BidSize => 12,
            Field::Price | Field::Bid => 16,
            Field::Ask => 20,
            Field::AskSize => 24,
            Field::Time => 28,
        }
    }

    /// "One byte each", "four bytes each", "64-bit time".
    pub const fn bytes(self) -> usize {
        match self {
            Field::Side | Field::Account | Field::Wish | Field::Leg => 1,
            Field::Time => 8,
            _ => 4,
        }
    }
}

/// A row of the table that "says which fields each kind uses".
pub struct Kind {
    pub number: u8,
    pub word: &'static str,
    pub fields: &'static [Field],
}

/// "Kinds: 1 local, 2 national, 3 order, 4 response, 5 modify, 6 cancel, 7 clock", and "kind 8,
/// reduce, which uses id, participant, units (the new open units) and time" (M-105).
pub const KINDS: [Kind; 8] = {
    use Field::*;
    [
        Kind {
            number: 1,
            word: "local",
            fields: &[Leg, Bid, BidSize, Ask, AskSize, Time],
        },
        Kind {
            number: 2,
            word: "national",
            fields: &[Leg, Bid, Ask, Time],
        },
        Kind {
            number: 3,
            word: "order",
            fields: &[Id, Participant, Account, Side, Units, Price, Wish, Time],
        },
        Kind {
            number: 4,
            word: "response",
            fields: &[Id, Participant, Account, Side, Units, Price, Time],
        },
        Kind {
            number: 5,
            word: "modify",
            fields: &[Id, Participant, Side, Units, Price, Time],
        },
        Kind {
            number: 6,
            word: "cancel",
            fields: &[Id, Participant, Time],
        },
        Kind {
            number: 7,
            word: "clock",
            fields: &[Time],
        },
        Kind {
            number: 8,
            word: "reduce",
            fields: &[Id, Participant, Units, Time],
        },
    ]
};

impl Kind {
    pub fn of_number(number: u8) -> Option<&'static Kind> {
        KINDS.iter().find(|kind| kind.number == number)
    }
}

/// The bytes of a record from a place on, as a little-endian number's bytes.
fn part<const N: usize>(record: &[u8], place: usize) -> [u8; N] {
    let mut bytes = [0; N];
    bytes.copy_from_slice(&record[place..place + N]);
    bytes
}

fn u16_at(record: &[u8], place: usize) -> u16 {
    u16::from_le_bytes(part(record, place))
}

fn u32_at(record: &[u8], place: usize) -> u32 {
    u32::from_le_bytes(part(record, place))
}

fn cents_at(record: &[u8], place: usize) -> Cents {
    Cents::from_le_bytes(part(record, place))
}

fn u64_at(record: &[u8], place: usize) -> u64 {
    u64::from_le_bytes(part(record, place))
}

impl Header {
    pub const BYTES: usize = 40;
    const LEG_COUNT: usize = 0;
    pub const LEG_OFFSET: usize = 2;
    pub const MESSAGE_COUNT: usize = 4;
    pub const MESSAGE_OFFSET: usize = 6;

    pub fn read(tape: &[u8]) -> Header {
        Header {
            leg_count: u16_at(tape, Header::LEG_COUNT),
            leg_offset: u16_at(tape, Header::LEG_OFFSET),
            message_count: u16_at(tape, Header::MESSAGE_COUNT),
            message_offset: u16_at(tape, Header::MESSAGE_OFFSET),
            settings: Settings {
                interval: u16_at(tape, 8),
                distance: u16_at(tape, 10),
                most_legs: u16_at(tape, 12),
                amounts: [14, 16, 18].map(|place| u16_at(tape, place)),
                minimum: u32_at(tape, 20),
                first_number: u64_at(tape, 24),
                opening_time: u64_at(tape, 32),
            },
        }
    }

    /// The legs' places in the tape; an empty section has none.
    pub fn legs(&self) -> Range<usize> {
        section(self.leg_offset, self.leg_count, Leg::BYTES)
    }

    /// The messages' places in the tape; an empty section has none.
    pub fn messages(&self) -> Range<usize> {
        section(self.message_offset, self.message_count, Record::BYTES)
    }

    /// Writes a count or an offset into a tape's header, at its place.
    pub fn set(tape: &mut [u8], place: usize, number: u16) {
        tape[place..place + 2].copy_from_slice(&number.to_le_bytes());
    }

    pub fn write(&self, tape: &mut Vec<u8>) {
        let settings = &self.settings;
        for number in [
            self.leg_count,
            self.leg_offset,
            self.message_count,
            self.message_offset,
            settings.interval,
            settings.distance,
            settings.most_legs,
        ] {
            tape.extend(number.to_le_bytes());
        }
        for amount in settings.amounts {
            tape.extend(amount.to_le_bytes());
        }
        tape.extend(settings.minimum.to_le_bytes());
        tape.extend(settings.first_number.to_le_bytes());
        tape.extend(settings.opening_time.to_le_bytes());
    }
}

impl Leg {
    /// "Legs are 24 bytes: symbol, side, ratio, MPV."
    pub const BYTES: usize = 24;

    pub fn read(record: &[u8]) -> Leg {
        Leg {
            symbol: part(record, 0),
            side: record[Leg::SYMBOL],
            ratio: record[Leg::SYMBOL + 1],
            mpv: record[Leg::SYMBOL + 2],
        }
    }

    pub fn write(&self, tape: &mut Vec<u8>) {
        tape.extend(self.symbol);
        tape.extend([self.side, self.ratio, self.mpv]);
    }
}

impl Record {
    pub const BYTES: usize = 36;

    pub fn read(record: &[u8]) -> Record {
        Record {
            kind: record[0],
            side: record[Field::Side.place()],
            account: record[Field::Account.place()],
            wish_or_leg: record[Field::Wish.place()],
            id: u32_at(record, Field::Id.place()),
            participant: u32_at(record, Field::Participant.place()),
            units: u32_at(record, Field::Units.place()),
            price: cents_at(record, Field::Price.place()),
            ask: cents_at(record, Field::Ask.place()),
            ask_size: u32_at(record, Field::AskSize.place()),
            time: u64_at(record, Field::Time.place()),
        }
    }

    pub fn write(&self, tape: &mut Vec<u8>) {
        tape.extend([self.kind, self.side, self.account, self.wish_or_leg]);
        tape.extend(self.id.to_le_bytes());
        tape.extend(self.participant.to_le_bytes());
        tape.extend(self.units.to_le_bytes());
        tape.extend(self.price.to_le_bytes());
        tape.extend(self.ask.to_le_bytes());
        tape.extend(self.ask_size.to_le_bytes());
        tape.extend(self.time.to_le_bytes());
    }

    /// The message, from the fields its kind uses; `None` meets 61.
    pub fn message(&self) -> Option<Message> {
        let terms = Terms {
            side: self.side,
            id: self.id,
            participant: self.participant,
            units: self.units,
            price: self.price,
        };
        let request = match self.kind {
            1 => Request::Local {
                leg: self.wish_or_leg,
                quote: Quote {
                    bid: LocalSide {
                        price: self.price,
                        size: self.units,
                    },
                    ask: LocalSide {
                        price: self.ask,
                        size: self.ask_size,
                    },
                },
            },
            2 => Request::National {
                leg: self.wish_or_leg,
                quote: Quote {
                    bid: self.price,
                    ask: self.ask,
                },
            },
            3 => Request::Order {
                terms,
                account: self.account,
                wish: self.wish_or_leg != 0,
            },
            4 => Request::Response {
                terms,
                account: self.account,
            },
            5 => Request::Modify { terms },
            6 => Request::Cancel {
                id: self.id,
                participant: self.participant,
            },
            7 => Request::Clock,
            8 => Request::Reduce {
                id: self.id,
                participant: self.participant,
                units: self.units,
            },
            _ => return None,
        };
        Some(Message {
            time: self.time,
            request,
        })
    }
}

/// A tape whose sections lie as they must.
#[derive(Clone, Copy)]
pub struct Tape<'a> {
    bytes: &'a [u8],
    pub header: Header,
}

/// Why a tape meets 60.
#[derive(Clone, Copy, PartialEq, Eq, Debug)]
pub enum Misfit {
    TooShort,
    TooLong,
    LegsOverHeader,
    MessagesOverHeader,
    LegsPastEnd,
    MessagesPastEnd,
    SectionsOverlap,
}

impl fmt::Display for Misfit {
    fn fmt(&self, f: &mut fmt::Formatter) -> fmt::Result {
        match self {
            Misfit::TooShort => write!(f, "the tape is under {} bytes", Header::BYTES),
            Misfit::TooLong => write!(f, "the tape is over {} bytes", Tape::MOST_BYTES),
            Misfit::LegsOverHeader => write!(f, "the legs overlap the header"),
            Misfit::MessagesOverHeader => write!(f, "the messages overlap the header"),
            Misfit::LegsPastEnd => write!(f, "the legs run past the end"),
            Misfit::MessagesPastEnd => write!(f, "the messages run past the end"),
            Misfit::SectionsOverlap => write!(f, "the legs and the messages overlap"),
        }
    }
}

fn section(offset: u16, count: u16, bytes: usize) -> Range<usize> {
    let from = usize::from(offset);
    from..from + usize::from(count) * bytes
}

impl<'a> Tape<'a> {
    pub const MOST_BYTES: usize = 65_535;

    /// "60 tape under 40 or over 65,535 bytes, or a section that is not empty overlapping the
    /// header or the other section, or running past the end."
    pub fn lay_out(bytes: &'a [u8]) -> Result<Tape<'a>, Misfit> {
        if bytes.len() < Header::BYTES {
            return Err(Misfit::TooShort);
        }
        if bytes.len() > Tape::MOST_BYTES {
            return Err(Misfit::TooLong);
        }
        let header = Header::read(bytes);
        let (legs, messages) = (header.legs(), header.messages());
        if !legs.is_empty() && legs.start < Header::BYTES {
            return Err(Misfit::LegsOverHeader);
        }
        if !messages.is_empty() && messages.start < Header::BYTES {
            return Err(Misfit::MessagesOverHeader);
        }
        if !legs.is_empty() && legs.end > bytes.len() {
            return Err(Misfit::LegsPastEnd);
        }
        if !messages.is_empty() && messages.end > bytes.len() {
            return Err(Misfit::MessagesPastEnd);
        }
        let both = !legs.is_empty() && !messages.is_empty();
        if both && legs.start < messages.end && messages.start < legs.end {
            return Err(Misfit::SectionsOverlap);
        }
        Ok(Tape { bytes, header })
    }

    /// A tape that neither 60 nor 61 refuses: "both over the whole tape, before the opening and
    /// all above".
    pub fn read(bytes: &'a [u8]) -> Result<Tape<'a>, Refusal> {
        let tape = Tape::lay_out(bytes).map_err(|_| 60)?;
        refuse_if(tape.first_wrong_kind().is_some(), 61)?;
        Ok(tape)
    }

    /// The position, from 1, of the first message of no kind, and that kind.
    pub fn first_wrong_kind(&self) -> Option<(usize, u8)> {
        let kinds = self.records().map(|record| record.kind);
        (1..)
            .zip(kinds)
            .find(|&(_, kind)| Kind::of_number(kind).is_none())
    }

    pub fn header_bytes(&self) -> &'a [u8] {
        &self.bytes[..Header::BYTES]
    }

    pub fn leg_bytes(&self) -> &'a [u8] {
        self.section_bytes(self.header.legs())
    }

    pub fn record_bytes(&self) -> &'a [u8] {
        self.section_bytes(self.header.messages())
    }

    pub fn legs(&self) -> impl Iterator<Item = Leg> + 'a {
        self.leg_bytes().chunks_exact(Leg::BYTES).map(Leg::read)
    }

    pub fn records(&self) -> impl Iterator<Item = Record> + 'a {
        self.record_bytes()
            .chunks_exact(Record::BYTES)
            .map(Record::read)
    }

    pub fn messages(&self) -> impl Iterator<Item = Message> + 'a {
        self.records().filter_map(|record| record.message())
    }

    /// An empty section may stand anywhere, also past the end.
    fn section_bytes(&self, section: Range<usize>) -> &'a [u8] {
        self.bytes.get(section).unwrap_or(&[])
    }
}

/// The messages' places in a tape whose legs stand straight after the header and whose messages
/// stand straight after them. The tape ends where they end.
pub fn plain_messages(legs: usize, messages: usize) -> Range<usize> {
    let from = Header::BYTES + legs * Leg::BYTES;
    from..from + messages * Record::BYTES
}

/// Writes a tape laid out so. `None` if there is too much for a tape.
pub fn write_tape(settings: &Settings, legs: &[Leg], records: &[Record]) -> Option<Vec<u8>> {
    let messages = plain_messages(legs.len(), records.len());
    if messages.end > Tape::MOST_BYTES {
        return None;
    }
    let header = Header {
        leg_count: legs.len() as u16,
        leg_offset: Header::BYTES as u16,
        message_count: records.len() as u16,
        message_offset: messages.start as u16,
        settings: *settings,
    };
    let mut tape = Vec::with_capacity(messages.end);
    header.write(&mut tape);
    legs.iter().for_each(|leg| leg.write(&mut tape));
    records.iter().for_each(|record| record.write(&mut tape));
    Some(tape)
}
