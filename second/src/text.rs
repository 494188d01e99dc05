//! The readable form of a session: `make` turns it into a tape, `dump` turns a tape into it.
//!
//! A line is a setting and its value, a leg, or a message; `#` starts a comment. README.md has the
//! form in full.

use crate::strategy::{Leg, Settings};
use crate::tape::{write_tape, Field, Kind, Misfit, Record, Tape, KINDS};
use std::fmt::{self, Write};

/// What is wrong with a text, and on which line, from 1.
#[derive(Clone, PartialEq, Eq, Debug)]
pub struct TextError {
    pub line: usize,
    pub what: String,
}

impl fmt::Display for TextError {
    fn fmt(&self, f: &mut fmt::Formatter) -> fmt::Result {
        write!(f, "line {}: {}", self.line, self.what)
    }
}

/// The settings' names, in the sequence of the header.
const SETTINGS: [&str; 9] = [
    "interval",
    "distance",
    "most-legs",
    "amount-1",
    "amount-5",
    "amount-10",
    "minimum",
    "first-number",
    "opening-time",
];

/// The word of a line that gives a whole record, whatever its kind.
const RECORD: &str = "record";

/// The fields of such a line; those left out are 0.
const RECORD_FIELDS: [Field; 10] = [
    Field::Side,
    Field::Account,
    Field::Leg,
    Field::Id,
    Field::Participant,
    Field::Units,
    Field::Price,
    Field::Ask,
    Field::AskSize,
    Field::Time,
];

impl Field {
    fn name(self) -> &'static str {
        match self {
            Field::Side => "side",
            Field::Account => "account",
            Field::Wish => "wish",
            Field::Leg => "leg",
            Field::Id => "id",
            Field::Participant => "participant",
            Field::Units => "units",
            Field::BidSize => "bid-size",
            Field::Price => "price",
            Field::Bid => "bid",
            Field::Ask => "ask",
            Field::AskSize => "ask-size",
            Field::Time => "time",
        }
    }

    fn show(self, record: &Record) -> String {
        match self {
            Field::Side => show_letter(record.side),
            Field::Account => record.account.to_string(),
            Field::Wish if record.wish_or_leg == 0 => "no".to_string(),
            Field::Wish => "yes".to_string(),
            Field::Leg => record.wish_or_leg.to_string(),
            Field::Id => record.id.to_string(),
            Field::Participant => record.participant.to_string(),
            Field::Units | Field::BidSize => record.units.to_string(),
            Field::Price | Field::Bid => record.price.to_string(),
            Field::Ask => record.ask.to_string(),
            Field::AskSize => record.ask_size.to_string(),
            Field::Time => record.time.to_string(),
        }
    }

    fn set(self, record: &mut Record, value: &[u8]) -> Result<(), String> {
        match self {
            Field::Side => record.side = letter(value)?,
            Field::Account => record.account = number(value)?,
            Field::Wish => record.wish_or_leg = wish(value)?,
            Field::Leg => record.wish_or_leg = number(value)?,
            Field::Id => record.id = number(value)?,
            Field::Participant => record.participant = number(value)?,
            Field::Units | Field::BidSize => record.units = number(value)?,
            Field::Price | Field::Bid => record.price = number(value)?,
            Field::Ask => record.ask = number(value)?,
            Field::AskSize => record.ask_size = number(value)?,
            Field::Time => record.time = number(value)?,
        }
        Ok(())
    }
}

// Writing the text.

/// A letter or digit as itself, any other byte as 0x and two digits.
pub fn show_letter(byte: u8) -> String {
    if byte.is_ascii_alphanumeric() {
        char::from(byte).to_string()
    } else {
        format!("0x{byte:02x}")
    }
}

/// Bytes between quotes: what is not plain stands as \x and two digits.
pub fn show_symbol(symbol: &[u8]) -> String {
    let mut text = String::from("\"");
    for &byte in symbol {
        if (byte.is_ascii_graphic() && byte != b'"' && byte != b'\\') || byte == b' ' {
            text.push(char::from(byte));
        } else {
            text += &format!("\\x{byte:02x}");
        }
    }
    text + "\""
}

/// A record's line: its kind's word and the fields that kind uses.
fn show_record(record: &Record) -> String {
    let mut line = String::new();
    // Writing to a string does not fail.
    match Kind::of_number(record.kind) {
        Some(kind) => {
            line += kind.word;
            for field in kind.fields {
                let _ = write!(line, " {}={}", field.name(), field.show(record));
            }
        }
        None => {
            let _ = write!(line, "{RECORD} kind={}", record.kind);
            let blank = Record::default();
            for field in RECORD_FIELDS {
                let value = field.show(record);
                if value != field.show(&blank) {
                    let _ = write!(line, " {}={value}", field.name());
                }
            }
        }
    }
    line
}

fn show_settings(settings: &Settings) -> String {
    let values: [u64; 9] = [
        settings.interval.into(),
        settings.distance.into(),
        settings.most_legs.into(),
        settings.amounts[0].into(),
        settings.amounts[1].into(),
        settings.amounts[2].into(),
        settings.minimum.into(),
        settings.first_number,
        settings.opening_time,
    ];
    let lines = SETTINGS.iter().zip(values);
    lines
        .map(|(name, value)| format!("{name} {value}\n"))
        .collect()
}

/// The text of a tape; a tape that meets 60 has none.
pub fn dump(bytes: &[u8]) -> Result<String, Misfit> {
    let tape = Tape::lay_out(bytes)?;
    let mut text = show_settings(&tape.header.settings);
    text += "\n";
    for leg in tape.legs() {
        let symbol = show_symbol(&leg.symbol);
        let side = show_letter(leg.side);
        text += &format!(
            "leg symbol={symbol} side={side} ratio={} mpv={}\n",
            leg.ratio, leg.mpv
        );
    }
    text += "\n";
    for record in tape.records() {
        text += &show_record(&record);
        text += "\n";
    }
    Ok(text)
}

// Reading the text.

/// A part of a line: a word alone, or a name, `=` and a value.
struct Part {
    name: String,
    value: Option<Vec<u8>>,
}

/// The parts of a line, without its comment.
fn parts(line: &[u8]) -> Result<Vec<Part>, String> {
    let mut parts = Vec::new();
    let mut rest = line.trim_ascii_start();
    while !rest.is_empty() && rest[0] != b'#' {
        let ends = |b: &u8| b.is_ascii_whitespace() || *b == b'#';
        let name_end = rest.iter().position(|b| ends(b) || *b == b'=');
        let (name, after) = rest.split_at(name_end.unwrap_or(rest.len()));
        let name = String::from_utf8_lossy(name).into_owned();
        let (value, after) = match after {
            [b'=', b'"', quoted @ ..] => {
                let (value, after) = unquote(quoted)?;
                (Some(value), after)
            }
            [b'=', bare @ ..] => {
                let end = bare.iter().position(ends).unwrap_or(bare.len());
                (Some(bare[..end].to_vec()), &bare[end..])
            }
            _ => (None, after),
        };
        parts.push(Part { name, value });
        rest = after.trim_ascii_start();
    }
    Ok(parts)
}

/// The bytes up to the closing quote, and what follows it.
fn unquote(mut rest: &[u8]) -> Result<(Vec<u8>, &[u8]), String> {
    let mut value = Vec::new();
    loop {
        match rest {
            [b'"', after @ ..] => return Ok((value, after)),
            [b'\\', b'x', high, low, after @ ..] => {
                value.push(hex(&[*high, *low])?);
                rest = after;
            }
            [b'\\', ..] => return Err("a backslash stands for \\x and two digits only".into()),
            [byte, after @ ..] => {
                value.push(*byte);
                rest = after;
            }
            [] => return Err("a quote is not closed".into()),
        }
    }
}

fn hex(digits: &[u8]) -> Result<u8, String> {
    let text = String::from_utf8_lossy(digits);
    let plain = digits.len() == 2 && digits.iter().all(u8::is_ascii_hexdigit);
    match u8::from_str_radix(&text, 16) {
        Ok(byte) if plain => Ok(byte),
        _ => Err(format!("`{text}` is not a byte in two digits")),
    }
}

fn letter(value: &[u8]) -> Result<u8, String> {
    match value {
        [byte] => Ok(*byte),
        [b'0', b'x', digits @ ..] => hex(digits),
        _ => Err(format!(
            "`{}` is neither a letter nor 0x and two digits",
            String::from_utf8_lossy(value)
        )),
    }
}

fn wish(value: &[u8]) -> Result<u8, String> {
    match value {
        b"no" => Ok(0),
        b"yes" => Ok(1),
        _ => Err(format!(
            "`{}` is neither yes nor no",
            String::from_utf8_lossy(value)
        )),
    }
}

/// A number that fits its field.
fn number<T: TryFrom<i128>>(value: &[u8]) -> Result<T, String> {
    let text = String::from_utf8_lossy(value);
    match text.parse::<i128>() {
        Err(_) => Err(format!("`{text}` is not a number")),
        Ok(number) => T::try_from(number).map_err(|_| format!("{number} does not fit its field")),
    }
}

/// The values of a line's `name=value` parts, each taken once by its name.
struct Values {
    parts: Vec<Part>,
}

impl Values {
    fn take(&mut self, name: &str) -> Result<Option<Vec<u8>>, String> {
        let Some(at) = self.parts.iter().position(|part| part.name == name) else {
            return Ok(None);
        };
        match self.parts.remove(at).value {
            Some(value) => Ok(Some(value)),
            None => Err(format!("`{name}` needs a value, as in {name}=1")),
        }
    }

    fn need(&mut self, name: &str) -> Result<Vec<u8>, String> {
        self.take(name)?.ok_or(format!("`{name}` is missing"))
    }

    /// Every part has been taken.
    fn done(self) -> Result<(), String> {
        match self.parts.first() {
            None => Ok(()),
            Some(part) => Err(format!("`{}` is not wanted here, or twice", part.name)),
        }
    }
}

#[derive(Default)]
struct Session {
    settings: Settings,
    /// Which settings have been given.
    given: [bool; SETTINGS.len()],
    legs: Vec<Leg>,
    records: Vec<Record>,
}

impl Session {
    fn line(&mut self, line: &[u8]) -> Result<(), String> {
        let mut parts = parts(line)?;
        if parts.is_empty() {
            return Ok(());
        }
        let word = parts.remove(0);
        if word.value.is_some() {
            return Err(format!(
                "`{}=` stands where a line's word should",
                word.name
            ));
        }
        let word = word.name;
        let mut values = Values { parts };
        if let Some(at) = SETTINGS.iter().position(|name| *name == word) {
            self.setting(at, &values.parts)?;
        } else if word == "leg" {
            self.leg(values)?;
        } else if word == RECORD {
            let record = whole_record(&mut values)?;
            self.records.push(record);
            values.done()?;
        } else if let Some(kind) = KINDS.iter().find(|kind| kind.word == word) {
            let record = self.record(kind, &mut values)?;
            self.records.push(record);
            values.done()?;
        } else {
            return Err(format!("`{word}` is no setting, leg or message"));
        }
        Ok(())
    }

    fn setting(&mut self, at: usize, parts: &[Part]) -> Result<(), String> {
        let name = SETTINGS[at];
        let [Part {
            name: text,
            value: None,
        }] = parts
        else {
            return Err(format!("`{name}` wants one value, as in {name} 1"));
        };
        if self.given[at] {
            return Err(format!("`{name}` is given twice"));
        }
        if !self.records.is_empty() {
            return Err("settings stand before the messages".into());
        }
        self.given[at] = true;
        let value = text.as_bytes();
        let settings = &mut self.settings;
        match at {
            0 => settings.interval = number(value)?,
            1 => settings.distance = number(value)?,
            2 => settings.most_legs = number(value)?,
            3..=5 => settings.amounts[at - 3] = number(value)?,
            6 => settings.minimum = number(value)?,
            7 => settings.first_number = number(value)?,
            _ => settings.opening_time = number(value)?,
        }
        Ok(())
    }

    fn leg(&mut self, mut values: Values) -> Result<(), String> {
        let symbol = values.need("symbol")?;
        let length = symbol.len();
        let symbol = symbol
            .try_into()
            .map_err(|_| format!("the symbol has {length} bytes, not {}", Leg::SYMBOL))?;
        self.legs.push(Leg {
            symbol,
            side: letter(&values.need("side")?)?,
            ratio: number(&values.need("ratio")?)?,
            mpv: number(&values.need("mpv")?)?,
        });
        values.done()
    }

    /// A message with the fields its kind uses. A wish left out is no; a time left out is that of
    /// the message before, at first the opening's.
    fn record(&self, kind: &Kind, values: &mut Values) -> Result<Record, String> {
        let last = self.records.last();
        let mut record = Record {
            kind: kind.number,
            time: last.map_or(self.settings.opening_time, |last| last.time),
            ..Record::default()
        };
        for field in kind.fields {
            match values.take(field.name())? {
                Some(value) => set(*field, &mut record, &value)?,
                None if matches!(field, Field::Wish | Field::Time) => {}
                None => return Err(format!("`{}` lacks `{}`", kind.word, field.name())),
            }
        }
        Ok(record)
    }

    fn tape(&self) -> Result<Vec<u8>, String> {
        if let Some(at) = self.given.iter().position(|given| !given) {
            return Err(format!("the setting `{}` is missing", SETTINGS[at]));
        }
        write_tape(&self.settings, &self.legs, &self.records)
            .ok_or(format!("the tape would be over {} bytes", Tape::MOST_BYTES))
    }
}

fn set(field: Field, record: &mut Record, value: &[u8]) -> Result<(), String> {
    field
        .set(record, value)
        .map_err(|what| format!("{}: {what}", field.name()))
}

/// A record with any kind and any of its fields, used or not.
fn whole_record(values: &mut Values) -> Result<Record, String> {
    let mut record = Record {
        kind: number(&values.need("kind")?)?,
        ..Record::default()
    };
    for field in RECORD_FIELDS {
        if let Some(value) = values.take(field.name())? {
            set(field, &mut record, &value)?;
        }
    }
    Ok(record)
}

/// The tape of a text.
pub fn make(text: &[u8]) -> Result<Vec<u8>, TextError> {
    let mut session = Session::default();
    let mut line_number = 0;
    for line in text.split(|&byte| byte == b'\n') {
        line_number += 1;
        session.line(line).map_err(|what| TextError {
            line: line_number,
            what,
        })?;
    }
    session.tape().map_err(|what| TextError {
        line: line_number,
        what,
    })
}
