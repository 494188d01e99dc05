//! The written form of a tape (M-100): the same bytes for all tapes of one meaning.
//!
//! "Legs at offset 40, messages straight after, unused fields zero, any auction wish written as 1."
//! Every tape that neither 60 nor 61 refuses has a form, whether it opens or not; what is wrong in
//! a used field is kept. An empty section stands where it would begin if it had something.

use crate::tape::{plain_messages, Field, Header, Kind, Record, Tape, KINDS};
use crate::Refusal;
use std::array;
use std::ops::Range;

/// A tape's form; a refused tape has none, but its 60 or 61.
pub fn form(tape: &[u8]) -> Result<Vec<u8>, Refusal> {
    let tape = Tape::read(tape)?;
    let mut form = vec![0; messages_in_form(&tape).end];
    write(&tape, &mut form);
    Ok(form)
}

/// Writes a tape's form to the start of a lent buffer, and says how many bytes it has.
///
/// "Bytes of the lent buffer past the form stay. A buffer too short for it is refused with 70,
/// after 60 and 61, and under each of the three it is left untouched."
pub fn write_form(tape: &[u8], buffer: &mut [u8]) -> Result<usize, Refusal> {
    let tape = Tape::read(tape)?;
    let length = messages_in_form(&tape).end;
    let form = buffer.get_mut(..length).ok_or(70)?;
    write(&tape, form);
    Ok(length)
}

/// The messages' places in a tape's form, which ends where they end.
fn messages_in_form(tape: &Tape) -> Range<usize> {
    let header = &tape.header;
    plain_messages(header.leg_count.into(), header.message_count.into())
}

/// Writes a tape's form over bytes that are as many.
fn write(tape: &Tape, form: &mut [u8]) {
    let messages = messages_in_form(tape);
    form[..Header::BYTES].copy_from_slice(tape.header_bytes());
    Header::set(form, Header::LEG_OFFSET, Header::BYTES as u16);
    // A form is no longer than its tape, so this fits.
    Header::set(form, Header::MESSAGE_OFFSET, messages.start as u16);
    form[Header::BYTES..messages.start].copy_from_slice(tape.leg_bytes());
    let (places, _) = form[messages].as_chunks_mut();
    let (records, _) = tape.record_bytes().as_chunks();
    for (place, record) in places.iter_mut().zip(records) {
        *place = record_form(record);
    }
}

/// A record as its bytes.
type Bytes = [u8; Record::BYTES];

/// The most that each byte of a record may be in the form, by the record's kind: 255 in the fields
/// that the kind uses, but 1 in a wish, and 0 in those that it does not.
static MOST: [Bytes; KINDS.len() + 1] = {
    let mut most = [[0; Record::BYTES]; KINDS.len() + 1];
    let mut row = 0;
    while row < KINDS.len() {
        let Kind { number, fields, .. } = KINDS[row];
        let most = &mut most[number as usize];
        // The kind itself.
        most[0] = 255;
        let mut column = 0;
        while column < fields.len() {
            let field = fields[column];
            let mut at = field.place();
            while at < field.place() + field.bytes() {
                most[at] = if matches!(field, Field::Wish) { 1 } else { 255 };
                at += 1;
            }
            column += 1;
        }
        row += 1;
    }
    most
};

/// The form of a record of a kind.
fn record_form(record: &Bytes) -> Bytes {
    let most = &MOST[usize::from(record[0])];
    array::from_fn(|at| record[at].min(most[at]))
}
