//! Random tapes, the same for the same profile and seed. Each profile leans on some of the rules.

mod legprices;
mod legsize;
pub mod random;
mod reduce;
mod script;
mod sessions;
mod tapes;

use random::Random;

/// A kind of random tape.
pub struct Profile {
    pub name: &'static str,
    pub stresses: &'static str,
    write: fn(&mut Random) -> Vec<u8>,
}

const fn profile(
    name: &'static str,
    stresses: &'static str,
    write: fn(&mut Random) -> Vec<u8>,
) -> Profile {
    Profile {
        name,
        stresses,
        write,
    }
}

pub const PROFILES: [Profile; 32] = [
    profile("auction", "auctions, one after another", sessions::auction),
    profile("badkind", "a message of no kind: 61", sessions::bad_kind),
    profile(
        "badopen",
        "openings refused with 1 to 7",
        sessions::bad_open,
    ),
    profile(
        "bignum",
        "values at the ends of their ranges",
        sessions::big_numbers,
    ),
    profile("book", "orders and legs without an auction", sessions::book),
    profile(
        "deadline",
        "messages around an auction's deadline",
        sessions::deadline,
    ),
    profile(
        "endings",
        "auctions ended by time, order, legs and cancel",
        sessions::endings,
    ),
    profile("filter", "orders around the price filter", sessions::filter),
    profile(
        "fullbook",
        "32 orders open and one more",
        sessions::full_book,
    ),
    profile(
        "fullresp",
        "32 responses open and one more",
        sessions::full_responses,
    ),
    profile(
        "lastnumber",
        "arrival numbers up to 10^15",
        sessions::last_number,
    ),
    profile("lasttime", "times up to 10^15", sessions::last_time),
    profile("late", "legs that change during an auction", sessions::late),
    profile(
        "layout",
        "gaps, offsets, section order, unused fields",
        tapes::layout,
    ),
    profile(
        "legprices",
        "fills with leg prices and without",
        legprices::legprices,
    ),
    profile(
        "legsize",
        "leg sizes and prices that change during an auction",
        legsize::legsize,
    ),
    profile("long", "as many messages as a tape holds", sessions::long),
    profile("mix", "a bit of everything", sessions::mix),
    profile(
        "modify",
        "responses modified in side, price and units",
        sessions::modify,
    ),
    profile(
        "multileg",
        "three and four legs, most legs too small",
        sessions::multileg,
    ),
    profile(
        "negative",
        "net prices around and below zero",
        sessions::negative,
    ),
    profile("noise", "messages of random bytes", sessions::noise),
    profile("overlap", "sections that overlap: 60", tapes::overlap),
    profile(
        "prorata",
        "many entries at one price, tied remainders",
        sessions::pro_rata,
    ),
    profile("queue", "many orders in the auction queue", sessions::queue),
    profile(
        "ratios",
        "ratios that pass and that meet 5",
        sessions::ratios,
    ),
    profile(
        "reduce",
        "orders cancelled and reduced, in the queue and outside it",
        reduce::reduce,
    ),
    profile(
        "size",
        "tapes of the least and the most bytes: 60",
        tapes::size,
    ),
    profile(
        "spelling",
        "one session in other bytes: gaps, offsets, section order, unused fields, wishes",
        tapes::spelling,
    ),
    profile(
        "times",
        "times that repeat, go back and are too great",
        sessions::times,
    ),
    profile("truncate", "tapes cut short: 60", tapes::truncate),
    profile("wrong", "refused messages of every number", sessions::wrong),
];

impl Profile {
    /// The profile's tape of a seed.
    pub fn tape(&self, seed: u64) -> Vec<u8> {
        // Profiles get different tapes from the same seed.
        let mix_in = |hash: u64, byte: u8| hash.wrapping_mul(131).wrapping_add(u64::from(byte));
        let start = self.name.bytes().fold(seed, mix_in);
        (self.write)(&mut Random::new(start))
    }
}

/// The tape of a profile and a seed; `None` if there is no such profile.
pub fn gen(name: &str, seed: u64) -> Option<Vec<u8>> {
    let profile = PROFILES.iter().find(|profile| profile.name == name)?;
    Some(profile.tape(seed))
}
