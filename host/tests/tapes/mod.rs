//! Random tapes of every profile, whole and damaged, each with its name.

use second::gen::random::Random;
use second::gen::{Profile, PROFILES};

/// All profiles' tapes of some seeds.
pub fn whole() -> impl Iterator<Item = (String, Vec<u8>)> {
    let of = |profile: &'static Profile| (1..=20).map(|seed| (format!("{} {seed}", profile.name), profile.tape(seed)));
    PROFILES.iter().flat_map(of)
}

/// The same with three bytes anew, and each of them cut.
pub fn damaged() -> impl Iterator<Item = (String, Vec<u8>)> {
    let mut random = Random::new(1);
    whole().flat_map(move |(what, mut tape)| {
        for _ in 0..3 {
            if !tape.is_empty() {
                let at = random.below(tape.len() as u64) as usize;
                tape[at] = random.below(256) as u8;
            }
        }
        let cut = random.below(tape.len() as u64 + 1) as usize;
        let rest = tape[..cut].to_vec();
        [(format!("{what}, damaged"), tape), (format!("{what}, cut to {cut}"), rest)]
    })
}
