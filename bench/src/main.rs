//! The proved library and the second program on the same tapes: how long each takes.

#[path = "../../host/tests/common/mod.rs"]
mod common;
mod made;
mod pipes;

use made::Case;
use second::engine::{Engine, Outcome};
use second::execution::{Fill, FillList};
use second::form::{form, write_form};
use second::gen::PROFILES;
use second::message::Message;
use second::print::{run_tape, tapeprint};
use second::strategy::{Leg, Settings};
use second::tape::{Record, Tape};
use std::hint::black_box;
use std::ops::Range;
use std::process::ExitCode;
use std::time::Instant;

const USAGE: &str = "\
usage: bench                       the tables of docs/BENCHMARK.md
       bench --rounds N            the same, in so many rounds
       bench --check               only whether both print the same, and write the same forms
       bench --run PROFILE TIMES   the library alone on a profile's tapes, for a profiler";
const ROUNDS: usize = 60;
/// Runs of one engine before the other's turn, so that what the other left in the caches matters less.
const RUNS: usize = 3;
const SEEDS: Range<u64> = 1..21;
/// Openings that are timed together, since the clock takes as long as a part of one.
const OPENINGS: usize = 16;

/// Nanoseconds of the proved library and of the plain program.
#[derive(Clone, Copy)]
struct Times {
    proved: f64,
    plain: f64,
}

impl Times {
    const NEVER: Times = Times { proved: f64::INFINITY, plain: f64::INFINITY };

    fn with(self, other: Times, of: impl Fn(f64, f64) -> f64) -> Times {
        Times { proved: of(self.proved, other.proved), plain: of(self.plain, other.plain) }
    }

    fn per(self, count: usize) -> Times {
        self.with(self, |ns, _| ns / count as f64)
    }

    /// What all of the tapes take, each at its best.
    fn sum<'a>(tracks: impl Iterator<Item = &'a Track>, way: Way) -> Times {
        let least = |best: Times, round: &Times| best.with(*round, f64::min);
        let best = |track: &Track| track.rounds(way).iter().fold(Times::NEVER, least);
        tracks.fold(Times { proved: 0.0, plain: 0.0 }, |sum, track| sum.with(best(track), |a, b| a + b))
    }

    fn ratio(self) -> f64 {
        self.proved / self.plain
    }
}

/// How a tape is run: from its bytes to its lines; without text, message by message, or record by record from their bytes;
/// from its bytes to those of its form; or its opening alone.
#[derive(Clone, Copy)]
enum Way {
    Print,
    Step,
    Record,
    Form,
    Open,
}

impl Way {
    const ALL: [Way; 5] = [Way::Print, Way::Step, Way::Record, Way::Form, Way::Open];
    /// Those that the tables read of a profile's tapes.
    const OF_PROFILE: &[Way] = &[Way::Print, Way::Step, Way::Record, Way::Open];
    /// Of a row of the forms.
    const OF_FORMS: &[Way] = &[Way::Form];
    /// Of a pair.
    const OF_PAIR: &[Way] = &[Way::Print];
}

/// A tape, what the second program says of it, and each engine's best time.
struct Track {
    tape: Vec<u8>,
    expected: String,
    /// Where the library prints to.
    out: Vec<u8>,
    /// Where both write the form to.
    lent: Vec<u8>,
    messages: usize,
    fills: usize,
    refused: usize,
    /// Whether an auction is pending at the end.
    pending: bool,
    /// The best of each round, for each way.
    rounds: [Vec<Times>; Way::ALL.len()],
    script: Script,
}

/// A tape as a host sends it, and what it lends.
struct Script {
    legs: Vec<Leg>,
    settings: Settings,
    messages: Vec<Message>,
    list: Vec<Fill>,
    records: Vec<u8>,
    proved: Proved,
}

/// The same in the library's types.
struct Proved {
    legs: Vec<tumghavi::Leg>,
    settings: tumghavi::Settings,
    messages: Vec<tumghavi::Message>,
    list: Vec<tumghavi::Fill>,
    records: Vec<[u8; Record::BYTES]>,
}

impl Script {
    /// A tape that is turned back has no records.
    fn of(bytes: &[u8]) -> Script {
        let tape = Tape::read(bytes).ok();
        let legs: Vec<Leg> = tape.map(|tape| tape.legs().collect()).unwrap_or_default();
        let settings = tape.map(|tape| tape.header.settings).unwrap_or_default();
        let records = tape.map(|tape| tape.record_bytes().to_vec()).unwrap_or_default();
        let read: Vec<Record> = records.chunks_exact(Record::BYTES).map(Record::read).collect();
        let proved = Proved {
            legs: common::legs(&legs),
            settings: common::settings(&settings),
            messages: read.iter().map(common::message).collect(),
            list: vec![tumghavi::Fill::BLANK; tumghavi::Fill::LEAST_PLACES],
            records: records.as_chunks().0.to_vec(),
        };
        let messages = read.iter().filter_map(Record::message).collect();
        Script { legs, settings, messages, list: vec![Fill::BLANK; FillList::LEAST_PLACES], records, proved }
    }

    fn open_plain(&self) -> Option<Engine> {
        Engine::open(&self.legs, &self.settings).ok()
    }

    /// How many fills the second program gives for the messages.
    fn step_plain(&mut self) -> usize {
        let Some(mut engine) = self.open_plain() else { return 0 };
        let messages = self.messages.iter();
        messages.map(|message| engine.apply(black_box(message), &mut self.list).fill_count()).sum()
    }

    /// And for the bytes of the records.
    fn record_plain(&mut self) -> usize {
        let Some(mut engine) = self.open_plain() else { return 0 };
        let records = self.records.chunks_exact(Record::BYTES);
        let messages = records.filter_map(|record| Record::read(black_box(record)).message());
        messages.map(|message| engine.apply(&message, &mut self.list).fill_count()).sum()
    }
}

impl Proved {
    fn open(&self) -> Option<tumghavi::Engine> {
        tumghavi::Engine::open(&tumghavi::Opening { legs: &self.legs, settings: self.settings }).ok()
    }

    /// How many fills the library gives for the messages.
    fn step(&mut self) -> usize {
        let Some(mut engine) = self.open() else { return 0 };
        self.messages.iter().map(|message| engine.step(black_box(message), &mut self.list).fills()).sum()
    }

    /// And for the bytes of the records.
    fn record(&mut self) -> usize {
        let Some(mut engine) = self.open() else { return 0 };
        self.records.iter().map(|record| engine.record(black_box(record), &mut self.list).fills()).sum()
    }
}

impl Track {
    fn new(tape: Vec<u8>) -> Track {
        let expected = tapeprint(&tape);
        let (mut messages, mut fills, mut refused) = (0, 0, 0);
        let end = run_tape(&tape, |_, outcome, records| {
            messages += 1;
            fills += records.len();
            refused += usize::from(matches!(outcome, Outcome::Refused { .. }));
        });
        let pending = end.is_ok_and(|engine| engine.auction().is_some());
        let (out, lent) = (vec![0; expected.len() + 1], vec![0; tape.len()]);
        let (rounds, script) = (Way::ALL.map(|_| Vec::new()), Script::of(&tape));
        Track { tape, expected, out, lent, messages, fills, refused, pending, rounds, script }
    }

    fn rounds(&self, way: Way) -> &[Times] {
        &self.rounds[way as usize]
    }

    /// How many legs are opened; none where the opening is refused.
    fn opened(&self) -> usize {
        self.script.open_plain().map_or(0, |_| self.script.legs.len())
    }

    /// The bytes that the library writes, none of a tape that has no form, how many fills it gives, or how many openings pass.
    fn run_proved(&mut self, way: Way) -> usize {
        match way {
            Way::Print => tumghavi::print_into(black_box(&self.tape), &mut self.out),
            Way::Step => self.script.proved.step(),
            Way::Record => self.script.proved.record(),
            Way::Form => tumghavi::form(black_box(&self.tape), &mut self.lent).unwrap_or(0),
            Way::Open => (0..OPENINGS).filter(|_| black_box(&self.script.proved).open().is_some()).count(),
        }
    }

    /// The second program's.
    fn run_plain(&mut self, way: Way) -> usize {
        match way {
            Way::Print => tapeprint(black_box(&self.tape)).len(),
            Way::Step => self.script.step_plain(),
            Way::Record => self.script.record_plain(),
            Way::Form => write_form(black_box(&self.tape), &mut self.lent).unwrap_or(0),
            Way::Open => (0..OPENINGS).filter(|_| black_box(&self.script).open_plain().is_some()).count(),
        }
    }

    fn agrees(&mut self) -> bool {
        let written = self.run_proved(Way::Print);
        let same = &self.out[..written] == self.expected.as_bytes();
        same && self.has_its_form() && Way::ALL.iter().all(|&way| self.run_proved(way) == self.run_plain(way))
    }

    /// The library's form is the second program's, and the number is, where there is none.
    fn has_its_form(&mut self) -> bool {
        let written = tumghavi::form(&self.tape, &mut self.lent).map_err(tumghavi::Refusal::number);
        written.map(|size| self.lent[..size].to_vec()) == form(&self.tape).map_err(u32::from)
    }
}

/// How many nanoseconds something takes, where that is less than before.
fn least(before: &mut f64, run: impl FnOnce() -> usize) {
    let start = Instant::now();
    black_box(run());
    *before = before.min(start.elapsed().as_nanos() as f64);
}

/// In each way one engine on all of the tapes, then the other: one tape again and again is what a processor learns by heart.
fn time(tracks: &mut [Track], way: Way) {
    let mut best = vec![Times::NEVER; tracks.len()];
    for _ in 0..RUNS {
        let each = tracks.iter_mut().zip(&mut best);
        each.for_each(|(track, best)| least(&mut best.proved, || track.run_proved(way)));
    }
    for _ in 0..RUNS {
        let each = tracks.iter_mut().zip(&mut best);
        each.for_each(|(track, best)| least(&mut best.plain, || track.run_plain(way)));
    }
    tracks.iter_mut().zip(best).for_each(|(track, best)| track.rounds[way as usize].push(best));
}

/// Runs something further down the stack: where it stands matters to the library's copies, so each round has it elsewhere.
#[inline(never)]
fn deeper(frames: usize, run: &mut dyn FnMut()) {
    let frame = black_box([0u8; 80]);
    match frames {
        0 => run(),
        _ => deeper(frames - 1, run),
    }
    black_box(&frame);
}

/// The tapes of a profile, or of a row of the forms.
struct Group {
    name: &'static str,
    tracks: Vec<Track>,
}

impl Group {
    fn turned_back(&self) -> bool {
        self.tracks.iter().filter(|track| track.messages == 0).count() * 2 > self.tracks.len()
    }
}

/// A case's tape without and with what it is about.
struct Pair {
    case: Case,
    tracks: [Track; 2],
}

impl Pair {
    /// What each message, or fill, costs that the second tape has more.
    fn times(&self) -> Times {
        let times =
            Times { proved: self.difference(|round| round.proved), plain: self.difference(|round| round.plain) };
        times.per(self.case.messages + self.case.fills)
    }

    /// How much longer the second tape takes in one round: the median of the fastest quarter of the rounds.
    fn difference(&self, engine: fn(&Times) -> f64) -> f64 {
        let [without, with] = self.tracks.each_ref().map(|track| track.rounds(Way::Print).iter().map(engine));
        let mut rounds: Vec<(f64, f64)> = with.zip(without).map(|(a, b)| (a + b, a - b)).collect();
        rounds.sort_by(|a, b| a.0.total_cmp(&b.0));
        rounds.truncate(rounds.len().div_ceil(4));
        rounds.sort_by(|a, b| a.1.total_cmp(&b.1));
        rounds[rounds.len() / 2].1
    }

    /// The tapes are what the case says.
    fn is_as_said(&self) -> bool {
        let [without, with] = &self.tracks;
        let ends = |track: &Track| {
            track.expected.lines().last() == Some(&self.case.last_line) && track.pending == self.case.pending
        };
        ends(without)
            && ends(with)
            && without.refused == 0
            && with.refused == self.case.refused
            && with.messages == without.messages + self.case.messages
            && with.fills == without.fills + self.case.fills
    }
}

struct Bench {
    groups: Vec<Group>,
    pairs: Vec<Pair>,
    forms: Vec<Group>,
}

impl Bench {
    /// All tapes, once it is seen that both engines print the same for each.
    fn checked() -> Result<Bench, String> {
        let tracks = |profile: &second::gen::Profile| SEEDS.map(|seed| Track::new(profile.tape(seed))).collect();
        let pair = |mut case: Case| Pair { tracks: std::mem::take(&mut case.tapes).map(Track::new), case };
        let row = |(name, tapes): (_, Vec<_>)| Group { name, tracks: tapes.into_iter().map(Track::new).collect() };
        let mut bench = Bench {
            groups: PROFILES.iter().map(|profile| Group { name: profile.name, tracks: tracks(profile) }).collect(),
            pairs: made::cases().into_iter().map(pair).collect(),
            forms: made::spellings(SEEDS).into_iter().map(row).collect(),
        };
        for Group { name, tracks } in bench.groups.iter_mut().chain(&mut bench.forms) {
            claim(tracks.iter_mut().all(Track::agrees), || format!("{name}: the outputs differ"))?;
        }
        for pair in &mut bench.pairs {
            claim(pair.tracks.iter_mut().all(Track::agrees), || format!("{}: the outputs differ", pair.case))?;
            claim(pair.is_as_said(), || format!("{}: not as said", pair.case))?;
        }
        claim(bench.forms_are_as_said(), || "the form of a tape: not as said".into())?;
        Ok(bench)
    }

    /// The tapes of the first two rows have the most bytes that there can be, and one form in the one row as in the other.
    fn forms_are_as_said(&self) -> bool {
        let is_longest = |track: &Track| track.tape.len() == Tape::MOST_BYTES && form(&track.tape).is_ok();
        let respelled = |(a, b): (&Track, &Track)| a.tape != b.tape && form(&a.tape) == form(&b.tape);
        let [plain, noisy] = [0, 1].map(|row| &self.forms[row].tracks);
        plain.iter().chain(noisy).all(is_longest) && plain.iter().zip(noisy).all(respelled)
    }

    /// The tapes of each row, and the ways in which they are timed.
    fn rows(&mut self) -> impl Iterator<Item = (&mut [Track], &'static [Way])> {
        let groups = self.groups.iter_mut().map(|group| (&mut group.tracks[..], Way::OF_PROFILE));
        let forms = self.forms.iter_mut().map(|group| (&mut group.tracks[..], Way::OF_FORMS));
        let pairs = self.pairs.iter_mut().map(|pair| (&mut pair.tracks[..], Way::OF_PAIR));
        groups.chain(forms).chain(pairs)
    }

    fn print(&self) {
        let (turned_back, others): (Vec<&Group>, Vec<&Group>) = self.groups.iter().partition(|g| g.turned_back());
        println!("## By profile\n");
        print_profiles(&others, Way::Print);
        println!("\nTapes of which most are turned back before their first message:\n");
        println!("| Profile | Tapes | Proved, ns a tape | Plain, ns a tape | Ratio |\n|---|--:|--:|--:|--:|");
        for Group { name, tracks } in turned_back {
            let times = Times::sum(tracks.iter(), Way::Print).per(tracks.len());
            let Times { proved, plain } = times;
            println!("| {name} | {} | {proved:.0} | {plain:.0} | {:.1} |", tracks.len(), times.ratio());
        }
        print_openings(&self.groups);
        println!("\n## A message at a time, without text\n");
        print_profiles(&others, Way::Step);
        println!("\n## A record at a time, from its bytes\n");
        print_profiles(&others, Way::Record);
        self.pairs.chunk_by(|a, b| a.case.table == b.case.table).for_each(print_pairs);
        print_forms(&self.forms);
    }
}

fn print_profiles(groups: &[&Group], way: Way) {
    println!(
        "| Profile | Messages | Fills | Proved, messages/s | Plain, messages/s | Proved, ns | Plain, ns | Ratio |"
    );
    println!("|---|--:|--:|--:|--:|--:|--:|--:|");
    groups.iter().for_each(|group| print_profile(group.name, group.tracks.iter(), way));
    print_profile("all of these", groups.iter().flat_map(|group| &group.tracks), way);
}

fn print_profile<'a>(name: &str, tracks: impl Iterator<Item = &'a Track> + Clone, way: Way) {
    let messages = tracks.clone().map(|track| track.messages).sum();
    let fills: usize = tracks.clone().map(|track| track.fills).sum();
    let times = Times::sum(tracks, way).per(messages);
    let Times { proved, plain } = times;
    let speeds = format!("{:.0} | {:.0}", 1e9 / proved, 1e9 / plain);
    println!("| {name} | {messages} | {fills} | {speeds} | {proved:.0} | {plain:.0} | {:.1} |", times.ratio());
}

/// The table of openings, with a row for each number of legs and one for those that are refused.
fn print_openings(groups: &[Group]) {
    println!("\n## An opening\n");
    println!("| | Openings | Proved, ns | Plain, ns | Ratio |\n|---|--:|--:|--:|--:|");
    for (name, legs) in [("2 legs", 2), ("3 legs", 3), ("4 legs", 4), ("refused", 0)] {
        let tracks = groups.iter().flat_map(|group| &group.tracks);
        let tracks = tracks.filter(|track| !track.script.legs.is_empty() && track.opened() == legs);
        let openings = tracks.clone().count();
        let times = Times::sum(tracks, Way::Open).per(openings * OPENINGS);
        println!("| {name} | {openings} | {:.0} | {:.0} | {:.1} |", times.proved, times.plain, times.ratio());
    }
}

/// One table, with a cell for each pair.
fn print_pairs(pairs: &[Pair]) {
    let mut columns: Vec<&str> = Vec::new();
    for pair in pairs {
        if !columns.contains(&pair.case.column.as_str()) {
            columns.push(&pair.case.column);
        }
    }
    println!("\n## {}\n", pairs[0].case.table);
    println!("Nanoseconds, proved / plain = ratio.\n");
    println!("| | {} |\n|---|{}", columns.join(" | "), "--:|".repeat(columns.len()));
    for row in pairs.chunk_by(|a, b| a.case.row == b.case.row) {
        let cell = |column: &&str| match row.iter().find(|pair| pair.case.column == *column).map(Pair::times) {
            Some(times) => format!("{:.0} / {:.0} = {:.1}", times.proved, times.plain, times.ratio()),
            None => String::new(),
        };
        println!("| {} | {} |", row[0].case.row, columns.iter().map(cell).collect::<Vec<_>>().join(" | "));
    }
}

/// The table of the forms, with a row for each group of tapes.
fn print_forms(groups: &[Group]) {
    println!("\n## The form of a tape\n");
    println!("| | Tapes | Bytes a tape | Bytes written | Proved, ns a tape | Plain, ns a tape | Ratio |");
    println!("|---|--:|--:|--:|--:|--:|--:|");
    for Group { name, tracks } in groups {
        let mean = |bytes: fn(&Track) -> usize| tracks.iter().map(bytes).sum::<usize>() / tracks.len();
        let bytes = mean(|track| track.tape.len());
        let written = mean(|track| form(&track.tape).map_or(0, |form| form.len()));
        let times = Times::sum(tracks.iter(), Way::Form).per(tracks.len());
        let Times { proved, plain } = times;
        let ratio = times.ratio();
        println!("| {name} | {} | {bytes} | {written} | {proved:.0} | {plain:.0} | {ratio:.2} |", tracks.len());
    }
}

fn claim(holds: bool, what: impl Fn() -> String) -> Result<(), String> {
    match holds {
        true => Ok(()),
        false => Err(what()),
    }
}

/// The library alone on a profile's tapes; how many messages it was given.
fn run_alone(name: &str, times: usize) -> Result<usize, String> {
    let profile = PROFILES.iter().find(|profile| profile.name == name).ok_or(format!("no such profile: {name}"))?;
    let mut tracks: Vec<Track> = SEEDS.map(|seed| Track::new(profile.tape(seed))).collect();
    for _ in 0..times {
        tracks.iter_mut().for_each(|track| {
            black_box(track.run_proved(Way::Print));
        });
    }
    Ok(times * tracks.iter().map(|track| track.messages).sum::<usize>())
}

fn run(arguments: &[&str]) -> Result<(), String> {
    let number = |word: &str| word.parse::<usize>().map_err(|_| format!("not a number: {word}"));
    let rounds = match arguments {
        [] => ROUNDS,
        ["--rounds", rounds] => number(rounds)?.max(1),
        ["--check"] => {
            println!("{} tapes agree", Bench::checked()?.rows().map(|(tracks, _)| tracks.len()).sum::<usize>());
            return Ok(());
        }
        ["--run", profile, times] => {
            println!("{} messages", run_alone(profile, number(times)?)?);
            return Ok(());
        }
        _ => return Err(USAGE.into()),
    };
    let mut bench = Bench::checked()?;
    for round in 0..rounds {
        deeper(round, &mut || bench.rows().for_each(|(tracks, ways)| ways.iter().for_each(|&way| time(tracks, way))));
    }
    bench.print();
    pipes::print()
}

fn main() -> ExitCode {
    let arguments: Vec<String> = std::env::args().skip(1).collect();
    let words: Vec<&str> = arguments.iter().map(String::as_str).collect();
    match run(&words) {
        Ok(()) => ExitCode::SUCCESS,
        Err(what) => {
            eprintln!("bench: {what}");
            ExitCode::FAILURE
        }
    }
}
