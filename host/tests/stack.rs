//! The stack that is said to suffice, on threads that have no more.

mod common;
mod tapes;

use second::strategy::Leg;
use second::tape::Tape;
use std::thread;
use tumghavi::{Engine, Fill, Message, Opening};

/// Runs something on a thread with so many bytes of stack, or as many as the system gives at least.
fn with_stack<T: Send>(bytes: usize, run: impl FnOnce() -> T + Send) -> T {
    let thread = thread::Builder::new().stack_size(bytes);
    thread::scope(|scope| thread.spawn_scoped(scope, run).expect("a thread").join().expect("it comes to its end"))
}

#[test]
fn print() {
    for (what, tape) in tapes::whole().chain(tapes::damaged()) {
        let all = tumghavi::print(&tape);
        let mut out = vec![0; all.len()];
        let written = with_stack(200_000, || tumghavi::print_into(&tape, &mut out));
        assert!(written == all.len() && out == all, "{what}");
    }
}

/// How many fills a tape's messages have, one at a time.
fn fills(bytes: &[u8], list: &mut [Fill]) -> usize {
    let Ok(tape) = Tape::read(bytes) else { return 0 };
    let legs: Vec<Leg> = tape.legs().collect();
    let opening = Opening { legs: &common::legs(&legs), settings: common::settings(&tape.header.settings) };
    let messages: Vec<Message> = tape.records().map(|record| common::message(&record)).collect();
    with_stack(16_000, || {
        let Ok(mut engine) = Engine::open(&opening) else { return 0 };
        messages.iter().map(|message| engine.step(message, list).fills()).sum()
    })
}

#[test]
fn messages() {
    let mut list = vec![Fill::BLANK; Fill::LEAST_PLACES];
    let fills: usize = tapes::whole().map(|(_, tape)| fills(&tape, &mut list)).sum();
    assert!(fills > 10_000, "{fills}");
}
