//! Long random lists of calls on libgateway.a and on the model: each answer, the whole state, all archive bytes and all bytes of a
//! poll's reply buffer are compared, and polled records are decoded by libreader.a and held against what was scanned.
//!
//!     gateway [SEED [SHORT [LONG [DEEP [POLLS [ALARMS [TEXTS]]]]]]]
//!
//! The numbers say how many lists of each kind there are: short ones of calls of every kind; long ones that are mostly scans and
//! polls; one that fills a file of 65,535 records; polls of every address, every run of live points and more, in turn; scans with
//! every change of some alarm points, in turn; texts with every pair of bytes, in turn. About half of them are with firmware 73, the
//! others with 74; polls and alarms in turn are with both. Some lists start with Fresh, others from a random state that is not
//! Foreign over random bytes or old records. Between the calls of short and long ones, damaged copies of the state are handed in.
//! List i of each kind is made from SEED + i, so `gateway SEED+i 1 0 0 0 0 0` repeats a short one alone.

mod alarm_sights;
mod alarms_in_turn;
mod calls;
mod compare;
mod deep;
mod firmware_sights;
mod fresh;
mod fresh_sights;
mod in_turn;
mod lent;
mod lists;
mod live_in_turn;
mod live_sights;
mod long;
mod origins;
mod poll_sights;
mod poll_tally;
mod refused_sights;
mod scans;
mod sights;
mod tally;
mod text_sights;
mod texts_in_turn;

use std::process::exit;

use reader::random::Random;
use reader::seeds::{argument, spread, SEED};

use tally::Tally;

/// A kind of list: how many there are of it, and how one is gone through.
struct Kind {
    lists: u64,
    go: fn(&mut Random, &mut Tally) -> Result<(), String>,
}

const KINDS: [Kind; 6] = [
    Kind { lists: 3_000, go: lists::short_list },
    Kind { lists: 24, go: long::long_run },
    Kind { lists: 1, go: deep::deep_run },
    Kind { lists: 1, go: in_turn::polls_in_turn },
    Kind { lists: 1, go: alarms_in_turn::alarms_in_turn },
    Kind { lists: 1, go: texts_in_turn::texts_in_turn },
];
const USAGE: &str = "gateway [SEED [SHORT [LONG [DEEP [POLLS [ALARMS [TEXTS]]]]]]]";

/// Goes through a list of one of KINDS; a difference ends the program.
fn try_list(kind: usize, seed: u64, tally: &mut Tally) {
    if let Err(text) = (KINDS[kind].go)(&mut Random::new(spread(seed)), tally) {
        let repeat: Vec<String> = (0..KINDS.len()).map(|other| u8::from(other == kind).to_string()).collect();
        println!("DIFFERENCE in the list of seed {seed}, {text}\nrepeat it with: gateway {seed} {}", repeat.join(" "));
        exit(1);
    }
}

fn main() {
    let seed = argument(1, SEED, USAGE);
    let lists: [u64; KINDS.len()] = std::array::from_fn(|kind| argument(2 + kind, KINDS[kind].lists, USAGE));
    let [short, long, deep, polls, alarms, texts] = lists;
    let in_turn = polls + alarms + texts;
    println!("seed {seed}, {short} lists of {} calls, {long} of {}, {deep} deep, {in_turn} in turn", lists::CALLS, long::CALLS);
    let mut tally = Tally::default();
    for (kind, &lists) in lists.iter().enumerate() {
        for list in 0..lists {
            try_list(kind, seed.wrapping_add(list), &mut tally);
        }
    }
    tally.print();
    let seldom = tally.hardly_seen();
    if lists.iter().zip(&KINDS).all(|(&lists, kind)| lists >= kind.lists) && !seldom.is_empty() {
        println!("hardly seen: {}", seldom.join("; "));
        exit(1);
    }
    println!("{} polls in turn agree", tally.polls_in_turn);
    println!("{} alarm scans in turn agree", tally.alarm_scans_in_turn);
    println!("{} texts in turn agree", tally.texts_in_turn);
    println!("{} lists of calls agree", lists.iter().sum::<u64>());
}
