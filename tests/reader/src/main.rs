//! Every call of libreader.a against the model's reading end, and every decoded point against the live table, on random definitions,
//! right replies and faulty ones; and its CRC against the model's, on random bytes. Every other record is one from before texts
//! were cleaned, with its texts as they stood in the table.
//!
//!     reader [SEED [ROUNDS]]
//!
//! A round has a right reply, a faulty one and a list of another length, and 0 to 300 bytes with their CRC. Round i is made from
//! SEED + i, so `reader SEED+i 1` repeats it alone.

mod compare;
mod faults;
mod tally;

use std::process::exit;

use model::frames::read_reply;
use model::points::judge_definition;
use model::record::captured_record;
use reader::dates::is_leap_day;
use reader::old_records::old_record;
use reader::random::{groups, stamp, Random};
use reader::read_back::{read_back, Given, Texts};
use reader::seeds::{argument, spread, SEED};
use reader::texts::live_table;

use compare::{agree, crcs_agree};
use faults::{other_length, FAULTS};
use tally::Tally;

const ROUNDS: u64 = 20_000;
const USAGE: &str = "reader [SEED [ROUNDS]]";

/// The right reply, one with a fault, and one with a list of another length.
fn round(random: &mut Random, tally: &mut Tally) -> Result<(), String> {
    let numbers = groups(random);
    let is_good = judge_definition(&numbers).is_ok();
    let (day_first, table, stamp) = (random.chance(2), live_table(random), stamp(random));
    let texts = if random.chance(2) { Texts::Clean } else { Texts::AsTheyStood };
    let record = match texts {
        _ if !is_good => random.bytes(30),
        Texts::Clean => captured_record(&numbers, &table, stamp, day_first),
        Texts::AsTheyStood => old_record(&numbers, &table, stamp, day_first),
    };
    let frame = read_reply(1 + random.below(247) as u8, &record);
    let right = Given { groups: &numbers, day_first, frame: &frame };
    agree(random, tally, &right).map_err(|text| format!("{text}\n{right:?}"))?;
    if is_good {
        let seen = &mut tally.points_read_back;
        read_back(seen, &right, &table, texts, stamp.into()).map_err(|text| format!("{text}\n{right:?}"))?;
        tally.leap_days += u32::from(is_leap_day(&stamp));
    }
    let index = random.below(FAULTS.len() as u64) as usize;
    let faulty = Given { frame: &(FAULTS[index].make)(random, &right), ..right };
    let number = agree(random, tally, &faulty).map_err(|text| format!("{}: {text}\n{faulty:?}", FAULTS[index].name))?;
    tally.faults[index] += u32::from(is_good && number == FAULTS[index].number.into());
    let listed = Given { groups: &other_length(random, &numbers), ..right };
    agree(random, tally, &listed).map_err(|text| format!("{text}\n{listed:?}"))?;
    tally.long_lists += u32::from(is_good && listed.groups.len() > 32);
    tally.short_lists += u32::from(is_good && listed.groups.len() < 32);
    crcs_agree(random, tally)
}

fn main() {
    let (seed, rounds) = (argument(1, SEED, USAGE), argument(2, ROUNDS, USAGE));
    println!("seed {seed}, {rounds} rounds");
    let mut tally = Tally::default();
    for i in 0..rounds {
        let seed = seed.wrapping_add(i);
        if let Err(text) = round(&mut Random::new(spread(seed)), &mut tally) {
            println!("DIFFERENCE in the round of seed {seed}, {text}\nrepeat it with: reader {seed} 1");
            exit(1);
        }
    }
    tally.print();
    let seldom = tally.hardly_seen();
    if rounds >= ROUNDS && !seldom.is_empty() {
        println!("hardly seen: {}", seldom.join("; "));
        exit(1);
    }
    println!("{} frames agree", 3 * rounds);
    println!("{} CRCs agree", tally.crcs.iter().sum::<u32>());
}
