//! A list of calls that the library and the model both go through, and the short lists of random calls.

use std::rc::Rc;

use gateway::ffi::{self, State};
use gateway::memories::old_records;
use gateway::states::{damage, raw_of, remembered_of, standing, state_of, CLAUSES, ZEROS};
use model::foreign::foreign;
use model::layout::ALARM_FILE;
use model::machine::Machine;
use reader::random::{stamp, Random};
use reader::texts::live_table;

use crate::calls::Call;
use crate::compare::{agree, compare, compare_answer, only_read, wanted_of_machine, wanted_of_state, Wanted};
use crate::fresh::Fresh;
use crate::lent::{Buffer, Lent};
use crate::origins::{Origins, Scan, Stood};
use crate::poll_sights::PollSight;
use crate::sights::{Captured, History, Sight};
use crate::tally::Tally;

/// The calls of a short list.
pub const CALLS: usize = 90;
/// As good as never, where one in so many is asked for.
pub const NEVER: u64 = u64::MAX;

/// A gateway on both sides: the model's machine, and the state and archive that the library left, which are the same so far.
pub struct List {
    machine: Machine,
    pub state: State,
    archive: Vec<u8>,
    history: History,
    origins: Origins,
}

/// How many captures each file has had.
fn captures(machine: &Machine) -> Captured {
    std::array::from_fn(|index| machine.captures(index + 1).len())
}

/// What was captured since: nothing by any call but a scan.
fn captured_since(machine: &Machine, before: &Captured, call: &Call) -> Captured {
    let after = captures(machine);
    match call {
        Call::Scan { .. } => std::array::from_fn(|file| after[file] - before[file]),
        _ => [0; ALARM_FILE],
    }
}

/// A length that is mostly the state's, else another: a byte less or more, none, or any.
fn lent_length(random: &mut Random, right: usize, one_in: u64) -> usize {
    if !random.chance(one_in) {
        return right;
    }
    match random.below(4) {
        0 => right.saturating_sub(1),
        1 => right + 1,
        2 => 0,
        _ => random.below(14_000) as usize,
    }
}

impl List {
    /// Fresh over random bytes.
    pub fn fresh(random: &mut Random, tally: &mut Tally, given: &Fresh) -> Result<List, String> {
        let Fresh { length, unit, firmware } = *given;
        let day_first = random.chance(2);
        let mut lent = Lent { archive: random.bytes(length), reply: Buffer::none() };
        let (told, machine) = Machine::fresh(length, day_first, unit, firmware);
        let mut left = lent.clone();
        if told.is_done() {
            left.archive = machine.archive_memory();
        }
        let wanted = Wanted { told, length: 0, state: state_of(&machine.raw_state(), None, &ZEROS), lent: left };
        let got = ffi::fresh(day_first, unit, firmware, &mut lent.archive).into();
        tally.count_fresh(given, told.number);
        compare(&wanted, &got, &lent).map_err(|text| format!("{given:?}, day first {day_first}\n{text}"))?;
        // what a refused Fresh leaves has no archive
        let mut archive = lent.archive;
        archive.truncate(got.state.site.archive_length as usize);
        Ok(List { machine, state: got.state, archive, history: History::default(), origins: Origins::of_empty_files() })
    }

    /// A state that is not Foreign, over random bytes.
    pub fn standing(random: &mut Random, state: State) -> List {
        let archive = random.bytes(state.site.archive_length as usize);
        List::over(archive, state, Stood::AnyBytes)
    }

    /// The same over records from before texts were cleaned, which were captured of one scan.
    pub fn over_old_records(random: &mut Random, state: State, scan: Scan) -> List {
        let archive = old_records(random, &state, &scan.table, scan.stamp);
        List::over(archive, state, Stood::OldRecords(Rc::new(scan)))
    }

    /// The same over random bytes or over old records of any scan.
    pub fn any_standing(random: &mut Random, state: State) -> List {
        if random.chance(2) {
            return List::standing(random, state);
        }
        let scan = Scan { table: live_table(random), stamp: stamp(random) };
        List::over_old_records(random, state, scan)
    }

    fn over(archive: Vec<u8>, state: State, stood: Stood) -> List {
        let machine = Machine::standing(&raw_of(&state), remembered_of(&state), &archive);
        let origins = Origins::of_standing(&machine, stood);
        List { machine, state, archive, history: History::of_standing(), origins }
    }

    /// How many captures each file has had since it was emptied.
    pub fn captures(&self) -> Captured {
        captures(&self.machine)
    }

    /// One call on both sides, one in so many with an archive of another length.
    pub fn call(&mut self, random: &mut Random, tally: &mut Tally, call: &Call, other_length: u64) -> Result<(), String> {
        let length = lent_length(random, self.archive.len(), other_length);
        let lent = Lent::of(random, &self.archive, length, call.room());
        let captures_before = self.captures();
        let wanted = wanted_of_machine(&mut self.machine, &self.state, call, &lent);
        let told = |text| format!("{length} bytes lent, {call:?}\n{text}\nstate {:?}", self.state);
        agree(&wanted, &self.state, call, &lent).map_err(told)?;
        tally.count(call, &wanted, &lent);
        if !wanted.told.is_done() {
            return Ok(());
        }
        let captured = captured_since(&self.machine, &captures_before, call);
        self.look_at(tally, call, &wanted, &captured).map_err(told)?;
        self.note(call, &wanted.state, &captured);
        tally.most_rounds = tally.most_rounds.max(self.history.most_rounds());
        self.state = wanted.state;
        self.archive = wanted.lent.archive;
        Ok(())
    }

    /// A scan of which answer and state are compared and the archive is not, until `end` does: a file of 65,535 records would take
    /// minutes to fill if all its bytes were compared at every capture.
    pub fn scan_by_answer(&mut self, call: &Call) -> Result<(), String> {
        let captures_before = self.captures();
        let mut lent = Lent { archive: std::mem::take(&mut self.archive), reply: Buffer::none() };
        let (told, length) = call.on_model(&mut self.machine, lent.archive.len(), &mut lent.reply);
        let mut handed_in = call.clone();
        let got = handed_in.on_library(self.state, &mut lent);
        only_read(call, &handed_in)?;
        self.archive = lent.archive;
        let after = state_of(&self.machine.raw_state(), self.machine.remembered(), &self.state);
        compare_answer(&told, length, &after, &got)?;
        let captured = captured_since(&self.machine, &captures_before, call);
        self.note(call, &after, &captured);
        self.state = after;
        Ok(())
    }

    /// What an accepted scan or poll shows; the reply to a poll of a record is decoded and held against what was scanned.
    fn look_at(&self, tally: &mut Tally, call: &Call, wanted: &Wanted, captured: &Captured) -> Result<(), String> {
        let (before, history) = (&self.state, &self.history);
        match call {
            Call::Scan { table, stamp } => tally.scanned(&Sight::new(before, &table.0, *stamp, *captured, history)),
            Call::Poll { table, frame, room } => {
                let (table, frame, reply) = (&table.0, &frame.0, wanted.reply());
                tally.polled(&PollSight { before, after: &wanted.state, table, frame, room: *room, reply, history });
                self.origins.read_back(&mut tally.polls.read_back, before, frame, reply)?;
            }
            _ => {}
        }
        Ok(())
    }

    /// Takes note of an accepted call.
    fn note(&mut self, call: &Call, after: &State, captured: &Captured) {
        self.history.note(&self.state, after, call, captured);
        match call {
            Call::Start if self.state.flags.pending => self.origins = Origins::of_empty_files(),
            Call::Scan { table, stamp } => self.origins.note(&table.0, *stamp, captured),
            _ => {}
        }
    }

    /// One damaged copy of the state, handed to a random call.
    pub fn try_damaged(&self, random: &mut Random, tally: &mut Tally) -> Result<(), String> {
        let s = &self.state;
        let mut hurt = *s;
        let clause = random.below(CLAUSES.len() as u64) as usize;
        damage(random, &mut hurt, clause);
        let was_valid = !foreign(&raw_of(s));
        if was_valid {
            tally.clauses[clause][usize::from(!foreign(&raw_of(&hurt)))] += 1;
        }
        if random.chance(8) {
            let second = random.below(CLAUSES.len() as u64) as usize;
            damage(random, &mut hurt, second);
        }
        let call = Call::random(random, s);
        let length = lent_length(random, hurt.site.archive_length as usize, 5);
        let lent = Lent::of(random, &self.archive, length, call.room());
        let wanted = wanted_of_state(&hurt, &call, &lent);
        if was_valid && foreign(&raw_of(&hurt)) {
            let undamaged = wanted_of_state(s, &call, &Lent { archive: self.archive.clone(), ..lent.clone() });
            tally.count_foreign(&wanted, &undamaged);
        }
        tally.count(&call, &wanted, &lent);
        agree(&wanted, &hurt, &call, &lent)
            .map_err(|text| format!("damaged ({}), {length} bytes lent, {call:?}\n{text}\nstate {hurt:?}", CLAUSES[clause]))
    }

    /// After a list: the archive is the one that the model works out.
    pub fn end(&self) -> Result<(), String> {
        if self.archive == self.machine.archive_memory() {
            Ok(())
        } else {
            Err("after the list: archive memory is not the model's".to_string())
        }
    }
}

/// Fresh, of whose arguments each is one in so many times such that it may be refused.
fn any_fresh(random: &mut Random, tally: &mut Tally, one_in: u64) -> Result<List, String> {
    let given = Fresh::any(random, one_in);
    List::fresh(random, tally, &given)
}

/// A list of random calls, after Fresh or on a state that is not Foreign over random bytes or old records; between them damaged
/// copies of the state are handed in. Before it a Fresh is tried that may be refused for several arguments at once.
pub fn short_list(random: &mut Random, tally: &mut Tally) -> Result<(), String> {
    any_fresh(random, tally, 2)?;
    let mut list = if random.chance(2) {
        any_fresh(random, tally, 16)?
    } else {
        let state = standing(random);
        List::any_standing(random, state)
    };
    for number in 1..=CALLS {
        if random.chance(3) {
            list.try_damaged(random, tally).map_err(|text| format!("before call {number}: {text}"))?;
        }
        let call = Call::random(random, &list.state);
        list.call(random, tally, &call, 16).map_err(|text| format!("call {number}: {text}"))?;
    }
    list.end()
}
