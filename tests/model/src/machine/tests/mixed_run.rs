//! Long mixed runs: the machine's state stays valid, refused calls change
//! nothing, and reads agree with archive memory.

use super::*;
use crate::layout::{file_start, record_bytes};

/// A plain sequence of mixed numbers.
#[derive(Clone)]
struct Mixer(u64);

impl Mixer {
    fn below(&mut self, limit: u64) -> u64 {
        self.0 = self.0.wrapping_mul(6364136223846793005).wrapping_add(1);
        (self.0 >> 33) % limit
    }
}

fn a_table(mixer: &mut Mixer) -> Vec<u8> {
    (0..TABLE_BYTES).map(|_| mixer.below(256) as u8).collect()
}

fn some_groups(mixer: &mut Mixer) -> [u16; 32] {
    let choices = [
        (0, 0),
        (1805, 9),
        (3001, 2),
        (7101, 3),
        (7228, 2),
        (7101, 61),
        (4030, 3),
        (14001, 2),
    ];
    let mut used = [(0, 0); 3];
    for group in &mut used {
        *group = choices[mixer.below(8) as usize];
    }
    groups_from_first_place(&used)
}

fn one_call(machine: &mut Machine, mixer: &mut Mixer) -> Answer {
    let file = mixer.below(12) as usize;
    let point = 1800 + mixer.below(10) as u32;
    match mixer.below(40) {
        0 => machine.unlock(ARCHIVE),
        1 => machine.lock(ARCHIVE),
        2 => machine.stop(ARCHIVE),
        3..=5 => machine.start(ARCHIVE + (mixer.below(9) / 8) as usize),
        6..=11 => machine.define(ARCHIVE, file, &some_groups(mixer), mixer.below(40) as u16),
        12..=15 => machine.trigger(ARCHIVE, file, point),
        16..=19 => machine.alarm(ARCHIVE, 3 * file, point, mixer.below(5) as u32, 0),
        20..=34 => {
            let stamp = at_second(mixer.below(63) as u8);
            machine.scan(ARCHIVE, &a_table(mixer), stamp)
        }
        _ => {
            let address = 3703 + 3 * file as u16;
            let frame = request(UNIT, 6, address, mixer.below(40) as u16);
            let mut table = a_table(mixer);
            table.truncate(TABLE_BYTES - (mixer.below(9) / 8) as usize);
            machine.poll(ARCHIVE, &table, &frame, &mut [0; 256]).0
        }
    }
}

fn reads_agree_with_memory(machine: &Machine) {
    let memory = machine.archive_memory();
    for file in 1..=11 {
        let size = record_bytes(&machine.layout, file);
        let start = file_start(&machine.layout, file) as usize;
        for k in 1..=usize::from(machine.laid_out_n(file)) {
            let from = start + (k - 1) * size;
            assert_eq!(machine.record(file, k), memory[from..from + size]);
        }
    }
}

fn mixed_run(firmware: u16) {
    let mut mixer = Mixer(2007);
    let mut machine = fresh_of(firmware);
    let (mut refusals, mut captured) = (0, 0);
    for call in 0..4000 {
        let before = machine.clone();
        let answer = one_call(&mut machine, &mut mixer);
        assert!(!foreign(&machine.raw_state()));
        if !answer.is_done() {
            assert_eq!(machine, before);
            refusals += 1;
        }
        if call % 100 == 0 {
            reads_agree_with_memory(&machine);
            captured += (1..=10).map(|f| machine.captures(f).len()).sum::<usize>();
        }
    }
    assert!(refusals > 100 && captured > 100);
}

#[test]
fn a_long_mixed_run() {
    FIRMWARES.into_iter().for_each(mixed_run);
}

fn taken_and_gone_on_with(firmware: u16) {
    let mut mixer = Mixer(2008);
    let mut machine = fresh_of(firmware);
    for _ in 0..40 {
        let memory = machine.archive_memory();
        let mut taken = Machine::standing(&machine.raw_state(), machine.remembered(), &memory);
        for _ in 0..100 {
            let mut same = mixer.clone();
            let answer = one_call(&mut machine, &mut mixer);
            assert_eq!(one_call(&mut taken, &mut same), answer);
            assert_eq!(taken.raw_state(), machine.raw_state());
            assert_eq!(taken.remembered(), machine.remembered());
        }
        assert_eq!(taken.archive_memory(), machine.archive_memory());
    }
}

#[test]
fn a_machine_taken_as_it_stands_goes_on_as_it_was() {
    FIRMWARES.into_iter().for_each(taken_and_gone_on_with);
}
