//! The service card: the numbers that calls answer, and their words.

pub const DONE: u8 = 0;
pub const MEMORY: u8 = 1;
pub const FOREIGN: u8 = 2;
pub const TABLE: u8 = 3;
pub const CLOCK: u8 = 4;
pub const FILE: u8 = 5;
pub const LOCKED: u8 = 6;
pub const GROUP: u8 = 7;
pub const LONG: u8 = 8;
pub const TRIGGER: u8 = 9;
pub const RUNNING: u8 = 10;
pub const ROOM: u8 = 11;
pub const ALARM: u8 = 12;
pub const REPLY: u8 = 13;
pub const GARBLED: u8 = 14;
pub const EMPTY: u8 = 15;
pub const BEYOND: u8 = 16;

/// The rows of the card: number and word.
pub const CARD: [(u8, &str); 16] = [
    (MEMORY, "Memory"),
    (FOREIGN, "Foreign"),
    (TABLE, "Table"),
    (CLOCK, "Clock"),
    (FILE, "File"),
    (LOCKED, "Locked"),
    (GROUP, "Group"),
    (LONG, "Long"),
    (TRIGGER, "Trigger"),
    (RUNNING, "Running"),
    (ROOM, "Room"),
    (ALARM, "Alarm"),
    (REPLY, "Reply"),
    (GARBLED, "Garbled"),
    (EMPTY, "Empty"),
    (BEYOND, "Beyond"),
];

/// The word of a number that is on the card.
pub fn word(number: u32) -> Option<&'static str> {
    let row = CARD.iter().find(|row| u32::from(row.0) == number);
    row.map(|row| row.1)
}

/// A number of the service card, with what it carries (0 but for Group).
#[derive(Clone, Copy, Debug, PartialEq, Eq)]
pub struct Refusal {
    pub number: u8,
    pub carried: u16,
}

impl Refusal {
    /// A refusal that carries nothing.
    pub fn plain(number: u8) -> Refusal {
        Refusal { number, carried: 0 }
    }
}

/// What a call answers: number 0 is done, any other is a refusal.
#[derive(Clone, Copy, Debug, PartialEq, Eq)]
pub struct Answer {
    pub number: u8,
    pub carried: u16,
}

impl Answer {
    pub const DONE: Answer = Answer {
        number: DONE,
        carried: 0,
    };

    pub fn is_done(&self) -> bool {
        self.number == DONE
    }
}

impl From<Result<(), Refusal>> for Answer {
    fn from(result: Result<(), Refusal>) -> Answer {
        match result {
            Ok(()) => Answer::DONE,
            Err(refusal) => Answer {
                number: refusal.number,
                carried: refusal.carried,
            },
        }
    }
}

/// "The lowest that applies is answered": each entry is a number and
/// whether it applies.
pub fn lowest(entries: &[(u8, bool)]) -> Result<(), Refusal> {
    let applying = entries.iter().filter(|entry| entry.1);
    match applying.map(|entry| entry.0).min() {
        Some(number) => Err(Refusal::plain(number)),
        None => Ok(()),
    }
}

#[cfg(test)]
mod tests {
    use super::*;

    #[test]
    fn the_lowest_that_applies_is_answered() {
        let entries = [(CLOCK, true), (FOREIGN, true), (MEMORY, false)];
        assert_eq!(lowest(&entries), Err(Refusal::plain(FOREIGN)));
        assert_eq!(Answer::from(lowest(&entries)).number, 2);
    }

    #[test]
    fn the_card_counts_from_1_to_16() {
        assert!(CARD.iter().map(|row| row.0).eq(1..=16));
        assert_eq!((word(7), word(16)), (Some("Group"), Some("Beyond")));
        assert_eq!((word(0), word(17), word(256 + 7)), (None, None, None));
    }

    #[test]
    fn where_none_applies_the_call_is_done() {
        assert_eq!(lowest(&[(CLOCK, false)]), Ok(()));
        assert!(Answer::from(lowest(&[])).is_done());
    }
}
