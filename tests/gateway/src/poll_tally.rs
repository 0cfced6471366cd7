//! What the polls of a run have shown, and what they should have.

use gateway::rows::Request;
use model::layout::ALARM_FILE;
use reader::read_back::{Points, KINDS};

use crate::live_sights::LiveTally;
use crate::origins::ReadBack;
use crate::poll_sights::{PollSight, Shown, EXCEPTIONS, REPLIES, UNANSWERED};
use crate::refused_sights::{Refused, REFUSED};

/// How often each is to be seen, how many replies each file is to give on each row, and how many records and stamps are to be
/// decoded, and records from before texts were cleaned, with their texts.
const OFTEN_ENOUGH: usize = 20;
const REPLIES_A_FILE: usize = 20;
const READ_BACK: usize = 5_000;
const OLD_READ_BACK: usize = 100;

/// The rows of the address table, by their numbers as a `Row`.
const ROWS: [&str; 6] = ["record requested", "record numbered", "stamp requested", "stamp numbered", "registers", "06"];

#[derive(Default)]
pub struct PollTally {
    unanswered: [usize; UNANSWERED.len()],
    exceptions: [usize; EXCEPTIONS.len()],
    replies: [usize; REPLIES.len()],
    /// How often a reply carried what was asked for, by row and file.
    rows: [[usize; ALARM_FILE]; ROWS.len()],
    refused: [usize; REFUSED.len()],
    pub live: LiveTally,
    pub read_back: ReadBack,
}

fn add(seen: &mut [usize], shown: &[Shown], sight: &PollSight) {
    for (seen, (_, is_shown)) in seen.iter_mut().zip(shown) {
        *seen += usize::from(is_shown(sight));
    }
}

fn named<T>(what: &str, shown: &[(&str, T)], seen: &[usize]) -> Vec<(String, usize, usize)> {
    shown.iter().zip(seen).map(|((name, _), &n)| (format!("{what}{name}"), n, OFTEN_ENOUGH)).collect()
}

impl PollTally {
    pub fn refused(&mut self, refused: &Refused) {
        for (seen, (_, is_shown)) in self.refused.iter_mut().zip(REFUSED) {
            *seen += usize::from(is_shown(refused));
        }
    }

    /// A poll that was not refused.
    pub fn polled(&mut self, sight: &PollSight) {
        self.live.polled(sight);
        if sight.reply.is_empty() {
            return add(&mut self.unanswered, &UNANSWERED, sight);
        }
        if sight.reply[1] >= 0x80 {
            return add(&mut self.exceptions, &EXCEPTIONS, sight);
        }
        add(&mut self.replies, &REPLIES, sight);
        if let Some((row, file)) = Request::of(sight.frame).and_then(|request| request.row()) {
            self.rows[row as usize][file - 1] += 1;
        }
    }

    /// Each thing that polls can show, how often they did, and how often they should.
    pub fn seen(&self) -> Vec<(String, usize, usize)> {
        let mut seen = named("", &UNANSWERED, &self.unanswered);
        seen.extend(named("exception ", &EXCEPTIONS, &self.exceptions));
        seen.extend(named("reply: ", &REPLIES, &self.replies));
        for (row, files) in ROWS.iter().zip(&self.rows) {
            let least = *files.iter().min().unwrap();
            seen.push((format!("replies on row \"{row}\" by the file that gave fewest"), least, REPLIES_A_FILE));
        }
        seen.extend(self.live.seen());
        seen.extend(named("refused: ", &REFUSED, &self.refused));
        let counted = |name: &str, n, least| (name.to_string(), n, least);
        let ReadBack { records, stamps, empty, old_records, leap_days, points } = &self.read_back;
        seen.push(counted("polled records read back by the reading end", *records, READ_BACK));
        seen.push(counted("polled stamps read back by the reading end", *stamps, READ_BACK));
        seen.push(counted("polled records that the reading end called empty", *empty, OFTEN_ENOUGH));
        seen.push(counted("polled records from before clean text read back by the reading end", *old_records, OLD_READ_BACK));
        seen.push(counted("29 February polled and read back", *leap_days, OFTEN_ENOUGH));
        let Points { kinds, cleaned, not_cleaned } = points;
        seen.push(counted("text that was cleaned polled and read back", *cleaned as usize, READ_BACK));
        seen.push(counted(
            "text of an old record that is not clean polled and read back",
            *not_cleaned as usize,
            OLD_READ_BACK,
        ));
        let points =
            (1..KINDS.len()).map(|kind| (format!("{} polled and read back", KINDS[kind]), kinds[kind] as usize, READ_BACK));
        seen.extend(points);
        seen
    }
}
