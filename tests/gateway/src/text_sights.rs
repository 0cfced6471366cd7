//! What texts accepted scans captured and polls read of the live table, counted, so that a run shows that nothing which the rule of
//! clean text tells apart was left out, in either kind; and points of other kinds with bytes that a text would lose.

use model::points::ROWS;
use model::record::captured_group;
use model::texts::is_clean;

/// How often each is to be seen.
const OFTEN_ENOUGH: usize = 100;

/// How points are read, by its place in WAYS.
#[derive(Clone, Copy)]
pub enum Way {
    Captured,
    Polled,
}

const WAYS: [&str; 2] = ["captured", "polled live"];

/// The rows of the live table by their places in ROWS.
const NAMES: [&str; ROWS.len()] = ["Booleans", "16-bit points", "texts of 8", "32-bit points", "floats", "texts of 16"];

fn has(text: &[u8], is_such: impl Fn(u8) -> bool) -> bool {
    text.iter().any(|&byte| is_such(byte))
}

/// Whether a text has a byte that is captured as another.
pub fn has_unclean(text: &[u8]) -> bool {
    has(text, |byte| !is_clean(byte))
}

/// What stands behind the first 00 of a text.
fn behind_00(text: &[u8]) -> &[u8] {
    let end = text.iter().position(|&byte| byte == 0);
    end.map_or(&[], |end| &text[end + 1..])
}

/// A name, and whether one text, as the live table has it, shows it.
type Shown = (&'static str, fn(&[u8]) -> bool);

/// To be seen in both kinds, captured and polled live.
const SHOWN: [Shown; 15] = [
    ("kept whole", |text| !has_unclean(text)),
    ("cleaned in part", |text| has_unclean(text) && has(text, is_clean)),
    ("cleaned whole", |text| !has(text, is_clean)),
    ("of 00 only", |text| !has(text, |byte| byte != 0)),
    ("kept and filled up with 00", |text| !has_unclean(text) && text[0] != 0 && text.ends_with(&[0])),
    ("cleaned behind a 00", |text| has_unclean(behind_00(text))),
    ("kept behind a 00", |text| has(behind_00(text), |byte| byte != 0 && is_clean(byte))),
    ("with 01", |text| text.contains(&0x01)),
    ("with 1F", |text| text.contains(&0x1F)),
    ("with 20", |text| text.contains(&0x20)),
    ("with 3F", |text| text.contains(&0x3F)),
    ("with 7E", |text| text.contains(&0x7E)),
    ("with 7F", |text| text.contains(&0x7F)),
    ("with 80", |text| text.contains(&0x80)),
    ("with FF", |text| text.contains(&0xFF)),
];

#[derive(Default)]
pub struct TextTally {
    /// How often a text showed each thing, by way and row.
    texts: [[[usize; SHOWN.len()]; ROWS.len()]; WAYS.len()],
    /// How often points of other kinds were read with a byte that is not clean, by way and row.
    others: [[usize; ROWS.len()]; WAYS.len()],
}

impl TextTally {
    /// Points of one row that were read, or an unused group.
    pub fn read(&mut self, way: Way, table: &[u8], first: u16, points: u16) {
        let Some(place) = ROWS.iter().position(|row| (row.first..=row.last).contains(&first)) else { return };
        let (row, way) = (&ROWS[place], way as usize);
        if !row.kind.is_text() {
            self.others[way][place] += usize::from(has_unclean(&captured_group(table, first, points)));
            return;
        }
        let bytes = &table[row.place_in_table(first)..][..row.bytes_of(points)];
        for text in bytes.chunks_exact(row.point_bits / 8) {
            for (seen, (_, is_shown)) in self.texts[way][place].iter_mut().zip(SHOWN) {
                *seen += usize::from(is_shown(text));
            }
        }
    }

    /// Each thing, how often it was seen, and how often it should be.
    pub fn seen(&self) -> Vec<(String, usize, usize)> {
        let mut seen = Vec::new();
        for (way, place) in (0..WAYS.len()).flat_map(|way| (0..ROWS.len()).map(move |place| (way, place))) {
            let read = format!("{} {}", NAMES[place], WAYS[way]);
            if ROWS[place].kind.is_text() {
                let shown = SHOWN.iter().zip(self.texts[way][place]);
                seen.extend(shown.map(|((name, _), n)| (format!("{read}, {name}"), n, OFTEN_ENOUGH)));
            } else {
                seen.push((format!("{read} with a byte that a text would lose"), self.others[way][place], OFTEN_ENOUGH));
            }
        }
        seen
    }
}
