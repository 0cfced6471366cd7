//! Archive memory of a state that no list of calls may have left.

use model::layout::{file_bytes, file_start, USER_FILES};
use model::record::Stamp;
use reader::old_records::old_record;
use reader::random::Random;

use crate::ffi::State;
use crate::states::definitions_of;

/// Records from before texts were cleaned: each slot of files 1 to 10 has the one that was captured of this table and stamp. The alarm
/// file and what is behind it are random bytes.
pub fn old_records(random: &mut Random, s: &State, table: &[u8], stamp: Stamp) -> Vec<u8> {
    let mut archive = random.bytes(s.site.archive_length as usize);
    let files = definitions_of(&s.files.layout);
    for file in 1..=USER_FILES {
        let record = old_record(&files[file - 1].groups, table, stamp, s.site.day_first);
        let slots = &mut archive[file_start(&files, file) as usize..][..file_bytes(&files, file) as usize];
        slots.chunks_exact_mut(record.len()).for_each(|slot| slot.copy_from_slice(&record));
    }
    archive
}
