//! Where the files lie: files 1 to 10 in order from byte 0, each n times its
//! record size, then the alarm file, whose depth goes by the firmware.

use crate::points::{record_size, GROUP_NUMBERS};

/// The files a user defines, 1 to 10.
pub const USER_FILES: usize = 10;
/// A user's file holds 0 to 65,535 records.
pub const MOST_RECORDS: u16 = 65_535;
/// The alarm file's number. It is laid out last.
pub const ALARM_FILE: usize = 11;
/// The size of an alarm record.
pub const ALARM_RECORD_BYTES: usize = 22;

/// The firmwares that are in use.
pub const FIRMWARE_73: u16 = 73;
pub const FIRMWARE_74: u16 = 74;
pub const FIRMWARES: [u16; 2] = [FIRMWARE_73, FIRMWARE_74];

/// The alarm file's most records: "150 alarm records below firmware .74 and
/// 500 from .74 on".
pub const fn alarm_records(firmware: u16) -> u16 {
    if firmware < FIRMWARE_74 {
        150
    } else {
        500
    }
}

/// One file's groups and its most records.
#[derive(Clone, Copy, Debug, PartialEq, Eq)]
pub struct Definition {
    pub groups: [u16; GROUP_NUMBERS],
    pub n: u16,
}

impl Definition {
    pub const IDLE: Definition = Definition {
        groups: [0; GROUP_NUMBERS],
        n: 0,
    };
}

/// The definitions of files 1 to 10, in order.
pub type Definitions = [Definition; USER_FILES];

/// The most records of file 1 to 11.
pub fn most_records(files: &Definitions, firmware: u16, file: usize) -> u16 {
    if file == ALARM_FILE {
        alarm_records(firmware)
    } else {
        files[file - 1].n
    }
}

/// The size of a record of file 1 to 11.
pub fn record_bytes(files: &Definitions, file: usize) -> usize {
    if file == ALARM_FILE {
        ALARM_RECORD_BYTES
    } else {
        record_size(&files[file - 1].groups)
    }
}

/// The bytes of file 1 to 10: n times its record size.
pub fn file_bytes(files: &Definitions, file: usize) -> u64 {
    u64::from(files[file - 1].n) * record_bytes(files, file) as u64
}

/// The byte at which file 1 to 11 starts.
pub fn file_start(files: &Definitions, file: usize) -> u64 {
    (1..file).map(|before| file_bytes(files, before)).sum()
}

/// The whole layout, alarm file included.
pub fn layout_bytes(files: &Definitions, firmware: u16) -> u64 {
    let alarm_file = u64::from(alarm_records(firmware)) * ALARM_RECORD_BYTES as u64;
    file_start(files, ALARM_FILE) + alarm_file
}

#[cfg(test)]
mod tests {
    use super::*;
    use crate::depths::DEPTHS;
    use crate::points::groups_from_first_place;

    /// Files 1 to 10 have their own n with either firmware.
    #[test]
    fn the_alarm_file_alone_has_a_depth_by_firmware() {
        let mut files = [Definition::IDLE; USER_FILES];
        files[0].n = 1;
        files[9].n = MOST_RECORDS;
        for (firmware, depth) in DEPTHS {
            assert_eq!(most_records(&files, firmware, ALARM_FILE), depth);
            let others = (1..=USER_FILES).map(|file| most_records(&files, firmware, file));
            assert!(others.eq([1, 0, 0, 0, 0, 0, 0, 0, 0, 65_535]));
        }
    }

    #[test]
    fn idle_files_leave_the_alarm_file_at_byte_0() {
        let files = [Definition::IDLE; USER_FILES];
        assert_eq!(file_start(&files, ALARM_FILE), 0);
        assert_eq!(layout_bytes(&files, 73), 3_300);
        assert_eq!(layout_bytes(&files, 74), 11_000);
    }

    #[test]
    fn files_follow_one_another_and_the_alarm_file_is_last() {
        let mut files = [Definition::IDLE; USER_FILES];
        files[1].n = 3;
        files[1].groups = groups_from_first_place(&[(3001, 2)]);
        files[9].n = 1;
        assert_eq!(file_start(&files, 2), 0);
        assert_eq!(file_start(&files, 3), 30);
        assert_eq!(file_start(&files, ALARM_FILE), 36);
        assert_eq!(layout_bytes(&files, 73), 3_336);
        assert_eq!(layout_bytes(&files, 74), 11_036);
    }

    #[test]
    fn the_largest_layout_does_not_overflow() {
        let groups = groups_from_first_place(&[(7101, 61)]);
        let n = MOST_RECORDS;
        let files = [Definition { groups, n }; USER_FILES];
        assert_eq!(layout_bytes(&files, 74), 163_837_500 + 11_000);
    }
}
