//! The model's answers as libreader.a gives them.

use std::ops::Range;

use model::card::Refusal;
use model::reader::Value;

use crate::ffi::{PartAnswer, PointAnswer, Stamp, StampAnswer};

pub fn part(answer: Result<Range<usize>, Refusal>) -> PartAnswer {
    match answer {
        Ok(range) => PartAnswer { number: 0, carried: 0, place: range.start as u32, length: range.len() as u32 },
        Err(r) => PartAnswer { number: r.number.into(), carried: r.carried.into(), place: 0, length: 0 },
    }
}

pub fn stamped(answer: Result<model::record::Stamp, Refusal>) -> StampAnswer {
    let none = Stamp { month: 0, day: 0, year: 0, hour: 0, minute: 0, second: 0 };
    match answer {
        Ok(stamp) => StampAnswer { number: 0, carried: 0, stamp: stamp.into() },
        Err(r) => StampAnswer { number: r.number.into(), carried: r.carried.into(), stamp: none },
    }
}

pub fn valued(answer: Result<Value, Refusal>) -> PointAnswer {
    let plain = |kind, bits| PointAnswer { number: 0, carried: 0, kind, bits, place: 0, length: 0 };
    match answer {
        Ok(Value::Flag(on)) => plain(1, on.into()),
        Ok(Value::Int16(v)) => plain(2, i32::from(v) as u32),
        Ok(Value::Int32(v)) => plain(3, v as u32),
        Ok(Value::Float(bits)) => plain(4, bits),
        Ok(Value::Text { place, len }) => PointAnswer { place: place as u32, length: len as u32, ..plain(5, 0) },
        Err(r) => PointAnswer { number: r.number.into(), carried: r.carried.into(), ..plain(0, 0) },
    }
}
