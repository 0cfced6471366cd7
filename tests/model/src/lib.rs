//! A plain Rust model of the Windrow gateway, written from the rules alone,
//! apart from the library.
//!
//! It is meant to be read beside the rules (`docs/TRACE.md` has them) and to be
//! compared with the gateway library. It favours clarity over speed.

pub mod alarm_orders;
pub mod card;
pub mod crc;
pub mod depths;
pub mod foreign;
pub mod frames;
pub mod layout;
pub mod machine;
pub mod points;
pub mod published;
pub mod reader;
pub mod record;
pub mod texts;
