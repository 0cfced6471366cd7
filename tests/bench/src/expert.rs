//! What an expert writes in plain Rust for the same contracts, as a yardstick: the state by reference, one walk along a definition,
//! numbers worked out once and handed on, copies instead of loops over bytes but for texts, the CRC by a table, and nothing
//! allocated. Every call judges all that it is handed, as ours do.

pub mod crc;
pub mod gateway;
pub mod points;
pub mod polls;
pub mod reader;
pub mod records;

#[cfg(test)]
mod tests;
