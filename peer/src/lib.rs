//! The peer: the rules for EMP envelopes, golden files, the feed, the judge, Class D frames and the sender, written a
//! second time in plain Rust. It shares no line with the proved library, so that the two can be run side by side.

pub mod casefile;
pub mod cases;
pub mod crc;
pub mod draw;
pub mod envelope;
pub mod feed;
pub mod flips;
pub mod frame;
pub mod golden;
pub mod judge;
#[cfg(test)]
mod places;
pub mod random;
pub mod sender;
