//! What a call is lent to write: archive memory, and a reply buffer.

use reader::random::Random;

/// The bytes on either side of a reply buffer that are not lent with it.
pub const MARGIN: usize = 32;

/// A reply buffer of random bytes, between margins that are compared as well: a byte written where it should not be is seen.
#[derive(Clone, PartialEq, Eq)]
pub struct Buffer(Vec<u8>);

impl Buffer {
    pub fn random(random: &mut Random, length: usize) -> Buffer {
        Buffer(random.bytes(length + 2 * MARGIN))
    }

    /// What a call is lent that writes no reply.
    pub fn none() -> Buffer {
        Buffer(vec![0; 2 * MARGIN])
    }

    pub fn lent(&self) -> &[u8] {
        &self.0[MARGIN..self.0.len() - MARGIN]
    }

    pub fn lent_mut(&mut self) -> &mut [u8] {
        let end = self.0.len() - MARGIN;
        &mut self.0[MARGIN..end]
    }

    pub fn with_margins(&self) -> &[u8] {
        &self.0
    }
}

#[derive(Clone, PartialEq, Eq)]
pub struct Lent {
    pub archive: Vec<u8>,
    /// Of 0 bytes for every call but a poll.
    pub reply: Buffer,
}

impl Lent {
    /// So many bytes of the archive, random ones past its own, and a reply buffer with room for so many.
    pub fn of(random: &mut Random, archive: &[u8], length: usize, room: usize) -> Lent {
        let mut bytes = archive[..length.min(archive.len())].to_vec();
        let more = length - bytes.len();
        bytes.extend(random.bytes(more));
        Lent { archive: bytes, reply: Buffer::random(random, room) }
    }
}
