//! Buffers lent to the engine between two zones of patterned bytes, so that a
//! write outside shows.

use std::hint;

const ZONE: usize = 64;

fn pattern(place: usize) -> u8 {
    (place as u8).wrapping_mul(37) ^ 0xA5
}

struct Guarded {
    bytes: Vec<u8>,
    length: usize,
}

impl Guarded {
    fn new(content: &[u8]) -> Self {
        let mut bytes = Vec::with_capacity(content.len() + 2 * ZONE);
        bytes.extend((0..ZONE).map(pattern));
        bytes.extend_from_slice(content);
        bytes.extend((0..ZONE).map(pattern));
        Guarded { bytes, length: content.len() }
    }

    fn content(&self) -> &[u8] {
        &self.bytes[ZONE..ZONE + self.length]
    }

    fn content_mut(&mut self) -> &mut [u8] {
        &mut self.bytes[ZONE..ZONE + self.length]
    }

    /// Asserts that both zones are as they were.
    fn assert_zones(&mut self) {
        // The compiler must not take for granted what was lent.
        let bytes = hint::black_box(&mut self.bytes);
        let zones =
            bytes[..ZONE].iter().enumerate().chain(bytes[ZONE + self.length..].iter().enumerate());
        for (place, &byte) in zones {
            assert_eq!(byte, pattern(place), "a byte outside a lent buffer was written");
        }
    }
}

/// Lends bytes for reading and asserts that they stay as they are.
pub fn lend<R>(content: &[u8], call: impl FnOnce(&[u8]) -> R) -> R {
    let mut guarded = Guarded::new(content);
    let result = call(guarded.content());
    guarded.assert_zones();
    assert!(guarded.content() == content, "a buffer lent for reading was written");
    result
}

/// Lends bytes for writing and gives them back as the call left them.
pub fn lend_mut<R>(content: &[u8], call: impl FnOnce(&mut [u8]) -> R) -> (R, Vec<u8>) {
    let mut guarded = Guarded::new(content);
    let result = call(guarded.content_mut());
    guarded.assert_zones();
    (result, guarded.content().to_vec())
}
