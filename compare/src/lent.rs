//! Memory that is lent to the library: what surrounds each slice is checked after the call.

use crate::call::value_bytes;
use crate::pages::Pages;
use std::ops::Range;

/// What surrounds a lent slice: no event number, and neither 254 nor 255.
const GUARD: u8 = 0xA5;
const GUARDS: usize = 64;

/// Slices begin at all these alignments in turn.
const ALIGNMENTS: usize = 8;

enum Memory {
    /// Guard bytes on both sides of a slice.
    Bytes(Vec<u8>),
    /// By turns a slice begins after, or ends before, a page that must not be touched; the rest are guard bytes.
    Pages(Pages),
}

/// Room for one slice at a time.
pub struct Room {
    memory: Memory,
    slice: Range<usize>,
    lent: usize,
}

impl Room {
    pub fn with_guard_bytes() -> Room {
        Room::of(Memory::Bytes(Vec::new()))
    }

    pub fn with_guard_pages() -> Room {
        Room::of(Memory::Pages(Pages::new()))
    }

    fn of(memory: Memory) -> Room {
        let mut room = Room { memory, slice: 0..0, lent: 0 };
        room.lend(&[]);
        room
    }

    fn all(&mut self) -> &mut [u8] {
        match &mut self.memory {
            Memory::Bytes(bytes) => bytes,
            Memory::Pages(pages) => pages.bytes(),
        }
    }

    /// Puts a copy of some bytes between guards, and lends it.
    pub fn lend(&mut self, bytes: &[u8]) -> &mut [u8] {
        self.lend_at_multiples(1, bytes)
    }

    /// The same of values of two bytes, which begin at even addresses.
    pub fn lend_values(&mut self, values: &[u16]) -> &mut [u16] {
        let lent = self.lend_at_multiples(size_of::<u16>(), &value_bytes(values));
        // Any two bytes are a value.
        let (before, lent, after) = unsafe { lent.align_to_mut() };
        assert!(before.is_empty() && after.is_empty(), "memory begins at an even address");
        lent
    }

    fn lend_at_multiples(&mut self, alignment: usize, bytes: &[u8]) -> &mut [u8] {
        self.lent += 1;
        let turn = self.lent;
        let begin = match &mut self.memory {
            Memory::Bytes(memory) => {
                let begin = (GUARDS + turn % ALIGNMENTS).next_multiple_of(alignment);
                memory.resize(begin + bytes.len() + GUARDS, GUARD);
                begin
            }
            Memory::Pages(_) if turn.is_multiple_of(2) => 0,
            Memory::Pages(pages) => pages.bytes().len() - bytes.len(),
        };
        let slice = begin..begin + bytes.len();
        self.slice = slice.clone();
        let all = self.all();
        all.fill(GUARD);
        all[slice.clone()].copy_from_slice(bytes);
        &mut all[slice]
    }

    /// What the lent slice holds now.
    pub fn now(&mut self) -> &[u8] {
        let slice = self.slice.clone();
        &self.all()[slice]
    }

    /// Whether a byte around the lent slice has been altered.
    pub fn is_trespassed(&mut self) -> bool {
        let Range { start, end } = self.slice;
        let all = self.all();
        all[..start].iter().chain(&all[end..]).any(|&byte| byte != GUARD)
    }
}

#[cfg(test)]
mod tests {
    use super::*;

    #[test]
    fn values_are_lent_and_seen() {
        for mut room in [Room::with_guard_bytes(), Room::with_guard_pages()] {
            for length in 0..20 {
                let values: Vec<u16> = (0..length).map(|value| value << 7).collect();
                let lent = room.lend_values(&values);
                assert_eq!(lent, values);
                lent.fill(0x0102);
                assert!(!room.is_trespassed());
                assert_eq!(room.now(), [2, 1].repeat(length.into()));
            }
        }
    }

    #[test]
    fn a_byte_written_beside_a_slice_is_seen() {
        for mut room in [Room::with_guard_bytes(), Room::with_guard_pages()] {
            for turn in 0..20 {
                room.lend(&[1, 2, 3])[1] = 7;
                assert!(!room.is_trespassed());
                assert_eq!(room.now(), [1, 7, 3]);
                let Range { start, end } = room.slice;
                let beside = if turn % 2 == 0 && start > 0 || end == room.all().len() { start - 1 } else { end };
                room.all()[beside] = 0;
                assert!(room.is_trespassed());
            }
        }
    }
}
