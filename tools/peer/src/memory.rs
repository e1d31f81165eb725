//! Memory, and what harts have reserved.
//!
//! The memory is one allocation of zeros that is indexed by the address itself: 1.75 GiB, of which the system backs what is touched. For
//! each 4,096 bytes `pages` has one range of plain data; an access that isn't in it is looked at byte by byte.

use crate::elf::Image;

pub const HEAP_AT: u64 = 0x6000_0000;
pub const HEAP_LEN: u64 = 1_048_576;
pub const STACK_AT: u64 = 0x7000_0000;
pub const STACK_STEP: u64 = 0x2_0000;
pub const STACK_LEN: u64 = 65_536;
const SPACE: usize = 0x7040_0000;
const PAGES: usize = SPACE >> 12;

#[derive(Clone, Copy)]
pub enum Stop {
    Exit(u8),
    Illegal,
    Break,
    Misaligned,
    Access(u64),
    TextAccess(u64),
    FetchOutside,
}

/// What an access needs, by value.
#[derive(Clone, Copy)]
pub struct Windows {
    bytes: *mut u8,
    pages: *const u32,
}

pub struct Memory {
    bytes: Vec<u8>,
    pages: Vec<u32>,
    /// Ranges of data, ascending; those that touch are one.
    ranges: Vec<(u64, u64)>,
    pub text_at: u64,
    pub text_end: u64,
}

/// The ranges of data of a program: all of memory but the text.
fn ranges(image: &Image, harts: u64) -> Vec<(u64, u64)> {
    let mut whole: Vec<_> = image.segments.iter().map(|segment| (segment.at, segment.at + segment.size)).collect();
    whole.push((HEAP_AT, HEAP_AT + HEAP_LEN));
    whole.extend((0..harts).map(|hart| STACK_AT + hart * STACK_STEP).map(|at| (at, at + STACK_LEN)));
    let mut ranges: Vec<(u64, u64)> = Vec::new();
    for (from, end) in whole {
        let parts = if from <= image.text_at && image.text_end <= end {
            [(from, image.text_at), (image.text_end, end)]
        } else {
            [(from, end), (end, end)]
        };
        for (from, end) in parts.into_iter().filter(|(from, end)| from < end) {
            match ranges.last_mut() {
                Some(last) if last.1 == from => last.1 = end,
                _ => ranges.push((from, end)),
            }
        }
    }
    ranges
}

/// For each page the longest range of data in it: where it begins, and above 16 bits where it ends.
fn pages(ranges: &[(u64, u64)]) -> Vec<u32> {
    let mut pages = vec![0u32; PAGES];
    for &(from, end) in ranges {
        for page in from >> 12..(end + 0xFFF) >> 12 {
            let begin = from.max(page << 12) - (page << 12);
            let behind = end.min((page + 1) << 12) - (page << 12);
            let had = u64::from(pages[page as usize]);
            if behind - begin > (had >> 16) - (had & 0xFFFF) {
                pages[page as usize] = (begin | behind << 16) as u32;
            }
        }
    }
    pages
}

impl Memory {
    pub fn new(image: &Image, harts: u64) -> Memory {
        let mut bytes = vec![0u8; SPACE];
        for segment in &image.segments {
            bytes[segment.at as usize..][..segment.bytes.len()].copy_from_slice(&segment.bytes);
        }
        let ranges = ranges(image, harts);
        Memory { bytes, pages: pages(&ranges), ranges, text_at: image.text_at, text_end: image.text_end }
    }

    pub fn windows(&mut self) -> Windows {
        Windows { bytes: self.bytes.as_mut_ptr(), pages: self.pages.as_ptr() }
    }

    /// The words of the text.
    pub fn words(&self) -> impl Iterator<Item = u32> + '_ {
        let text = &self.bytes[self.text_at as usize..self.text_end as usize];
        text.chunks_exact(4).map(|word| u32::from_le_bytes([word[0], word[1], word[2], word[3]]))
    }

    /// Bytes that were looked at.
    pub fn data(&self, at: u64, len: u64) -> &[u8] {
        &self.bytes[at as usize..(at + len) as usize]
    }

    /// Looks at bytes in ascending order, up to the first that is no data.
    #[cold]
    #[inline(never)]
    pub fn look(&self, at: u64, len: u64) -> Result<(), Stop> {
        for at in (0..len).map(|byte| at.wrapping_add(byte)) {
            if self.text_at <= at && at < self.text_end {
                return Err(Stop::TextAccess(at));
            }
            if !self.ranges.iter().any(|range| range.0 <= at && at < range.1) {
                return Err(Stop::Access(at));
            }
        }
        Ok(())
    }
}

impl Windows {
    #[inline(always)]
    fn holds(self, at: u64, len: u32) -> bool {
        let page = (at >> 12) as usize;
        if page >= PAGES {
            return false;
        }
        // SAFETY: the page is one of the table's.
        let range = unsafe { *self.pages.add(page) };
        let offset = at as u32 & 0xFFF;
        offset >= range & 0xFFFF && offset + len <= range >> 16
    }

    #[inline(always)]
    pub fn check(self, memory: &Memory, at: u64, len: u32) -> Result<(), Stop> {
        if self.holds(at, len) {
            Ok(())
        } else {
            memory.look(at, u64::from(len))
        }
    }

    /// Reads 1, 2, 4 or 8 bytes that were checked.
    #[inline(always)]
    pub fn read(self, at: u64, len: u32) -> u64 {
        // SAFETY: what was checked is in the memory.
        unsafe {
            let bytes = self.bytes.add(at as usize);
            match len {
                1 => u64::from(bytes.read()),
                2 => u64::from(bytes.cast::<u16>().read_unaligned()),
                4 => u64::from(bytes.cast::<u32>().read_unaligned()),
                _ => bytes.cast::<u64>().read_unaligned(),
            }
        }
    }

    /// Writes 1, 2, 4 or 8 bytes that were checked.
    #[inline(always)]
    pub fn write(self, at: u64, len: u32, value: u64) {
        // SAFETY: what was checked is in the memory.
        unsafe {
            let bytes = self.bytes.add(at as usize);
            match len {
                1 => bytes.write(value as u8),
                2 => bytes.cast::<u16>().write_unaligned(value as u16),
                4 => bytes.cast::<u32>().write_unaligned(value as u32),
                _ => bytes.cast::<u64>().write_unaligned(value),
            }
        }
    }
}

/// The doublewords that harts have reserved.
#[derive(Default)]
pub struct Reservations {
    /// One bit for each hart that has one.
    held: u32,
    at: [u64; 32],
}

impl Reservations {
    pub fn reserve(&mut self, hart: usize, at: u64) {
        self.held |= 1 << hart;
        self.at[hart] = at & !7;
    }

    /// Gives up the hart's reservation. Returns whether it was this doubleword.
    pub fn take(&mut self, hart: usize, at: u64) -> bool {
        let had = self.held >> hart & 1 != 0 && self.at[hart] == at & !7;
        self.held &= !(1 << hart);
        had
    }

    /// Ends the reservations of other harts that a store of this hart hits.
    #[inline(always)]
    pub fn stored(&mut self, hart: usize, at: u64, len: u32) {
        if self.held & !(1 << hart) != 0 {
            self.end_others(hart, at, len);
        }
    }

    #[inline(never)]
    fn end_others(&mut self, hart: usize, at: u64, len: u32) {
        for (other, reserved) in self.at.iter().enumerate() {
            if other != hart && *reserved < at + u64::from(len) && at < reserved + 8 {
                self.held &= !(1 << other);
            }
        }
    }
}
