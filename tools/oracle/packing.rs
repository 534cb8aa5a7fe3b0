//! Stands in for the same crate as `core.rs` where the Rust is timed: the reader takes eight bytes
//! at a time, the writer packs as it goes.

pub mod bits {
    pub use oxideav_core::bits::PastEnd;

    /// Reads fields, most significant bit first.
    pub struct BitReader<'a> {
        /// The bytes that are not taken yet.
        rest: &'a [u8],
        /// The next bits, the first one highest; the bytes of the first `count` are off `rest`.
        next: u64,
        count: u32,
        /// The bits of all bytes.
        total: u64,
    }

    impl<'a> BitReader<'a> {
        #[inline]
        pub fn new(bytes: &'a [u8]) -> Self {
            BitReader {
                rest: bytes,
                next: 0,
                count: 0,
                total: 8 * bytes.len() as u64,
            }
        }

        #[inline]
        pub fn bit_position(&self) -> u64 {
            self.total - 8 * self.rest.len() as u64 - u64::from(self.count)
        }

        /// The next `width` bits, 32 at most; nothing is taken where they are not all there.
        #[inline]
        pub fn read_u32(&mut self, width: u32) -> Result<u32, PastEnd> {
            if width > self.count {
                self.refill();
                if width > self.count {
                    return Err(PastEnd);
                }
            }
            // In two steps, so that no width shifts by 64.
            let value = self.next >> 1 >> (63 - width);
            self.next <<= width;
            self.count -= width;
            Ok(value as u32)
        }

        /// Whole bytes, as many as fit, or all that there are.
        #[inline]
        fn refill(&mut self) {
            if let Some(&bytes) = self.rest.first_chunk() {
                self.next |= u64::from_be_bytes(bytes) >> self.count;
                let taken = (63 - self.count) / 8;
                self.rest = &self.rest[taken as usize..];
                self.count += 8 * taken;
            } else {
                self.refill_last();
            }
        }

        /// Near the end one byte at a time.
        #[cold]
        fn refill_last(&mut self) {
            while let (true, Some((&byte, rest))) = (self.count <= 56, self.rest.split_first()) {
                self.next |= u64::from(byte) << (56 - self.count);
                self.rest = rest;
                self.count += 8;
            }
        }
    }

    /// Enough for the side information of a frame.
    const CAPACITY: usize = 256;

    /// Packs fields, most significant bit first.
    pub struct BitWriter {
        bytes: Vec<u8>,
        /// Fields that are not in the bytes yet, the last one lowest.
        pending: u64,
        /// How many more bits `pending` takes.
        free: u32,
    }

    impl BitWriter {
        pub fn new() -> Self {
            BitWriter {
                bytes: Vec::with_capacity(CAPACITY),
                pending: 0,
                free: u64::BITS,
            }
        }

        /// Adds a value that fits `width`, 32 bits at most.
        #[inline]
        pub fn write_u32(&mut self, value: u32, width: u32) {
            let value = u64::from(value);
            if width < self.free {
                self.pending = self.pending << width | value;
                self.free -= width;
            } else {
                let over = width - self.free;
                let full = self.pending << self.free | value >> over;
                self.bytes.extend_from_slice(&full.to_be_bytes());
                self.pending = value;
                self.free = u64::BITS - over;
            }
        }

        #[inline]
        pub fn bit_position(&self) -> u64 {
            8 * self.bytes.len() as u64 + u64::from(u64::BITS - self.free)
        }

        /// Ends the last byte with zeros; what is in the bytes follows from the fields alone.
        #[inline]
        pub fn finish(&mut self) -> &[u8] {
            let used = (u64::BITS - self.free).div_ceil(8) as usize;
            if used > 0 {
                let last = self.pending << self.free;
                self.bytes.extend_from_slice(&last.to_be_bytes()[..used]);
            }
            &self.bytes
        }

        /// Empties it for another frame.
        #[inline]
        pub fn clear(&mut self) {
            self.bytes.clear();
            self.pending = 0;
            self.free = u64::BITS;
        }
    }
}
