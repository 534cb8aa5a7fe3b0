//! Stands in for the crate `oxideav-core`, of which the Rust calls only these.

pub mod bits {
    /// The bits asked for pass the end.
    #[derive(Debug)]
    pub struct PastEnd;

    /// Reads fields, most significant bit first.
    pub struct BitReader<'a> {
        bytes: &'a [u8],
        position: u64,
    }

    impl<'a> BitReader<'a> {
        pub fn new(bytes: &'a [u8]) -> Self {
            BitReader { bytes, position: 0 }
        }

        pub fn bit_position(&self) -> u64 {
            self.position
        }

        /// The next `width` bits, 32 at most; nothing is taken where they are not all there.
        pub fn read_u32(&mut self, width: u32) -> Result<u32, PastEnd> {
            let end = self.position + u64::from(width);
            if end > 8 * self.bytes.len() as u64 {
                return Err(PastEnd);
            }
            let mut value = 0;
            for at in self.position..end {
                let byte = self.bytes[(at / 8) as usize];
                value = value << 1 | u32::from(byte >> (7 - at % 8) & 1);
            }
            self.position = end;
            Ok(value)
        }
    }

    /// Keeps the fields as they come; `bytes` packs them, most significant bit first.
    #[derive(Default)]
    pub struct BitWriter {
        /// Value and width of each field.
        pub fields: Vec<(u32, u32)>,
    }

    impl BitWriter {
        pub fn new() -> Self {
            Self::default()
        }

        /// Adds the low `width` bits of `value`.
        pub fn write_u32(&mut self, value: u32, width: u32) {
            self.fields.push((value, width));
        }

        pub fn bit_position(&self) -> u64 {
            self.fields.iter().map(|field| u64::from(field.1)).sum()
        }

        /// The bits so far, with zeros to the end of the last byte.
        pub fn bytes(&self) -> Vec<u8> {
            let mut bytes = vec![0; self.bit_position().div_ceil(8) as usize];
            let mut at = 0;
            for &(value, width) in &self.fields {
                for shift in (0..width).rev() {
                    bytes[at / 8] |= ((value >> shift & 1) as u8) << (7 - at % 8);
                    at += 1;
                }
            }
            bytes
        }
    }
}
