//! Fields of 1 to 50 bits one after another in bytes, most significant bit first (document
//! 01, section "The packed ledger").

/// Takes fields from bytes, from their first bit on.
pub(crate) struct BitReader<'a> {
    bytes: &'a [u8],
    bits_taken: usize,
}

impl BitReader<'_> {
    pub(crate) fn new(bytes: &[u8]) -> BitReader<'_> {
        BitReader {
            bytes,
            bits_taken: 0,
        }
    }

    /// The next field of at most 50 bits.
    pub(crate) fn take(&mut self, width: usize) -> u64 {
        let rest = &self.bytes[self.bits_taken / 8..];
        let from_field_on = u64::from_be_bytes(eight_bytes(rest)) << (self.bits_taken % 8);
        self.bits_taken += width;
        from_field_on >> (64 - width)
    }

    /// The next field of at most 32 bits.
    pub(crate) fn take_number(&mut self, width: usize) -> u32 {
        u32::try_from(self.take(width)).expect("the field has at most 32 bits")
    }

    /// The next field of one bit.
    pub(crate) fn take_flag(&mut self) -> bool {
        self.take(1) == 1
    }
}

/// The first eight bytes, with zeros after the last.
fn eight_bytes(bytes: &[u8]) -> [u8; 8] {
    if let Some(eight) = bytes.first_chunk() {
        return *eight;
    }
    let mut padded = [0; 8];
    padded[..bytes.len()].copy_from_slice(bytes);
    padded
}

/// Appends fields to bytes.
pub(crate) struct BitWriter {
    bytes: Vec<u8>,
    /// The bits that don't fill a byte yet are the lowest of these.
    pending: u64,
    pending_width: usize,
}

impl BitWriter {
    /// A writer of that many bytes.
    pub(crate) fn new(bytes: usize) -> BitWriter {
        BitWriter {
            bytes: Vec::with_capacity(bytes),
            pending: 0,
            pending_width: 0,
        }
    }

    /// Appends a field of at most 50 bits.
    pub(crate) fn append(&mut self, value: u64, width: usize) {
        assert!(value >> width == 0, "{value} has more than {width} bits");
        self.pending = (self.pending << width) | value;
        self.pending_width += width;
        while self.pending_width >= 8 {
            self.pending_width -= 8;
            self.bytes.push((self.pending >> self.pending_width) as u8);
        }
    }

    /// The bytes, where the fields fill the last one.
    pub(crate) fn into_bytes(self) -> Vec<u8> {
        assert_eq!(self.pending_width, 0, "the last byte isn't full");
        self.bytes
    }
}

#[cfg(test)]
mod tests {
    use super::{BitReader, BitWriter};

    /// Widths that straddle bytes at every offset, with the widest of 50 bits.
    const WIDTHS: [usize; 10] = [1, 6, 10, 10, 27, 20, 20, 50, 3, 5];

    #[test]
    fn fields_follow_one_another_most_significant_bit_first() {
        let mut writer = BitWriter::new(2);
        writer.append(1, 1);
        writer.append(0b01, 2);
        writer.append(0b11_0000_1111, 10);
        writer.append(0b010, 3);
        assert_eq!(writer.into_bytes(), [0b1011_1000, 0b0111_1010]);
    }

    #[test]
    fn fields_taken_are_those_appended() {
        let all_ones = |width: usize| (1_u64 << width) - 1;
        let values = WIDTHS.map(|width| 0x9E37_79B9_7F4A_7C15 & all_ones(width));
        let mut writer = BitWriter::new(19);
        for (value, width) in values.into_iter().zip(WIDTHS) {
            writer.append(value, width);
        }
        let bytes = writer.into_bytes();
        let mut reader = BitReader::new(&bytes);
        assert_eq!(WIDTHS.map(|width| reader.take(width)), values);
    }
}
