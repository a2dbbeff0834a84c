//! Numbers packed with the most significant bit first.

pub struct BitReader<'a> {
    bytes: &'a [u8],
    at: usize,
}

impl<'a> BitReader<'a> {
    pub fn new(bytes: &'a [u8]) -> Self {
        BitReader { bytes, at: 0 }
    }

    pub fn take(&mut self, bits: usize) -> usize {
        let mut number = 0;
        for _ in 0..bits {
            let bit = self.bytes[self.at / 8] >> (7 - self.at % 8) & 1;
            number = 2 * number + bit as usize;
            self.at += 1;
        }
        number
    }

    pub fn take_signed(&mut self, bits: usize) -> i64 {
        let number = self.take(bits) as i64;
        if number >= 1 << (bits - 1) {
            number - (1 << bits)
        } else {
            number
        }
    }
}

pub struct BitWriter {
    pub bytes: Vec<u8>,
    bits: usize,
}

impl BitWriter {
    pub fn new() -> Self {
        BitWriter {
            bytes: Vec::new(),
            bits: 0,
        }
    }

    /// Appends a number's lowest bits, the most significant of them first.
    pub fn put(&mut self, bits: usize, number: i64) {
        for shift in (0..bits).rev() {
            if self.bits % 8 == 0 {
                self.bytes.push(0);
            }
            let bit = (number >> shift & 1) as u8;
            *self.bytes.last_mut().unwrap() |= bit << (7 - self.bits % 8);
            self.bits += 1;
        }
    }
}

impl Default for BitWriter {
    fn default() -> Self {
        Self::new()
    }
}

#[cfg(test)]
mod tests {
    use super::*;

    #[test]
    fn reads_what_is_written() {
        let mut writer = BitWriter::new();
        writer.put(3, 5);
        writer.put(10, -2);
        writer.put(11, 0x7ff);
        assert_eq!(writer.bytes, [0xbf, 0xf7, 0xff]);
        let mut reader = BitReader::new(&writer.bytes);
        assert_eq!(reader.take(3), 5);
        assert_eq!(reader.take_signed(10), -2);
        assert_eq!(reader.take(11), 0x7ff);
    }
}
