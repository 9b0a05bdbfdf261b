//! Rows of bits, most significant first.

/// Writes numbers bit by bit.
#[derive(Debug, Clone, Default)]
pub struct BitWriter {
    bytes: Vec<u8>,
    used: usize,
}

impl BitWriter {
    /// The bits of some bytes.
    pub fn of(bytes: &[u8]) -> Self {
        Self {
            bytes: bytes.to_vec(),
            used: 8 * bytes.len(),
        }
    }

    pub fn bit(&mut self, bit: bool) {
        self.bits(bit.into(), 1);
    }

    /// The lowest n bits of a number.
    pub fn bits(&mut self, value: u64, n: u32) {
        let mut left = n;
        while left > 0 {
            if self.used.is_multiple_of(8) {
                self.bytes.push(0);
            }
            let free = 8 - (self.used % 8) as u32;
            let taken = free.min(left);
            left -= taken;
            let part = (value >> left) as u8 & (0xFF >> (8 - taken));
            *self.bytes.last_mut().unwrap() |= part << (free - taken);
            self.used += taken as usize;
        }
    }

    /// A number as get_vlc reads it.
    pub fn vlc(&mut self, value: u64) {
        let zeros = (value + 1).ilog2();
        self.bits(0, zeros);
        self.bits(value + 1, zeros + 1);
    }

    /// A number below max as get_uniform reads it.
    pub fn uniform(&mut self, value: u64, max: u64) {
        if max <= 1 {
            return;
        }
        let len = max.ilog2() + 1;
        let short = (1 << len) - max;
        if value < short {
            self.bits(value, len - 1);
        } else {
            self.bits(value + short, len);
        }
    }

    /// The bits of another row.
    pub fn append(&mut self, other: &Self) {
        for i in 0..other.used {
            self.bit(other.bytes[i / 8] >> (7 - i % 8) & 1 != 0);
        }
    }

    /// Drops all but the first n bits.
    pub fn truncate(&mut self, n: usize) {
        if n < self.used {
            self.used = n;
            self.bytes.truncate(n.div_ceil(8));
            if !n.is_multiple_of(8) {
                *self.bytes.last_mut().unwrap() &= 0xFF << (8 - n % 8);
            }
        }
    }

    /// The bits written.
    pub fn used(&self) -> usize {
        self.used
    }

    /// The bytes, the last one filled up with zeros.
    pub fn bytes(&self) -> &[u8] {
        &self.bytes
    }

    /// The bytes, the last one filled up with zeros.
    pub fn into_bytes(self) -> Vec<u8> {
        self.bytes
    }
}
