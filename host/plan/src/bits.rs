//! A string of bits, the high bit of a byte first.

#[derive(Default)]
pub struct BitString {
    pub bytes: Vec<u8>,
    used: u32,
}

impl BitString {
    /// Appends the low `n` bits of `value`.
    pub fn put(&mut self, n: u32, value: u32) {
        for i in (0..n).rev() {
            if self.used == 0 {
                self.bytes.push(0);
            }
            let last = self.bytes.last_mut().expect("a byte was pushed");
            *last |= ((value >> i & 1) as u8) << (7 - self.used);
            self.used = (self.used + 1) % 8;
        }
    }

    pub fn flag(&mut self, value: bool) {
        self.put(1, value as u32);
    }

    pub fn bytes(&mut self, bytes: &[u8]) {
        for b in bytes {
            self.put(8, *b as u32);
        }
    }

    /// How many bits there are.
    pub fn len(&self) -> usize {
        self.bytes.len() * 8 - self.left() as usize
    }

    pub fn is_empty(&self) -> bool {
        self.bytes.is_empty()
    }

    /// How many bits are left in the last byte.
    pub fn left(&self) -> u32 {
        (8 - self.used) % 8
    }
}
