//! A buffer of a fixed size: bytes are added behind and taken at the front.

/// The memory is taken when the first byte is added.
pub struct Buffer {
    memory: Vec<u8>,
    size: usize,
    start: usize,
    end: usize,
}

impl Buffer {
    pub fn new(size: usize) -> Buffer {
        Buffer {
            memory: Vec::new(),
            size,
            start: 0,
            end: 0,
        }
    }

    pub fn is_empty(&self) -> bool {
        self.start == self.end
    }

    /// The bytes held.
    pub fn held(&self) -> &[u8] {
        &self.memory[self.start..self.end]
    }

    /// Drops bytes at the front.
    pub fn take(&mut self, count: usize) {
        self.start += count;
        assert!(self.start <= self.end, "more is taken than is held");
        if self.is_empty() {
            self.clear();
        }
    }

    pub fn clear(&mut self) {
        self.start = 0;
        self.end = 0;
    }

    /// The room behind the bytes held, which are moved to the front first.
    pub fn room(&mut self) -> &mut [u8] {
        if self.memory.is_empty() {
            self.memory.resize(self.size, 0);
        }
        if self.start > 0 {
            self.memory.copy_within(self.start..self.end, 0);
            self.end -= self.start;
            self.start = 0;
        }
        &mut self.memory[self.end..]
    }

    /// So many bytes were written at the front of the room.
    pub fn added(&mut self, count: usize) {
        self.end += count;
        assert!(self.end <= self.size, "more is added than there is room");
    }

    /// Adds these bytes, for which there has to be room.
    pub fn add(&mut self, bytes: &[u8]) {
        self.room()[..bytes.len()].copy_from_slice(bytes);
        self.added(bytes.len());
    }
}

#[cfg(test)]
mod tests {
    use super::*;

    #[test]
    fn bytes_come_out_as_they_went_in() {
        let mut buffer = Buffer::new(8);
        let (mut added, mut taken) = (0, 0);
        for step in 0..1000usize {
            let count = (step * 7 % 9).min(buffer.room().len());
            for _ in 0..count {
                buffer.add(&[added as u8]);
                added += 1;
            }
            assert_eq!(buffer.room().len(), 8 - buffer.held().len());
            let count = (step * 5 % 6).min(buffer.held().len());
            for byte in &buffer.held()[..count] {
                assert_eq!(*byte, taken as u8);
                taken += 1;
            }
            buffer.take(count);
        }
        assert!(taken > 1000);
    }
}
