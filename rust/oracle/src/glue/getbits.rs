// Ours, behind the Rust's text.
impl GetBits<'_> {
    /// The bits read so far: the bytes taken, less the bits that are still held.
    pub(crate) fn bits_used(&self) -> usize {
        8 * self.ptr - self.bits_left as usize
    }

    pub(crate) fn set_error(&mut self) {
        self.error = true;
    }
}
