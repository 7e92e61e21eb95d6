// Appended by `build.rs` to a copy of `proximity.rs`: the private parts of a computed field, and
// the number of sweeps since it was last asked for.

thread_local! {
    static SWEEPS: std::cell::Cell<u32> = const { std::cell::Cell::new(0) };
}

pub(super) fn take_sweeps() -> u32 {
    SWEEPS.take()
}

impl<const L: usize> ProximityField<L> {
    /// Left, top, width, height.
    pub(super) fn window(&self) -> [i64; 4] {
        [self.left, self.top, self.width, self.height]
    }

    pub(super) fn distances(&self) -> &[[i16; L]] {
        &self.distances
    }

    pub(super) fn walk(&self) -> &[u8] {
        &self.walk
    }

    pub(super) fn flags(&self) -> &[u8] {
        &self.flags
    }

    pub(super) fn rows(&self) -> &[(usize, usize)] {
        &self.rows
    }
}
