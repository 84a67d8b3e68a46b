//! What tests make their sheets from.

/// Numbers from 0 to less than a limit, the same in every run.
pub struct Random(pub u64);

impl Random {
    pub fn below(&mut self, limit: u16) -> u16 {
        self.0 = self.0.wrapping_mul(6_364_136_223_846_793_005).wrapping_add(1_442_695_040_888_963_407);
        ((self.0 >> 33) % u64::from(limit)) as u16
    }

    pub fn amounts(&mut self, count: usize, limit: u16) -> Vec<u16> {
        (0..count).map(|_| self.below(limit)).collect()
    }
}
