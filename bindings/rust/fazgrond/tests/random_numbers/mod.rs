//! Random numbers, by splitmix64.

pub struct Random(pub u64);

impl Random {
    pub fn next(&mut self) -> u64 {
        self.0 = self.0.wrapping_add(0x9e37_79b9_7f4a_7c15);
        let mut mixed = self.0;
        mixed = (mixed ^ mixed >> 30).wrapping_mul(0xbf58_476d_1ce4_e5b9);
        mixed = (mixed ^ mixed >> 27).wrapping_mul(0x94d0_49bb_1331_11eb);
        mixed ^ mixed >> 31
    }

    pub fn below(&mut self, bound: u32) -> u32 {
        (self.next() % u64::from(bound)) as u32
    }

    pub fn one_in(&mut self, times: u32) -> bool {
        self.below(times) == 0
    }

    pub fn player(&mut self, players: u8) -> u8 {
        self.below(u32::from(players) + 2) as u8
    }

    /// Few words, so that predictions often come true.
    pub fn word(&mut self) -> u32 {
        if self.one_in(10) {
            self.next() as u32
        } else {
            self.below(3)
        }
    }
}
