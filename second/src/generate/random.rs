//! A seeded source of choices, the same on every machine.

pub struct Chance {
    state: u64,
    names: usize,
}

impl Chance {
    pub fn new(seed: u64) -> Chance {
        let state = seed;
        Chance { state, names: 0 }
    }

    /// The next number of splitmix64.
    fn next(&mut self) -> u64 {
        self.state = self.state.wrapping_add(0x9e37_79b9_7f4a_7c15);
        let mut mixed = self.state;
        mixed = (mixed ^ (mixed >> 30)).wrapping_mul(0xbf58_476d_1ce4_e5b9);
        mixed = (mixed ^ (mixed >> 27)).wrapping_mul(0x94d0_49bb_1331_11eb);
        mixed ^ (mixed >> 31)
    }

    /// A number below `end`, which is not 0.
    pub fn below(&mut self, end: usize) -> usize {
        (self.next() % end as u64) as usize
    }

    pub fn one_in(&mut self, many: usize) -> bool {
        self.below(many) == 0
    }

    pub fn pick<'a, T>(&mut self, list: &'a [T]) -> &'a T {
        &list[self.below(list.len())]
    }

    /// One of the parts that are divided by bars.
    pub fn word(&mut self, list: &'static str) -> &'static str {
        let many = list.split('|').count();
        list.split('|').nth(self.below(many)).unwrap_or(list)
    }

    /// A name that no library and no earlier call uses.
    pub fn fresh(&mut self) -> String {
        self.names += 1;
        format!("v{}", self.names)
    }
}
