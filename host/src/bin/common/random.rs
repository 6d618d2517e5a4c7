//! Random numbers from a fixed seed (splitmix64), and random trees.

pub struct Random(pub u64);

impl Random {
    pub fn word(&mut self) -> u64 {
        self.0 = self.0.wrapping_add(0x9e37_79b9_7f4a_7c15);
        let mut z = self.0;
        z = (z ^ (z >> 30)).wrapping_mul(0xbf58_476d_1ce4_e5b9);
        z = (z ^ (z >> 27)).wrapping_mul(0x94d0_49bb_1331_11eb);
        z ^ (z >> 31)
    }

    /// A number from 0 to n - 1.
    pub fn below(&mut self, n: usize) -> usize {
        (self.word() % n as u64) as usize
    }

    /// True once in n.
    pub fn once_in(&mut self, n: usize) -> bool {
        self.below(n) == 0
    }

    /// One of these.
    pub fn pick<T: Copy>(&mut self, among: &[T]) -> T {
        among[self.below(among.len())]
    }

    /// A nonempty set of states below s.
    pub fn set(&mut self, s: usize) -> u16 {
        1 + self.below((1 << s) - 1) as u16
    }

    /// The numbers 0 to n - 1 in any order.
    pub fn order(&mut self, n: usize) -> Vec<u16> {
        let mut order: Vec<u16> = (0..n as u16).collect();
        for i in 1..n {
            order.swap(i, self.below(i + 1));
        }
        order
    }

    /// The two lists of a tree with so many tips, all of them symbol tips: any shape, nodes in any order that has
    /// children below their parents, matrix rows in any order.
    pub fn tree(&mut self, tips: usize) -> (Vec<u16>, Vec<u16>) {
        let (mut left, mut right) = (Vec::new(), Vec::new());
        let mut rows = self.order(tips);
        let mut parentless = Vec::new();
        for v in 0..2 * tips as u16 - 1 {
            if parentless.len() < 2 || !rows.is_empty() && self.once_in(2) {
                left.push(65_535);
                right.push(rows.pop().expect("a tree of n tips has n - 1 inner nodes"));
            } else {
                left.push(parentless.swap_remove(self.below(parentless.len())));
                right.push(parentless.swap_remove(self.below(parentless.len())));
            }
            parentless.push(v);
        }
        (left, right)
    }
}
