//! What the comparing programs share: a random sequence, and a group of comparisons that ends in one printed line.

use std::fmt::Display;

/// A xorshift sequence: the same for the same seed.
pub struct Random(pub u64);

impl Random {
    pub fn next(&mut self) -> u64 {
        self.0 ^= self.0 << 13;
        self.0 ^= self.0 >> 7;
        self.0 ^= self.0 << 17;
        self.0
    }
}

/// A float and the floats next to it, by their bits.
pub fn with_neighbours(x: f64) -> [f64; 3] {
    let bits = x.to_bits();
    [x, f64::from_bits(bits.wrapping_add(1)), f64::from_bits(bits.wrapping_sub(1))]
}

/// Comparisons of one kind: how many were made and how many differed.
pub struct Group {
    name: &'static str,
    compared: u64,
    differences: u64,
}

impl Group {
    pub fn new(name: &'static str) -> Self {
        Group {
            name,
            compared: 0,
            differences: 0,
        }
    }

    /// Counts one comparison, and shows it where it differs, the first five times.
    pub fn check<T: Display>(&mut self, equal: bool, at: impl Fn() -> T) {
        self.compared += 1;
        if !equal {
            self.differences += 1;
            if self.differences <= 5 {
                println!("  {} differs at {}", self.name, at());
            }
        }
    }

    /// Prints "ok NAME: N values compared, 0 differences" or "FAIL ..."; true where nothing differed and something was compared.
    pub fn finish(self) -> bool {
        let good = self.differences == 0 && self.compared > 0;
        let word = if good { "ok" } else { "FAIL" };
        println!(
            "{word} {}: {} values compared, {} differences",
            self.name, self.compared, self.differences
        );
        good
    }
}
