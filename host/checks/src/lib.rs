//! What the tests share: numbers from a seed, the same on every machine and in every run;
//! inputs made from them; what is done to these; and the proved functions beside the second program's.

pub mod beside;
pub mod bundles;
pub mod calls;
pub mod cases;
pub mod damage;
pub mod edits;
pub mod faults;
pub mod fitting;
pub mod inputs;
pub mod issuing;
pub mod judges;
pub mod narrowing;
mod parts;
pub mod requests;
pub mod sample_bundle;
pub mod samples;
pub mod strings;
pub mod tables;
pub mod tree;
pub mod trees;
pub mod vectors;
pub mod verdicts;

/// SplitMix64.
pub struct Seeded(pub u64);

impl Seeded {
    pub fn next(&mut self) -> u64 {
        self.0 = self.0.wrapping_add(0x9e37_79b9_7f4a_7c15);
        let mut z = self.0;
        z = (z ^ (z >> 30)).wrapping_mul(0xbf58_476d_1ce4_e5b9);
        z = (z ^ (z >> 27)).wrapping_mul(0x94d0_49bb_1331_11eb);
        z ^ (z >> 31)
    }

    /// A number below `bound`.
    pub fn below(&mut self, bound: usize) -> usize {
        (self.next() % bound as u64) as usize
    }

    pub fn bytes(&mut self, count: usize) -> Vec<u8> {
        (0..count).map(|_| self.next() as u8).collect()
    }
}
