//! Stand-in for the crate `bit_vec`: what intmap.rs uses of it, over a plain vector.
use std::ops::Index;

#[derive(Debug, Clone)]
pub struct BitVec(Vec<bool>);

impl BitVec {
    pub fn new() -> Self {
        BitVec(Vec::new())
    }
    pub fn len(&self) -> usize {
        self.0.len()
    }
    pub fn capacity(&self) -> usize {
        self.0.capacity()
    }
    pub fn set(&mut self, i: usize, b: bool) {
        self.0[i] = b;
    }
    pub fn grow(&mut self, n: usize, b: bool) {
        self.0.resize(self.0.len() + n, b);
    }
    /// All bits off; the length stays, as in `bit_vec`.
    pub fn clear(&mut self) {
        self.0.fill(false);
    }
    pub fn shrink_to_fit(&mut self) {
        self.0.shrink_to_fit();
    }
}

impl Index<usize> for BitVec {
    type Output = bool;
    fn index(&self, i: usize) -> &bool {
        &self.0[i]
    }
}
