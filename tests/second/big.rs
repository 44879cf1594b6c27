// Whole numbers of any size: 1, multiplied by powers of small numbers, and compared.

use std::cmp::Ordering;

// Limbs of 32 bits, least first, without zeros at the top.
#[derive(Clone, PartialEq, Eq)]
pub struct Big(Vec<u32>);

impl Big {
    pub fn one() -> Big {
        Big(vec![1])
    }

    // This number times base^exponent.
    pub fn times_power(mut self, base: u32, exponent: u32) -> Big {
        for _ in 0..exponent {
            self.multiply(base);
        }
        self
    }

    fn multiply(&mut self, factor: u32) {
        let mut carry = 0u64;
        for limb in &mut self.0 {
            let product = u64::from(*limb) * u64::from(factor) + carry;
            *limb = product as u32;
            carry = product >> 32;
        }
        self.0.push(carry as u32);
        while self.0.last() == Some(&0) {
            self.0.pop();
        }
    }
}

impl Ord for Big {
    fn cmp(&self, other: &Big) -> Ordering {
        let by_length = self.0.len().cmp(&other.0.len());
        by_length.then_with(|| self.0.iter().rev().cmp(other.0.iter().rev()))
    }
}

impl PartialOrd for Big {
    fn partial_cmp(&self, other: &Big) -> Option<Ordering> {
        Some(self.cmp(other))
    }
}
