//! Reckons the lowest q of each hundredth of a_urban and a_ref from the power inequalities of document 01, "Gears".

use std::{cmp::Ordering, env, fs, path::Path};

const HIGHEST_Q: u64 = 6000;

/// A whole number of any size: 32-bit limbs, lowest first, no zero limb on top.
#[derive(PartialEq, Eq)]
struct Big(Vec<u32>);

impl Big {
    /// `base` to the power `exponent`, for a base that fits one limb.
    fn power(base: u64, exponent: u32) -> Big {
        let mut limbs = vec![1];
        for _ in 0..exponent {
            let mut carry = 0;
            for limb in &mut limbs {
                let product = u64::from(*limb) * base + carry;
                *limb = product as u32;
                carry = product >> 32;
            }
            if carry > 0 {
                limbs.push(carry as u32);
            }
        }
        Big(limbs)
    }
}

impl PartialOrd for Big {
    fn partial_cmp(&self, other: &Big) -> Option<Ordering> {
        let by_length = self.0.len().cmp(&other.0.len());
        Some(by_length.then_with(|| self.0.iter().rev().cmp(other.0.iter().rev())))
    }
}

/// The lowest q with 10^(2N + offset) <= q^exponent.
fn lowest_q(n: u32, exponent: u32, offset: u32) -> u64 {
    let bound = Big::power(10, 2 * n + offset);
    let (mut low, mut high) = (1, HIGHEST_Q);
    while low < high {
        let middle = (low + high) / 2;
        if bound <= Big::power(middle, exponent) {
            high = middle;
        } else {
            low = middle + 1;
        }
    }
    low
}

fn table(name: &str, first: u32, last: u32, exponent: u32, offset: u32) -> String {
    let starts: Vec<u64> = (first..=last).map(|n| lowest_q(n, exponent, offset)).collect();
    format!("const {name}: [u16; {}] = {starts:?};\n", starts.len())
}

fn main() {
    println!("cargo:rerun-if-changed=build.rs");
    let tables = table("A_URBAN_STARTS", 36, 166, 126, 143) + &table("A_REF_STARTS", 82, 301, 318, 599);
    let directory = env::var("OUT_DIR").expect("cargo sets OUT_DIR");
    fs::write(Path::new(&directory).join("starts.rs"), tables).expect("OUT_DIR can be written");
}
