//! Files drawn from a seed: a seed and a number give the same file whatever came before.

mod damage;
mod random;
mod walk;

use random::Random;
pub use walk::week;

/// The file of a number.
pub fn file(seed: u64, number: u64) -> Vec<u8> {
    let mut random = Random::new(
        seed.wrapping_mul(0x2545_f491_4f6c_dd1d)
            .wrapping_add(number),
    );
    match random.below(100) {
        0..=64 => walk::walk(&mut random),
        65..=84 => {
            let mut file = walk::walk(&mut random);
            damage::damage(&mut random, &mut file);
            file
        }
        85..=88 => {
            let mut file = walk::walk(&mut random);
            damage::lengthen(&mut random, &mut file);
            file
        }
        89..=94 => damage::noise(&mut random),
        _ => damage::first_lines(&mut random),
    }
}

/// A line with one byte changed, lost or added.
pub fn spoiled(seed: u64, line: &[u8]) -> Vec<u8> {
    let mut line = line.to_vec();
    damage::spoil(&mut Random::new(seed), &mut line);
    line
}
