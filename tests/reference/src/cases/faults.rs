//! What the families of damaged cases share.

use crate::random::Random;

/// The n-th of all pairs of different numbers below `len`, in either order.
pub fn pair(n: usize, len: usize) -> (usize, usize) {
    let first = n % len;
    let step = 1 + n / len % (len - 1);
    (first, (first + step) % len)
}

/// A number outside its range.
pub fn beyond(low: i64, high: i64, random: &mut Random) -> i64 {
    let far_below = random.between(i64::MIN, low - 1);
    let far_above = random.between(high + 1, i64::MAX);
    // The last two are in range if only their low 32 bits are looked at.
    random.pick(&[
        low - 1,
        low - 1,
        high + 1,
        high + 1,
        i64::MIN,
        i64::MAX,
        far_below,
        far_above,
        1 << 32,
        -(1 << 32),
    ])
}

/// A number outside its range with the low bits of the one in whose place it
/// stands.
pub fn wrapped(number: i64, low: i64, high: i64, random: &mut Random) -> i64 {
    loop {
        let bit = 1 << random.index(64);
        let other = number.wrapping_add(bit);
        if !(low..=high).contains(&other) {
            return other;
        }
    }
}

#[cfg(test)]
mod tests {
    use super::*;

    #[test]
    fn low_bits_stay() {
        let mut random = Random::new(1);
        let drawn: Vec<i64> = (0..2_000).map(|_| wrapped(5, 0, 11, &mut random)).collect();
        assert!(drawn.iter().all(|number| !(0..=11).contains(number)));
        for bit in 3..64 {
            assert!(drawn.contains(&5_i64.wrapping_add(1 << bit)), "{bit}");
        }
    }

    #[test]
    fn every_pair_comes() {
        let pairs: Vec<_> = (0..20).map(|n| pair(n, 5)).collect();
        for first in 0..5 {
            for second in 0..5 {
                assert_eq!(pairs.contains(&(first, second)), first != second);
            }
        }
    }
}
