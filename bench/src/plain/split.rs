//! The split: one division, and a floor that is moved from key to key until as
//! many are above it as units are left.

use super::{beyond, numbers, put_numbers, sizes, Answer, FEW, MOST};

const MOST_AMOUNT: i64 = 1_000_000_000;
const MOST_SHARE: i64 = 4_000_000_000;

pub fn split(amount: i64, shares: &[u8], out: &mut [u8]) -> Answer {
    if shares.len() % 8 != 0 || out.len() != shares.len() {
        return Err(1);
    }
    let parties = shares.len() / 8;
    if parties == 0 || parties > MOST {
        return Err(1);
    }
    if parties <= FEW {
        split_in::<FEW>(amount, shares, out)
    } else {
        split_in::<MOST>(amount, shares, out)
    }
}

fn split_in<const ROOM: usize>(amount: i64, shares: &[u8], out: &mut [u8]) -> Answer {
    let mut tested = beyond(amount, -MOST_AMOUNT, MOST_AMOUNT);
    let mut total: i64 = 0;
    for share in numbers(shares) {
        tested |= beyond(share, 0, MOST_SHARE);
        total = total.wrapping_add(share);
    }
    if tested < 0 {
        return Err(2);
    }
    if total == 0 {
        if amount != 0 {
            return Err(7);
        }
        out.fill(0);
        return Ok(());
    }
    let mut room = Room::<ROOM>::new();
    let parts = room.parts(amount.unsigned_abs(), total as u64, sizes(shares));
    put_numbers(out, parts.map(|part| with_sign(amount, part)));
    Ok(())
}

/// A size with the sign of an amount, without a branch.
pub fn with_sign(amount: i64, size: u64) -> i64 {
    let sign = amount >> 63;
    (size as i64 ^ sign) - sign
}

/// What a split keeps.
pub struct Room<const ROOM: usize> {
    cut: [u64; ROOM],
    keys: [u64; ROOM],
}

impl<const ROOM: usize> Room<ROOM> {
    pub fn new() -> Self {
        Room {
            cut: [0; ROOM],
            keys: [0; ROOM],
        }
    }

    /// The parts of a size over shares that total more than 0.
    #[inline(always)]
    pub fn parts(
        &mut self,
        size: u64,
        total: u64,
        shares: impl ExactSizeIterator<Item = u64>,
    ) -> impl Iterator<Item = u64> + '_ {
        let parties = shares.len();
        let units = self.divide(size, total, shares);
        // Behind the last key are zeros, so that keys can be gone through by fours.
        let fours = (parties + 3) / 4 * 4;
        self.keys[parties..fours].fill(0);
        let floor = floor_of(&self.keys[..fours], parties as u64, units, total);
        let cut = self.cut[..parties].iter();
        cut.zip(&self.keys)
            .map(move |(cut, &key)| cut + above(key, floor))
    }

    /// What each party gets cut down, and its key: the remainder above the
    /// party's place from the end. Gives the units left.
    #[inline(always)]
    fn divide(&mut self, size: u64, total: u64, shares: impl Iterator<Item = u64>) -> u64 {
        let ratio = (size << 34) / total;
        let mut left = size;
        let mut place = MOST as u64;
        for ((cut, key), share) in self.cut.iter_mut().zip(&mut self.keys).zip(shares) {
            // The quotient or one less, as a share is below 2^34.
            let low = (ratio * share) >> 34;
            let over = size * share - low * total;
            let short = over >= total;
            *cut = low + u64::from(short);
            let rest = if short { over - total } else { over };
            *key = (rest << 6) + place;
            left -= *cut;
            place -= 1;
        }
        left
    }
}

/// 1 for a key above a floor, else 0; both are far below 2^63.
fn above(key: u64, floor: u64) -> u64 {
    floor.wrapping_sub(key) >> 63
}

/// The least distance of a key; far are those that don't count.
fn nearest(keys: &[u64], distance: impl Fn(u64) -> u64) -> u64 {
    let mut least = [u64::MAX; 4];
    for four in keys.chunks_exact(4) {
        for (least, &key) in least.iter_mut().zip(four) {
            *least = distance(key).min(*least);
        }
    }
    let [a, b, c, d] = least;
    a.min(b).min(c.min(d))
}

/// A floor, and how many keys are above it.
#[derive(Clone, Copy)]
struct Level {
    floor: u64,
    count: u64,
}

impl Level {
    fn new(keys: &[u64], floor: u64) -> Level {
        let count = keys.iter().map(|&key| above(key, floor)).sum();
        Level { floor, count }
    }

    fn is_near(self, units: u64) -> bool {
        self.count.abs_diff(units) <= 6
    }

    /// Up to the smallest key above it.
    fn up(self, keys: &[u64]) -> Level {
        let from = self.floor + 1;
        Level {
            floor: from + nearest(keys, |key| key.wrapping_sub(from)),
            count: self.count - 1,
        }
    }

    /// Down past the largest key that isn't above it.
    fn down(self, keys: &[u64]) -> Level {
        let from = self.floor;
        Level {
            floor: from - nearest(keys, |key| from.wrapping_sub(key)) - 1,
            count: self.count + 1,
        }
    }
}

/// The floor that as many keys are above as units are left.
fn floor_of(keys: &[u64], parties: u64, units: u64, total: u64) -> u64 {
    let mut level = start(keys, parties, units, total);
    while level.count > units {
        level = level.up(keys);
    }
    while level.count < units {
        level = level.down(keys);
    }
    level.floor
}

/// A floor to begin with: half the total, as remainders are mostly spread evenly;
/// where that is far off, their mean, which each is where they are equal; else one
/// between the first and the last key on the side where the units end.
fn start(keys: &[u64], parties: u64, units: u64, total: u64) -> Level {
    let half = Level::new(keys, 32 * total);
    if half.is_near(units) {
        return half;
    }
    let mean = Level::new(keys, 64 * (units * total / parties) + 64 - units);
    if mean.is_near(units) {
        return mean;
    }
    let none = Level {
        floor: 64 * total,
        count: 0,
    };
    let all = Level {
        floor: 0,
        count: parties,
    };
    let (low, high) = if mean.count > units {
        (mean, none)
    } else {
        (all, mean)
    };
    let (low, high) = (low.up(keys), high.down(keys));
    let way = (high.floor - low.floor) * (low.count - units) / (low.count - high.count);
    Level::new(keys, low.floor + way)
}
