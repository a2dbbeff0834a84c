//! Cases of the counts of a file: files of every family, right or wrong, with a
//! list that is as long as it must be or not.

use super::{check, hour, read, write};
use crate::counts::{counts, COUNTS};
use crate::numbers::hex;
use crate::random::Random;

pub const HEADER: &str = "file\tcounts before\tnumber\tcounts after";

/// The case of a turn, as a line.
pub fn line(turn: usize, random: &mut Random) -> String {
    let (file, len) = draw(turn, random);
    let before = random.bytes(len);
    let mut after = before.clone();
    let number = counts(&file, &mut after);
    format!(
        "{}\t{}\t{number}\t{}",
        hex(&file),
        hex(&before),
        hex(&after)
    )
}

fn draw(turn: usize, random: &mut Random) -> (Vec<u8>, usize) {
    (draw_file(turn, random), list_len(COUNTS, random))
}

/// A file of any family.
pub fn draw_file(turn: usize, random: &mut Random) -> Vec<u8> {
    let round = turn / 8;
    match turn % 8 {
        0 | 1 => hour::draw(turn / 4, random).0,
        2 | 3 => check::draw(turn / 4, random),
        4 => read::one_bit(round, random).0,
        5 => write::wide(round, random).file(),
        6 => any_header(random),
        _ if round % 25 == 0 => write::large(round / 25 * 2, random).file(),
        _ => hour::file_with_any_two_faults(round, random),
    }
}

/// Any header, before a file of the length that it tells or near it.
fn any_header(random: &mut Random) -> Vec<u8> {
    let mut file = random.bytes(5);
    if random.once_in(2) {
        file[4] &= 0xc1;
    }
    if random.once_in(2) {
        // Few rows and transactions.
        file[1] &= 0xf0;
        file[3] = 0;
    }
    let locations = usize::from(file[0] & 3) << 4 | usize::from(file[1] >> 4);
    let rows = usize::from(file[1] & 15) << 8 | usize::from(file[2]);
    let transactions = usize::from(file[3]) << 2 | usize::from(file[4] >> 6);
    let each = random.pick(&[6 + usize::from(file[4] & 1), 6, 7]);
    let length = 5 + 78 * (locations + 1) + 6 * rows + each * transactions;
    file.resize(length + random.pick(&[0, 0, 0, 0, 1, 6]), 0);
    if random.once_in(6) {
        file.pop();
    }
    file
}

/// The length of a list for so many numbers; once in eight it is another.
pub fn list_len(numbers: usize, random: &mut Random) -> usize {
    let right = 8 * numbers;
    if !random.once_in(8) {
        return right;
    }
    let ragged = 1 + random.index(7);
    random.pick(&[
        0,
        8,
        numbers,
        right - 8,
        right + 8,
        right - ragged,
        right + ragged,
        2 * right,
    ])
}

#[cfg(test)]
mod tests {
    use super::*;
    use crate::exercise::check;
    use std::collections::BTreeSet;

    #[test]
    fn families_reach_every_number() {
        let mut random = Random::new(1);
        let mut seen = [0; 11];
        let mut untested = BTreeSet::new();
        for turn in 0..6_000 {
            let (file, len) = draw(turn, &mut random);
            let number = counts(&file, &mut vec![0; len]);
            seen[number as usize] += 1;
            if number == 0 {
                untested.insert(check(&file));
            }
        }
        for number in [0, 1, 9] {
            assert!(seen[number] > 400, "{seen:?}");
        }
        assert_eq!(seen[0] + seen[1] + seen[9], 6_000);
        // Also files whose contents are refused have counts.
        assert!(untested.into_iter().eq([0, 2, 3, 4, 9]));
    }

    #[test]
    fn headers_reach_their_limits() {
        let mut random = Random::new(1);
        let mut seen = BTreeSet::new();
        for turn in 0..6_000 {
            let (file, _) = draw(turn, &mut random);
            let mut list = vec![0; 8 * COUNTS];
            if counts(&file, &mut list) == 0 {
                let numbers = crate::numbers::read(&list).unwrap();
                seen.extend((0..COUNTS).map(|at| (at, numbers[at])));
            }
        }
        for limit in [
            (0, 1),
            (0, 64),
            (1, 1),
            (1, 64),
            (2, 0),
            (2, 2_048),
            (3, 0),
            (3, 256),
            (4, 0),
            (4, 1),
        ] {
            assert!(seen.contains(&limit), "{limit:?}");
        }
    }
}
