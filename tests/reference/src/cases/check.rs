//! Cases for the check of a file and for the reader of its rows.

use super::hour;
use crate::exercise::{check, read_header, rows_stretch, HEADER_BYTES, ROW_BYTES};
use crate::numbers::hex;
use crate::random::Random;

pub const HEADER: &str = "file\tnumber\trows";

/// The case of a turn, as a line.
pub fn line(turn: usize, random: &mut Random) -> String {
    let file = draw(turn, random);
    let (start, len) = rows_stretch(&file);
    let rows = &file[start..start + len];
    format!("{}\t{}\t{}", hex(&file), check(&file), hex(rows))
}

/// The file of a turn.
pub fn draw(turn: usize, random: &mut Random) -> Vec<u8> {
    let round = turn / 8;
    match turn % 8 {
        0 => hour::file_with_two_faults(round, random),
        1 => near(round, random),
        2 => noise(random),
        family => hour::draw(5 * round + family - 3, random).0,
    }
}

/// A sound file as it is, a byte short or long, or with one spare bit set.
fn near(round: usize, random: &mut Random) -> Vec<u8> {
    let mut file = hour::faultless(random).bytes();
    let change = round % 14;
    match change {
        0 => {}
        1 => {
            file.pop();
        }
        2 => file.push(0),
        // The other edition, whose length is another, or none.
        3..=8 => file[HEADER_BYTES - 1] ^= 1 << (change - 3),
        9..=11 => {
            let row = any_row(&mut file, random);
            row[ROW_BYTES - 1] |= 1 << (change - 9);
        }
        _ => return with_spare_bit(1 << (change - 12), random),
    }
    file
}

/// A file with sellers, sound but for a spare bit of a transaction.
fn with_spare_bit(spare: i64, random: &mut Random) -> Vec<u8> {
    let mut case = hour::faultless(random);
    hour::give_sellers(&mut case, random);
    let at = random.index(case.file.transactions.len());
    case.file.transaction_spares.push((at, spare));
    case.bytes()
}

/// Any bytes of any length, or a row of them in a sound file.
fn noise(random: &mut Random) -> Vec<u8> {
    if random.once_in(2) {
        let mut file = hour::faultless(random).bytes();
        let bytes = random.bytes(ROW_BYTES);
        any_row(&mut file, random).copy_from_slice(&bytes);
        return file;
    }
    let most = random.pick(&[8, 8, 100, 100, 100, 400]);
    let most = if random.once_in(60) { 20_000 } else { most };
    let len = random.index(most);
    random.bytes(len)
}

fn any_row<'a>(file: &'a mut [u8], random: &mut Random) -> &'a mut [u8] {
    let header = read_header(file).expect("a sound file");
    let start = header.rows_start() + ROW_BYTES * random.index(header.rows);
    &mut file[start..start + ROW_BYTES]
}

#[cfg(test)]
mod tests {
    use super::*;

    #[test]
    fn near_misses_are_refused() {
        let mut random = Random::new(1);
        for round in 0..240 {
            let file = near(round, &mut random);
            let refusal = if round % 14 == 0 { 0 } else { 9 };
            assert_eq!(check(&file), refusal);
        }
    }

    #[test]
    fn families_reach_every_number() {
        let mut random = Random::new(2);
        let mut seen = [0; 11];
        let mut rows_seen = 0;
        for turn in 0..4_000 {
            let file = draw(turn, &mut random);
            seen[check(&file) as usize] += 1;
            rows_seen += usize::from(rows_stretch(&file) != (0, 0));
        }
        assert!(rows_seen > 1_000);
        for number in [0, 1, 2, 3, 4, 9] {
            assert!(seen[number] > 100, "{seen:?}");
        }
        for number in [5, 6, 7, 8, 10] {
            assert_eq!(seen[number], 0);
        }
    }
}
