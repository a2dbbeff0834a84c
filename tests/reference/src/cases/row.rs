//! Cases of decoding one row.

use super::faults::beyond;
use super::file::put_row;
use crate::bits::BitWriter;
use crate::exercise::{decode_row, Row};
use crate::numbers::hex;
use crate::random::Random;
use crate::MOST_KW;

pub const HEADER: &str =
    "participants\tlocations\tsix bytes\tnumber\tmarket kind interval participant location kW";

const MOST_FIELD: i64 = (1 << 25) - 1;

struct Case {
    participants: i64,
    locations: i64,
    bytes: Vec<u8>,
}

/// The case of a turn, as a line.
pub fn line(turn: usize, random: &mut Random) -> String {
    let case = draw(turn, random);
    let (number, fields) = outcome(&case);
    format!(
        "{}\t{}\t{}\t{number}\t{fields}",
        case.participants,
        case.locations,
        hex(&case.bytes)
    )
}

/// The answer and the fields of the row, `-` where it is refused.
fn outcome(case: &Case) -> (u32, String) {
    match decode_row(case.participants, case.locations, &case.bytes) {
        Ok(row) => (
            0,
            format!(
                "{} {} {} {} {} {}",
                row.market, row.kind, row.interval, row.participant, row.location, row.kw
            ),
        ),
        Err(number) => (number, "-".to_string()),
    }
}

fn draw(turn: usize, random: &mut Random) -> Case {
    let round = turn / 8;
    let mut participants = random.pick(&[1, 2, 3, 40, 63]);
    let mut locations = random.pick(&[1, 2, 5, 40, 63]);
    let mut row = sound(participants, locations, random);
    let mut spare = 0;
    match turn % 8 {
        0 => {
            // All 64, where every identity is one.
            participants = 64;
            locations = 64;
            row = sound(64, 64, random);
        }
        1 => {
            row.market = round & 1;
            row.kind = round >> 1 & 7;
            row.interval = round >> 4 & 15;
        }
        2 => {
            // The first identity that isn't one, and the last kW that are.
            row.participant = participants as usize - random.index(2);
            row.location = locations as usize - random.index(2);
            row.kw = random.pick(&[0, MOST_KW, MOST_KW, MOST_KW + 1]);
        }
        3 => {
            spare = round as i64 & 7;
            row.kw = random.pick(&[0, 1, MOST_KW, MOST_KW + 1, MOST_FIELD]);
        }
        4 => {
            let mut bytes = bytes(&row, spare);
            if random.once_in(4) {
                bytes[0] ^= 0x70;
            }
            bytes.resize([0, 1, 2, 3, 4, 5, 7, 8, 12, 48][round % 10], 0);
            return Case {
                participants,
                locations,
                bytes,
            };
        }
        5 => {
            // One bit of a sound row turned over.
            let mut bytes = bytes(&row, spare);
            bytes[round % 48 / 8] ^= 0x80 >> (round % 8);
            return Case {
                participants,
                locations,
                bytes,
            };
        }
        6 => {
            return Case {
                participants: random.between(1, 64),
                locations: random.between(1, 64),
                bytes: random.bytes(6),
            };
        }
        _ => return faulty(round, participants, locations, row, random),
    }
    Case {
        participants,
        locations,
        bytes: bytes(&row, spare),
    }
}

fn bytes(row: &Row, spare: i64) -> Vec<u8> {
    let mut writer = BitWriter::new();
    put_row(&mut writer, row, spare);
    writer.bytes
}

fn sound(participants: i64, locations: i64, random: &mut Random) -> Row {
    let market = random.index(2);
    let (kinds, intervals) = if market == 0 { (6, 1) } else { (4, 12) };
    let any = random.between(0, MOST_KW);
    Row {
        market,
        kind: random.index(kinds),
        interval: random.index(intervals),
        participant: random.index(participants as usize),
        location: random.index(locations as usize),
        kw: random.pick(&[0, 1, 12, 199_999, any, any, any, MOST_KW]),
    }
}

/// Every set of faults in turn, one bit of the set for each refusal.
fn faulty(
    round: usize,
    mut participants: i64,
    mut locations: i64,
    mut row: Row,
    random: &mut Random,
) -> Case {
    let set = round % 64;
    let mut spare = 0;
    if set & 4 != 0 {
        match random.index(4) {
            0 => row.kind = 6 + random.index(2),
            1 => (row.market, row.kind) = (1, 4 + random.index(2)),
            2 => (row.market, row.interval) = (0, 1 + random.index(15)),
            _ => (row.market, row.interval) = (1, 12 + random.index(4)),
        }
    }
    if set & 8 != 0 {
        match random.index(3) {
            0 => row.participant = random.between(participants, 63) as usize,
            1 => row.location = random.between(locations, 63) as usize,
            _ => (row.participant, row.location) = (63, 63),
        }
    }
    if set & 16 != 0 {
        let any = random.between(MOST_KW + 1, MOST_FIELD);
        row.kw = random.pick(&[MOST_KW + 1, any, MOST_FIELD]);
    }
    if set & 32 != 0 {
        spare = random.between(1, 7);
    }
    let mut bytes = bytes(&row, spare);
    if set & 2 != 0 {
        bytes.resize(random.pick(&[0, 1, 5, 7, 12]), 0);
    }
    if set & 1 != 0 {
        match random.index(3) {
            0 => participants = beyond(1, 64, random),
            1 => locations = beyond(1, 64, random),
            _ => {
                participants = random.pick(&[0, 65]);
                locations = random.pick(&[0, 65]);
            }
        }
    }
    Case {
        participants,
        locations,
        bytes,
    }
}

#[cfg(test)]
mod tests {
    use super::*;
    use crate::numbers::unhex;
    use crate::vectors;

    fn number(line: &str) -> u32 {
        line.split('\t').nth(3).unwrap().parse().unwrap()
    }

    #[test]
    fn vectors() {
        for (line, f) in vectors::read("row") {
            let (number, fields) = outcome(&Case {
                participants: f[0].parse().unwrap(),
                locations: f[1].parse().unwrap(),
                bytes: unhex(&f[2]),
            });
            assert_eq!([number.to_string(), fields], f[3..], "line {line}");
        }
    }

    /// The least of a set's faults in the order 1, 9 (length), 4, 3, 2, 9.
    #[test]
    fn faults_get_their_numbers() {
        let mut random = Random::new(1);
        for round in 0..6_400 {
            let line = line(8 * round + 7, &mut random);
            let set = round % 64;
            let order = [(1, 1), (2, 9), (4, 4), (8, 3), (16, 2), (32, 9)];
            let expected = order.iter().find(|(bit, _)| set & bit != 0);
            assert_eq!(number(&line), expected.map_or(0, |e| e.1), "{line}");
        }
    }

    #[test]
    fn sound_rows_come_back() {
        let mut random = Random::new(2);
        for _ in 0..200 {
            let row = sound(64, 64, &mut random);
            assert_eq!(decode_row(64, 64, &bytes(&row, 0)), Ok(row));
        }
    }
}
