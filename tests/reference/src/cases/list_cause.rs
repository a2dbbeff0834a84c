//! Cases of the cause of an hour in lists: hours of every family, every pair of
//! faults, rows and transactions with several; the list as long as it must be or
//! not.

use super::cause::NUMBERS;
use super::counts::list_len;
use super::write;
use crate::cause::find_list_cause;
use crate::numbers::hex;
use crate::random::Random;
use crate::write::Given;

pub const HEADER: &str = "participants\tlocations\trows\ttransactions\tedition\tprices\trow_list\ttransaction_list\tcause before\tnumber\tcause after";

/// The case of a turn, as a line.
pub fn line(turn: usize, random: &mut Random) -> String {
    let given = draw(turn, random);
    let len = list_len(NUMBERS, random);
    let before = random.bytes(len);
    let mut after = before.clone();
    let number = find_list_cause(&given, &mut after);
    format!(
        "{}\t{}\t{number}\t{}",
        write::fields(&given),
        hex(&before),
        hex(&after)
    )
}

fn draw(turn: usize, random: &mut Random) -> Given {
    let round = turn / 4;
    let case = match turn % 4 {
        0 => write::with_two_faults(round, random),
        1 if round % 3 == 0 => write::many_entries(random),
        1 if round % 3 == 1 => write::one_transaction(round / 3, random),
        _ => write::draw(turn - turn / 4, random),
    };
    case.given()
}

#[cfg(test)]
mod tests {
    use super::*;
    use crate::cases::cause::tests::turn_of;
    use crate::cause::{cause_of_lists, LIST, PRICE, ROW, TRANSACTION};
    use crate::exercise::Edition;
    use crate::write::write_file;
    use std::collections::{BTreeMap, BTreeSet};

    /// The refusal that is told is that of writing, and what is told is outside.
    #[test]
    fn causes_are_the_refusals() {
        let mut random = Random::new(1);
        for turn in 0..6_000 {
            let given = draw(turn, &mut random);
            let cause = cause_of_lists(&given);
            let [refusal, .., found, least, most] = cause;
            let number = write_file(&given, &mut [0; 20_000]);
            assert_eq!(refusal, i64::from(number), "turn {turn}");
            match refusal {
                0 => assert_eq!(cause, [0; NUMBERS]),
                _ => assert!(found < least || found > most, "turn {turn}"),
            }
        }
    }

    /// What is told stands there; with a right number in its place the hour gets
    /// further, to a later place, until there is none.
    #[test]
    fn mended_places_are_right() {
        let mut random = Random::new(2);
        let mut mended = 0;
        for turn in 0..4_000 {
            let mut given = draw(turn, &mut random);
            let mut before = (0, 0, -1);
            loop {
                let [_, part, number, field, found, least, most] = cause_of_lists(&given);
                let edition = Edition::of(given.edition);
                let (list, per) = match part {
                    PRICE => (&mut given.prices, 1),
                    ROW => (&mut given.row_list, 6),
                    TRANSACTION => (
                        &mut given.transaction_list,
                        edition.unwrap().transaction_numbers() as i64,
                    ),
                    _ => break,
                };
                let place = turn_of(edition.unwrap(), part, field);
                assert!((part, number, place) > before, "turn {turn}");
                before = (part, number, place);
                let at = 8 * (per * number + place) as usize;
                let eight = &mut list[at..at + 8];
                assert_eq!(eight, found.to_le_bytes(), "turn {turn}");
                eight.copy_from_slice(&random.pick(&[least, most]).to_le_bytes());
                mended += 1;
            }
        }
        assert!(mended > 2_000, "{mended}");
    }

    /// The cases that tests/run tries have every part and field, on either side
    /// of its range, and numbers next to it.
    #[test]
    fn families_reach_every_test() {
        let mut seen = BTreeMap::new();
        let mut near = BTreeSet::new();
        let mut random = Random::new(1);
        for turn in 0..6_000 {
            let cause = cause_of_lists(&draw(turn, &mut random));
            let [_, part, number, field, found, least, most] = cause;
            *seen.entry((part, field)).or_insert(0) += 1;
            let sides = [
                ("below", found < least),
                ("above", found > most),
                ("next below", found == least - 1),
                ("next above", found == most + 1),
                ("later", number > 0),
            ];
            let sides = sides.into_iter().filter(|side| side.1);
            near.extend(sides.map(|side| (part, field, side.0)));
        }
        // Accepted; four counts and the edition; three lists; a price; six of a
        // row; seven of a transaction.
        assert_eq!(seen.len(), 1 + 5 + 3 + 1 + 6 + 7, "{seen:#?}");
        assert!(seen.values().all(|&times| times > 20), "{seen:#?}");
        for &(part, field) in seen.keys().filter(|key| key.0 != 0) {
            let names: &[&str] = match part {
                LIST => &["below", "above"],
                PRICE | ROW | TRANSACTION => &["next below", "next above", "later"],
                _ => &["next below", "next above"],
            };
            for name in names {
                // A list without entries can't be too short.
                assert!(near.contains(&(part, field, name)), "{part} {field} {name}");
            }
        }
    }
}
