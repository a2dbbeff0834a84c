//! Cases of reading a file as numbers: files of every family with lists as long
//! as they must be, then files and lists with a fault or two, each fault known
//! by its stage in the order of refusals.

use super::faults::pair;
use super::file::File;
use super::{check, hour, write};
use crate::exercise::read_header;
use crate::numbers::hex;
use crate::random::Random;
use crate::read::{lens_of, read_file};

pub const HEADER: &str = "file\tprices before\trow_list before\ttransaction_list before\tnumber\tprices after\trow_list after\ttransaction_list after";

/// A file, and the lengths of the lists in bytes.
pub type Case = (Vec<u8>, [usize; 3]);

/// The case of a turn, as a line.
pub fn line(turn: usize, random: &mut Random) -> String {
    let (file, lens) = draw(turn, random);
    let mut lists = lens.map(|len| random.bytes(len));
    let before = fields(&lists);
    let number = read_file(&file, &mut lists);
    format!("{}\t{before}\t{number}\t{}", hex(&file), fields(&lists))
}

fn fields(lists: &[Vec<u8>; 3]) -> String {
    lists.clone().map(|list| hex(&list)).join("\t")
}

pub fn draw(turn: usize, random: &mut Random) -> Case {
    if turn % 200 == 199 {
        return large(turn / 200, random);
    }
    FAMILIES[turn % FAMILIES.len()](turn / FAMILIES.len(), random)
}

type Family = fn(usize, &mut Random) -> Case;

const FAMILIES: [Family; 16] = [
    |round, random| fitting(hour::draw(4 * round, random).0, random),
    |round, random| fitting(hour::draw(4 * round + 1, random).0, random),
    |round, random| fitting(hour::draw(4 * round + 2, random).0, random),
    |round, random| fitting(hour::draw(4 * round + 3, random).0, random),
    |round, random| fitting(check::draw(round, random), random),
    written,
    written,
    one_bit,
    one_bit,
    lengths,
    one_fault,
    one_fault,
    two_faults,
    two_faults,
    two_stages,
    |_, random| fitting(hour::one_entry(random).bytes(), random),
];

/// A file with the lists that its header asks for; any where that can't be read.
fn fitting(file: Vec<u8>, random: &mut Random) -> Case {
    let lens = match read_header(&file) {
        Ok(header) => lens_of(&header),
        Err(_) => random.pick(&[[0, 0, 0], [208, 0, 0], [208, 48, 48], [9, 1, 7]]),
    };
    (file, lens)
}

/// Every number is any of its range.
fn written(round: usize, random: &mut Random) -> Case {
    fitting(write::wide(round, random).file(), random)
}

/// The longest files and others with the most of something; every second has a
/// list that is too short or too long by a little.
fn large(round: usize, random: &mut Random) -> Case {
    let (file, mut lens) = fitting(write::large(round & !1, random).file(), random);
    if round % 2 == 1 {
        let list = round / 2 % 3;
        lens[list] = (lens[list] + 1).max(8) - random.pick(&[0, 2, 8]);
    }
    (file, lens)
}

/// One bit of a file that is 0 but for its header turned over.
pub fn one_bit(round: usize, random: &mut Random) -> Case {
    let (count, rows) = random.pick(&[(1, 1), (64, 2)]);
    let mut empty = File::new(count, 1 + random.index(count).min(4));
    for _ in 0..rows {
        empty.row(0, 0, 0, 0, 0, 0);
        empty.transaction(0, 0, 0, 0, 0, 0);
    }
    if round / 4 % 2 == 1 {
        empty.with_sellers(|| 0);
    }
    let mut file = empty.bytes();
    let bits = 8 * file.len();
    let lens = lens_of(&read_header(&file).unwrap());
    // Header, prices, and rows and transactions each get their turns.
    let bit = match round % 4 {
        0 => round / 8 % 40,
        1 => 40 + random.index(bits - 40),
        _ => bits - 1 - random.index(104 * rows),
    };
    file[bit / 8] ^= 0x80 >> (bit % 8);
    (file, lens)
}

/// Lists of a sound file that are too long, too short, ragged or exchanged.
fn lengths(round: usize, random: &mut Random) -> Case {
    let file = hour::faultless(random).file;
    let mut lens = lens_of(&file.header());
    let list = round % 3;
    match round / 3 % 21 {
        0 => lens[list] = 0,
        1 => lens = [0; 3],
        2 => lens.swap(list, (list + 1) % 3),
        3 => lens.swap(1, 2),
        4 => lens = lens.map(|len| len / 8),
        n @ 5..=11 => lens[list] += n - 4,
        n @ 12..=18 => lens[list] -= n - 11,
        19 => lens[2] = of_other_edition(lens[2]),
        _ => lens[list] = wrong_len(lens[list], random),
    }
    (file.bytes(), lens)
}

/// As many transactions with a seller more, or less, each.
fn of_other_edition(len: usize) -> usize {
    if len % 56 == 0 {
        len / 56 * 48
    } else {
        len / 48 * 56
    }
}

/// A length that isn't right.
fn wrong_len(right: usize, random: &mut Random) -> usize {
    let ragged = random.index(7) + 1;
    let lens = [
        0,
        right / 8,
        right - 8,
        right + 8,
        right - ragged,
        right + ragged,
        right + 48,
        right - 48,
        right + 56,
        right + 208,
        2 * right,
    ];
    random.pick(&lens)
}

/// A way to be refused: its stage in the hour's order, the number it gets when
/// it stands alone, and what is spoilt.
type Fault = (usize, u32, Spoil);

#[derive(Clone, Copy)]
enum Spoil {
    File(fn(&mut hour::Case, &mut Random)),
    List(usize),
}

fn faults() -> Vec<Fault> {
    let of_files = hour::faults_of_files();
    let of_files = of_files.iter().map(|f| (f.0, f.1, Spoil::File(f.2)));
    let of_lists = (0..3).map(|list| (hour::LISTS, 1, Spoil::List(list)));
    of_files.chain(of_lists).collect()
}

/// The faults of the file come first, as one may change what lists must have.
fn spoilt(faults: &[Fault], random: &mut Random) -> Case {
    let mut case = hour::faultless(random);
    for fault in faults {
        if let Spoil::File(spoil) = fault.2 {
            spoil(&mut case, random);
        }
    }
    let mut lens = lens_of(&case.file.header());
    for fault in faults {
        if let Spoil::List(list) = fault.2 {
            lens[list] = wrong_len(lens[list], random);
        }
    }
    (case.bytes(), lens)
}

fn one_fault(round: usize, random: &mut Random) -> Case {
    let faults = faults();
    spoilt(&[faults[round % faults.len()]], random)
}

fn two_faults(_: usize, random: &mut Random) -> Case {
    let faults = faults();
    let any = random.index(faults.len() * (faults.len() - 1));
    let (first, second) = pair(any, faults.len());
    spoilt(&[faults[first], faults[second]], random)
}

/// Faults of each pair of stages.
fn two_stages(round: usize, random: &mut Random) -> Case {
    let faults = faults();
    let stages = 1 + faults.iter().map(|fault| fault.0).max().unwrap();
    let (first, second) = pair(round, stages);
    let faults = [first, second].map(|stage| {
        let of_stage: Vec<Fault> = faults.iter().copied().filter(|f| f.0 == stage).collect();
        random.pick(&of_stage)
    });
    spoilt(&faults, random)
}

#[cfg(test)]
mod tests {
    use super::*;
    use crate::exercise;
    use crate::hour::settle_hour;
    use crate::write::{write_file, Given};
    use std::cmp::Ordering;
    use std::collections::BTreeSet;

    fn number((file, lens): &Case) -> u32 {
        read_file(file, &mut lens.map(|len| vec![0; len]))
    }

    #[test]
    fn faults_get_their_numbers() {
        let mut random = Random::new(1);
        for (at, fault) in faults().into_iter().enumerate() {
            for _ in 0..50 {
                assert_eq!(
                    number(&spoilt(&[fault], &mut random)),
                    fault.1,
                    "fault {at}"
                );
            }
        }
    }

    /// Of two faults the one of the earlier stage decides, whichever came first.
    #[test]
    fn pairs_get_the_earlier_number() {
        let mut random = Random::new(2);
        let faults = faults();
        for n in 0..10 * faults.len() * (faults.len() - 1) {
            let (at, other) = pair(n, faults.len());
            let (first, second) = (faults[at], faults[other]);
            let number = number(&spoilt(&[first, second], &mut random));
            match first.0.cmp(&second.0) {
                Ordering::Less => assert_eq!(number, first.1, "faults {at}, {other}"),
                Ordering::Greater => assert_eq!(number, second.1, "faults {at}, {other}"),
                // In one stage it's the earlier row or transaction that decides.
                Ordering::Equal => {
                    assert!(
                        [first.1, second.1].contains(&number),
                        "faults {at}, {other}: {number}"
                    )
                }
            }
        }
    }

    /// Writing what was read from an accepted file gives its bytes.
    #[test]
    fn files_are_written_again_as_they_were() {
        let mut random = Random::new(3);
        let mut tried = 0;
        for turn in 0..3_000 {
            let (file, lens) = draw(turn, &mut random);
            let mut lists = lens.map(|len| vec![0x55; len]);
            if read_file(&file, &mut lists) != 0 {
                continue;
            }
            tried += 1;
            let header = read_header(&file).unwrap();
            let [prices, row_list, transaction_list] = lists;
            let given = Given {
                participants: header.participants as i64,
                locations: header.locations as i64,
                rows: header.rows as i64,
                transactions: header.transactions as i64,
                edition: header.edition.number(),
                prices,
                row_list,
                transaction_list,
            };
            let mut again = vec![0x55; file.len()];
            assert_eq!(write_file(&given, &mut again), 0);
            assert!(again == file);
        }
        assert!(tried > 1_000, "{tried}");
    }

    /// What is read is what the check accepts, but for the lists.
    #[test]
    fn reading_agrees_with_the_check() {
        let mut random = Random::new(4);
        for turn in 0..3_000 {
            let case = draw(turn, &mut random);
            let refusal = exercise::check(&case.0);
            match number(&case) {
                1 => assert!(read_header(&case.0) != Err(9)),
                number => assert_eq!(number, refusal),
            }
        }
    }

    /// The cases that tests/run tries have each shape among them.
    #[test]
    fn families_reach_every_shape() {
        let mut seen = BTreeSet::new();
        let mut random = Random::new(1);
        for turn in 0..6_000 {
            seen.extend(shapes(&draw(turn, &mut random)));
        }
        // Files as long as can be, of either edition, as short, with nothing to
        // read; hours that can't be settled, for either reason; four lengths of
        // each list.
        assert_eq!(seen.len(), 4 + 2 + 4 * 3, "{seen:#?}");
    }

    fn shapes(case: &Case) -> Vec<String> {
        let (file, lens) = case;
        let named = |names: &[(&str, bool)]| -> Vec<String> {
            let named = names.iter().filter(|name| name.1);
            named.map(|name| name.0.to_string()).collect()
        };
        if number(case) == 0 {
            let participants = (file[0] >> 2) as usize + 1;
            let settled = settle_hour(file, &mut [(); 4].map(|_| vec![0; 8 * participants]));
            return named(&[
                ("the longest", file.len() == 19_077),
                (
                    "the longest of paths",
                    file.len() == 18_821 && file[4] & 1 == 0,
                ),
                ("the shortest", file.len() == 83),
                ("a surplus beyond", settled == 10),
                ("no shares", settled == 7),
            ]);
        }
        let header = match read_header(file) {
            Ok(header) => header,
            Err(_) => return named(&[("no file", file.is_empty())]),
        };
        let right = lens_of(&header);
        let shape = |at: usize| match lens[at] {
            len if len == right[at] => None,
            0 => Some("empty"),
            len if len % 8 != 0 => Some("ragged"),
            len if len < right[at] => Some("short"),
            _ => Some("long"),
        };
        let lists = (0..3).filter_map(|at| Some(format!("list {at} {}", shape(at)?)));
        lists.collect()
    }

    #[test]
    fn families_reach_every_number() {
        let mut random = Random::new(5);
        let mut seen = [0; 11];
        for turn in 0..2_400 {
            seen[number(&draw(turn, &mut random)) as usize] += 1;
        }
        assert!(seen[0] > 700, "{seen:?}");
        for number in [1, 2, 3, 4, 9] {
            assert!(seen[number] > 100, "{seen:?}");
        }
        for number in [5, 6, 7, 8, 10] {
            assert_eq!(seen[number], 0);
        }
    }
}
