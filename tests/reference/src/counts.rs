//! What the header of a file tells: how many participants there are, and the
//! four counts with the edition.

use crate::exercise::{read_header, HEADER_BYTES};
use crate::numbers;

/// Numbers of the list that the counts and the edition are written to.
pub const COUNTS: usize = 5;

/// What `wz_participants` answers.
pub fn participants(file: &[u8]) -> u32 {
    if file.len() < HEADER_BYTES {
        return 0;
    }
    // The first six bits, plus 1.
    u32::from(file[0] >> 2) + 1
}

/// What `wz_counts` does and answers.
pub fn counts(file: &[u8], list: &mut Vec<u8>) -> u32 {
    let header = match read_header(file) {
        Ok(header) => header,
        Err(number) => return number,
    };
    if list.len() != 8 * COUNTS {
        return 1;
    }
    let counts = [
        header.participants,
        header.locations,
        header.rows,
        header.transactions,
    ];
    let counts = counts.iter().map(|&count| count as i64);
    let told: Vec<i64> = counts.chain([header.edition.number()]).collect();
    *list = numbers::bytes(&told);
    0
}

#[cfg(test)]
mod tests {
    use super::*;
    use crate::cases::file::{document_01, File};
    use crate::exercise::Edition;
    use crate::numbers::unhex;
    use crate::vectors;

    #[test]
    fn the_exercise_of_document_01() {
        let file = document_01();
        let mut list = vec![0x55; 40];
        assert_eq!(participants(&file), 2);
        assert_eq!(counts(&file, &mut list), 0);
        assert_eq!(numbers::read(&list).unwrap(), [2, 2, 3, 0, 0]);
    }

    #[test]
    fn editions() {
        let mut list = vec![0x55; 40];
        let mut file = File::of(Edition::WithSeller, 3, 1);
        assert_eq!(counts(&file.bytes(), &mut list), 0);
        assert_eq!(numbers::read(&list).unwrap(), [3, 1, 0, 0, 1]);
        file.sale(0, 0, 0, 0, 0, 0, 0);
        assert_eq!(counts(&file.bytes(), &mut list), 0);
        assert_eq!(numbers::read(&list).unwrap(), [3, 1, 0, 1, 1]);
        file.told_edition = Some(0);
        assert_eq!(counts(&file.bytes(), &mut list), 9);
        file.told_edition = Some(2);
        assert_eq!(counts(&file.bytes(), &mut list), 9);
    }

    #[test]
    fn the_most_and_the_least() {
        assert_eq!(participants(&[0xff; 5]), 64);
        assert_eq!(participants(&[0x03; 5]), 1);
        assert_eq!(participants(&[0xff; 4]), 0);
        assert_eq!(participants(&[]), 0);
    }

    /// The list comes last, and a refused call leaves it.
    #[test]
    fn order() {
        let file = document_01();
        for (file, len, number) in [
            (&file[..4], 0, 9),
            (&file[..file.len() - 1], 0, 9),
            (&[0, 0, 0, 0, 2][..], 0, 9),
            (&[0, 8, 1, 0, 2][..], 0, 9),
            (&[0, 8, 1, 0, 0][..], 0, 1),
            (&file[..], 32, 1),
            (&file[..], 39, 1),
            (&file[..], 48, 1),
            (&file[..], 0, 1),
        ] {
            let mut list = vec![0x55; len];
            assert_eq!(counts(file, &mut list), number);
            assert_eq!(list, vec![0x55; len]);
        }
    }

    #[test]
    fn vectors() {
        for (line, f) in vectors::read("participants") {
            assert_eq!(participants(&unhex(&f[0])).to_string(), f[1], "line {line}");
        }
        for (line, f) in vectors::read("counts") {
            let mut list = unhex(&f[1]);
            assert_eq!(
                counts(&unhex(&f[0]), &mut list).to_string(),
                f[2],
                "line {line}"
            );
            assert!(list == unhex(&f[3]), "line {line}");
        }
    }
}
