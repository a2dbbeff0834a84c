//! Lists as they cross the boundary: eight bytes a number, two's complement,
//! lowest byte first.

/// The numbers of a list, or `None` where its length is no multiple of eight.
pub fn read(bytes: &[u8]) -> Option<Vec<i64>> {
    let eights = bytes.chunks_exact(8);
    if !eights.remainder().is_empty() {
        return None;
    }
    let number = |eight: &[u8]| i64::from_le_bytes(eight.try_into().unwrap());
    Some(eights.map(number).collect())
}

/// The list of some numbers.
pub fn bytes(numbers: &[i64]) -> Vec<u8> {
    numbers.iter().flat_map(|n| n.to_le_bytes()).collect()
}

/// A run of a byte that is at least so long is written short.
const RUN: usize = 4;

/// A list as the case files have it: two digits a byte, and `00{12}` for twelve
/// bytes 00.
pub fn hex(bytes: &[u8]) -> String {
    let mut text = String::new();
    let mut left = bytes;
    while let Some(&byte) = left.first() {
        let run = left.iter().take_while(|&&other| other == byte).count();
        let digits = format!("{byte:02x}");
        if run < RUN {
            text += &digits.repeat(run);
        } else {
            text += &format!("{digits}{{{run}}}");
        }
        left = &left[run..];
    }
    text
}

/// The bytes of a list in a case file.
pub fn unhex(text: &str) -> Vec<u8> {
    let mut bytes = Vec::new();
    let mut left = text;
    while !left.is_empty() {
        let (digits, rest) = left.split_at(2);
        let byte = u8::from_str_radix(digits, 16).expect("two digits a byte");
        let (run, rest) = match rest.strip_prefix('{').and_then(|run| run.split_once('}')) {
            Some((run, rest)) => (run.parse().expect("a count in braces"), rest),
            None => (1, rest),
        };
        bytes.resize(bytes.len() + run, byte);
        left = rest;
    }
    bytes
}

#[cfg(test)]
mod tests {
    use super::*;

    #[test]
    fn lowest_byte_first() {
        assert_eq!(
            bytes(&[1, -2]),
            [1, 0, 0, 0, 0, 0, 0, 0, 254, 255, 255, 255, 255, 255, 255, 255]
        );
        assert_eq!(hex(&bytes(&[0x0123])), "230100{6}");
    }

    #[test]
    fn reads_what_is_written() {
        let numbers = [0, 1, -1, i64::MIN, i64::MAX, 4_000_000_000];
        assert_eq!(read(&bytes(&numbers)), Some(numbers.to_vec()));
        assert_eq!(read(&[]), Some(vec![]));
    }

    #[test]
    fn runs_are_written_short() {
        assert_eq!(hex(&[7, 0, 0, 0, 9]), "0700000009");
        assert_eq!(hex(&[7, 0, 0, 0, 0, 9]), "0700{4}09");
        for list in [vec![], vec![1], vec![255; 30], bytes(&[0, 0, 5, -1, -1])] {
            assert_eq!(unhex(&hex(&list)), list);
        }
        assert_eq!(unhex("0000000000000000000001"), unhex("00{10}01"));
    }

    #[test]
    fn no_multiple_of_eight() {
        for len in [1, 7, 9, 63] {
            assert_eq!(read(&vec![0; len]), None);
        }
    }
}
