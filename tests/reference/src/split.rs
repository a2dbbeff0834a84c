//! The split (document 01, "The split").

use crate::numbers;

pub const MOST_PARTIES: usize = 64;
pub const MOST_AMOUNT: i64 = 1_000_000_000;
pub const MOST_SHARE: i64 = 4_000_000_000;

/// What `wz_split` does and answers.
pub fn split(amount: i64, shares: &[u8], parts: &mut [u8]) -> u32 {
    let list = match numbers::read(shares) {
        Some(list) => list,
        None => return 1,
    };
    if list.is_empty() || list.len() > MOST_PARTIES {
        return 1;
    }
    if parts.len() != shares.len() {
        return 1;
    }
    if !(-MOST_AMOUNT..=MOST_AMOUNT).contains(&amount) {
        return 2;
    }
    if list.iter().any(|share| !(0..=MOST_SHARE).contains(share)) {
        return 2;
    }
    if list.iter().sum::<i64>() == 0 && amount != 0 {
        return 7;
    }
    parts.copy_from_slice(&numbers::bytes(&parts_of(amount, &list)));
    0
}

/// The parts of an amount within its range, over shares within theirs that do
/// not total 0 unless the amount is 0.
pub fn parts_of(amount: i64, shares: &[i64]) -> Vec<i64> {
    let size = i128::from(amount).abs();
    let total: i128 = shares.iter().map(|&share| i128::from(share)).sum();
    if total == 0 {
        return vec![0; shares.len()];
    }

    // Cut down.
    let products: Vec<i128> = shares
        .iter()
        .map(|&share| size * i128::from(share))
        .collect();
    let mut parts: Vec<i128> = products.iter().map(|product| product / total).collect();

    // The units left go to the largest remainders, the earlier first.
    let mut parties: Vec<usize> = (0..shares.len()).collect();
    parties.sort_by_key(|&party| (-(products[party] % total), party));
    let left = size - parts.iter().sum::<i128>();
    for &party in &parties[..left as usize] {
        parts[party] += 1;
    }

    // The sign is put back.
    let sign = i128::from(amount.signum());
    parts.iter().map(|part| (sign * part) as i64).collect()
}

#[cfg(test)]
mod tests {
    use super::*;
    use crate::cases;
    use crate::random::Random;
    use crate::vectors;

    /// The answer and, where it is 0, the parts. A refusal must leave the
    /// output as it was.
    fn outcome(amount: i64, shares: &[i64]) -> Result<Vec<i64>, u32> {
        let before = vec![0xa5; 8 * shares.len()];
        let mut parts = before.clone();
        match split(amount, &numbers::bytes(shares), &mut parts) {
            0 => Ok(numbers::read(&parts).unwrap()),
            number => {
                assert_eq!(parts, before);
                Err(number)
            }
        }
    }

    #[test]
    fn cases_of_document_01() {
        assert_eq!(outcome(10, &[1, 1, 1]), Ok(vec![4, 3, 3])); // P1
        assert_eq!(outcome(-10, &[1, 1, 1]), Ok(vec![-4, -3, -3])); // P2
        assert_eq!(outcome(5, &[0, 1]), Ok(vec![0, 5])); // P3
        assert_eq!(outcome(100, &[1, 2, 3]), Ok(vec![17, 33, 50])); // P4
        assert_eq!(outcome(1, &[1, 1]), Ok(vec![1, 0])); // P5
        assert_eq!(outcome(0, &[0]), Ok(vec![0])); // P6
        assert_eq!(outcome(1, &[0]), Err(7)); // P7
        assert_eq!(outcome(1_000_000_001, &[1]), Err(2));
        assert_eq!(outcome(1, &[]), Err(1));
    }

    #[test]
    fn splits_inside_the_other_cases() {
        // P11, P12, the contract, and the credits of the statement.
        assert_eq!(outcome(660, &[100, 200, 300]), Ok(vec![110, 220, 330]));
        assert_eq!(outcome(601, &[100, 200, 300]), Ok(vec![100, 200, 301]));
        assert_eq!(outcome(10, &[500_000, 333_333, 166_667]), Ok(vec![5, 3, 2]));
        assert_eq!(outcome(1390, &[200_000, 100_000]), Ok(vec![927, 463]));
    }

    #[test]
    fn limits() {
        let most = [MOST_SHARE; MOST_PARTIES];
        let even = MOST_AMOUNT / 64;
        assert_eq!(outcome(MOST_AMOUNT, &most), Ok(vec![even; 64]));
        assert_eq!(outcome(-MOST_AMOUNT, &most), Ok(vec![-even; 64]));
        assert_eq!(outcome(MOST_AMOUNT, &[MOST_SHARE]), Ok(vec![MOST_AMOUNT]));
        assert_eq!(outcome(-MOST_AMOUNT - 1, &[1]), Err(2));
        assert_eq!(outcome(i64::MIN, &[1]), Err(2));
        assert_eq!(outcome(1, &[1, MOST_SHARE + 1]), Err(2));
        assert_eq!(outcome(1, &[1, -1]), Err(2));
        assert_eq!(outcome(1, &[i64::MIN, i64::MIN]), Err(2));
        assert_eq!(outcome(1, &[1; 65]), Err(1));
    }

    #[test]
    fn order_of_refusals() {
        assert_eq!(outcome(MOST_AMOUNT + 1, &[-1; 65]), Err(1));
        assert_eq!(outcome(MOST_AMOUNT + 1, &[0, 0]), Err(2));
        assert_eq!(outcome(1, &[-1, 1]), Err(2));
        for (shares, parts) in [
            (0, 8),
            (8, 0),
            (8, 7),
            (8, 9),
            (7, 8),
            (9, 8),
            (12, 12),
            (16, 8),
        ] {
            let mut written = vec![0xa5; parts];
            assert_eq!(split(MOST_AMOUNT + 1, &vec![0xff; shares], &mut written), 1);
            assert_eq!(written, vec![0xa5; parts]);
        }
    }

    #[test]
    fn vectors() {
        for (line, f) in vectors::read("split") {
            let mut parts = numbers::unhex(&f[2]);
            let number = split(f[0].parse().unwrap(), &numbers::unhex(&f[1]), &mut parts);
            assert_eq!(number.to_string(), f[3], "line {line}");
            assert_eq!(parts, numbers::unhex(&f[4]), "line {line}");
        }
    }

    /// Demand 3 and the rule for the units left, on every accepted case.
    #[test]
    fn properties() {
        let mut random = Random::new(3);
        let mut accepted = 0;
        for turn in 0..20_000 {
            let case = cases::split::case(turn, &mut random);
            let mut parts = case.parts.clone();
            if split(case.amount, &case.shares, &mut parts) != 0 {
                assert_eq!(parts, case.parts);
                continue;
            }
            accepted += 1;
            let shares = numbers::read(&case.shares).unwrap();
            let parts = numbers::read(&parts).unwrap();
            hold(case.amount, &shares, &parts);
        }
        assert!(accepted > 10_000);
    }

    fn hold(amount: i64, shares: &[i64], parts: &[i64]) {
        let total: i64 = shares.iter().sum();
        assert_eq!(parts.iter().sum::<i64>(), amount);
        if total == 0 {
            assert!(parts.iter().all(|&part| part == 0));
            return;
        }
        let size = amount.abs();
        // What a party has beyond its cut proportion, and the remainder.
        let mut further = Vec::new();
        for (&share, &part) in shares.iter().zip(parts) {
            let more = part.abs() - size * share / total;
            assert!(more == 0 || more == 1);
            assert!(part == 0 || part.signum() == amount.signum());
            assert!(share != 0 || part == 0);
            further.push((more, size * share % total));
        }
        for i in 0..shares.len() {
            for j in 0..shares.len() {
                assert!(shares[i] <= shares[j] || parts[i].abs() >= parts[j].abs());
                // A unit goes to no party before one of a larger remainder,
                // or an earlier one of the same.
                let (more, remainder) = further[i];
                let (other_more, other) = further[j];
                let before = remainder > other || (remainder == other && i < j);
                assert!(!before || more >= other_more);
            }
        }
    }
}
