//! Cases of the participants that a file has: files of every family, and a few
//! bytes of any kind.

use super::counts;
use crate::counts::participants;
use crate::numbers::hex;
use crate::random::Random;

pub const HEADER: &str = "file\tnumber";

/// The case of a turn, as a line.
pub fn line(turn: usize, random: &mut Random) -> String {
    let file = draw(turn, random);
    format!("{}\t{}", hex(&file), participants(&file))
}

fn draw(turn: usize, random: &mut Random) -> Vec<u8> {
    match turn % 3 {
        0 => any_start(turn / 3, random),
        _ => counts::draw_file(turn - turn / 3, random),
    }
}

/// Each first byte, before none to six others.
fn any_start(round: usize, random: &mut Random) -> Vec<u8> {
    let len = random.index(7);
    [vec![round as u8], random.bytes(len)].concat()
}

#[cfg(test)]
mod tests {
    use super::*;
    use crate::exercise::read_header;

    #[test]
    fn families_reach_every_number() {
        let mut random = Random::new(1);
        let mut seen = [0; 65];
        for turn in 0..6_000 {
            seen[participants(&draw(turn, &mut random)) as usize] += 1;
        }
        assert!(seen.iter().all(|&times| times > 5), "{seen:?}");
    }

    /// Of a file that is accepted they are the header's.
    #[test]
    fn participants_are_the_header_s() {
        let mut random = Random::new(2);
        let mut tried = 0;
        for turn in 0..2_000 {
            let file = draw(turn, &mut random);
            if let Ok(header) = read_header(&file) {
                assert_eq!(participants(&file) as usize, header.participants);
                tried += 1;
            }
        }
        assert!(tried > 500, "{tried}");
    }
}
