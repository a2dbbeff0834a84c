//! A row of a file or a transaction: as bits, as numbers, and tested.

use super::{Answer, MOST_KW};

/// A transaction's location is its source. Where there is no seller, it is the
/// participant; where there is no sink, it is the location.
#[derive(Clone, Copy)]
pub struct Row {
    pub market: u64,
    pub kind: u64,
    pub interval: u64,
    pub participant: u64,
    pub seller: u64,
    pub location: u64,
    pub sink: u64,
    pub kw: u64,
    pub spare: u64,
}

impl Row {
    pub fn position([market, kind, interval, participant, location, kw]: [u64; 6]) -> Row {
        Row {
            market,
            kind,
            interval,
            participant,
            seller: participant,
            location,
            sink: location,
            kw,
            spare: 0,
        }
    }

    pub fn path([market, interval, participant, source, sink, kw]: [u64; 6]) -> Row {
        Row::sale([market, interval, participant, participant, source, sink, kw])
    }

    pub fn sale([market, interval, participant, seller, source, sink, kw]: [u64; 7]) -> Row {
        Row {
            market,
            kind: 0,
            interval,
            participant,
            seller,
            location: source,
            sink,
            kw,
            spare: 0,
        }
    }

    /// The lowest 48 bits of a word.
    pub fn unpack_position(word: u64) -> Row {
        let row = Row::position([
            word >> 47 & 1,
            word >> 44 & 7,
            word >> 40 & 15,
            word >> 34 & 63,
            word >> 28 & 63,
            word >> 3 & 0x1ff_ffff,
        ]);
        let spare = word & 7;
        Row { spare, ..row }
    }

    /// The lowest 48 bits of a word.
    pub fn unpack_path(word: u64) -> Row {
        Row::path([
            word >> 47 & 1,
            word >> 43 & 15,
            word >> 37 & 63,
            word >> 31 & 63,
            word >> 25 & 63,
            word & 0x1ff_ffff,
        ])
    }

    /// The lowest 56 bits of a word.
    pub fn unpack_sale(word: u64) -> Row {
        let row = Row::sale([
            word >> 55 & 1,
            word >> 51 & 15,
            word >> 45 & 63,
            word >> 39 & 63,
            word >> 33 & 63,
            word >> 27 & 63,
            word >> 2 & 0x1ff_ffff,
        ]);
        let spare = word & 3;
        Row { spare, ..row }
    }

    pub fn pack_position(&self) -> u64 {
        let when = self.market << 47 | self.kind << 44 | self.interval << 40;
        when | self.participant << 34 | self.location << 28 | self.kw << 3
    }

    pub fn pack_path(&self) -> u64 {
        let when = self.market << 47 | self.interval << 43;
        when | self.participant << 37 | self.location << 31 | self.sink << 25 | self.kw
    }

    pub fn pack_sale(&self) -> u64 {
        let when = self.market << 55 | self.interval << 51;
        let who = self.participant << 45 | self.seller << 39;
        when | who | self.location << 33 | self.sink << 27 | self.kw << 2
    }
}

pub struct Limits {
    pub participants: u64,
    pub locations: u64,
}

impl Limits {
    #[inline]
    pub fn test(&self, row: &Row) -> Answer {
        if self.pass(row) {
            Ok(())
        } else {
            Err(self.refusal(*row))
        }
    }

    /// All tests as one bool.
    fn pass(&self, row: &Row) -> bool {
        has_stage(row)
            && (row.participant < self.participants)
            && (row.seller < self.participants)
            && (row.location < self.locations)
            && (row.sink < self.locations)
            && (row.kw <= MOST_KW as u64)
            && (row.spare == 0)
    }

    /// Of one that doesn't pass.
    #[cold]
    fn refusal(&self, row: Row) -> u32 {
        if !has_stage(&row) {
            4
        } else if row.participant.max(row.seller) >= self.participants
            || row.location.max(row.sink) >= self.locations
        {
            3
        } else if row.kw > MOST_KW as u64 {
            2
        } else {
            9
        }
    }
}

/// Whether there is the market, and it has the kind and the interval. In a list any
/// numbers may stand there.
fn has_stage(row: &Row) -> bool {
    let (market, kind) = (row.market.min(2), row.kind.min(8));
    (market <= 1) && (kind + 2 * market <= 5) && (row.interval <= 11 * market)
}
