//! Instruments, and the percent charge rule.

use std::ops::RangeInclusive;

pub const INSTRUMENTS: usize = 16;
pub const LAST_DAY: u64 = 36_500;
pub const TOP_RATE: u64 = 10_000;
pub const PRICES: RangeInclusive<u64> = 1..=1_000_000_000;
pub const LOTS: RangeInclusive<u64> = 1..=10_000;

const LOT_WEIGHTS: RangeInclusive<u64> = 1..=100_000;
const MOST_DAYS: u64 = 90;

#[derive(Clone, Copy, Debug, PartialEq, Eq)]
pub enum Kind {
    Warehouse,
    Shipment,
}

#[derive(Clone, Copy, Debug)]
pub struct Row {
    pub number: u64,
    pub kind: Kind,
    pub lot_weight: u64,
    pub funding_days: u64,
    pub delivery_days: u64,
    pub rate: u64,
}

impl Row {
    fn is_good(&self) -> bool {
        self.number < INSTRUMENTS as u64
            && LOT_WEIGHTS.contains(&self.lot_weight)
            && self.funding_days <= self.delivery_days
            && self.delivery_days <= MOST_DAYS
            && self.rate <= TOP_RATE
    }

    /// The charge at the rate in force: one lot rounded up, times the lots.
    pub fn charge(&self, price: u64, lots: u64) -> u64 {
        if self.rate > TOP_RATE || !PRICES.contains(&price) || !LOTS.contains(&lots) {
            return 0;
        }
        (price * self.rate).div_ceil(10_000) * lots
    }
}

/// The rows in force by number: the first good row of each.
pub fn in_force(rows: &[Row]) -> [Option<Row>; INSTRUMENTS] {
    let mut force = [None; INSTRUMENTS];
    for row in rows.iter().filter(|row| row.is_good()) {
        force[row.number as usize].get_or_insert(*row);
    }
    force
}
