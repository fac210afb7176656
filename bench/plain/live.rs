//! Live orders and contracts, and what each of them holds.

use crate::terms::{Kind, Row};

#[derive(Clone, Copy, Debug, PartialEq, Eq)]
pub enum Side {
    Buy,
    Sell,
}

#[derive(Debug)]
pub struct Order {
    pub number: u64,
    pub member: usize,
    pub side: Side,
    pub instrument: usize,
    pub price: u64,
    pub rest: u64,
    pub last_day: Option<u64>,
}

/// What is reserved: kopecks of a position register, or kilograms of a goods register.
pub enum Hold {
    Money(u64),
    Goods(u64),
}

impl Order {
    pub fn hold(&self, row: &Row) -> Hold {
        match (self.side, row.kind) {
            (Side::Sell, Kind::Warehouse) => Hold::Goods(self.rest * row.lot_weight),
            _ => Hold::Money(row.charge(self.price, self.rest)),
        }
    }

    pub fn money_hold(&self, row: &Row) -> u64 {
        match self.hold(row) {
            Hold::Money(kopecks) => kopecks,
            Hold::Goods(_) => 0,
        }
    }

    pub fn goods_hold(&self, row: &Row) -> u64 {
        match self.hold(row) {
            Hold::Money(_) => 0,
            Hold::Goods(kilograms) => kilograms,
        }
    }
}

#[derive(Clone, Copy, Debug)]
pub enum State {
    Unfunded,
    /// Kilograms delivered and payments to date.
    Funded {
        delivered: u64,
        paid: u64,
    },
}

#[derive(Debug)]
pub struct Contract {
    pub number: u64,
    pub buyer: usize,
    pub seller: usize,
    pub instrument: usize,
    pub buy_price: u64,
    pub sell_price: u64,
    pub price: u64,
    pub lots: u64,
    pub funding_day: u64,
    pub delivery_end: u64,
    pub state: State,
}

impl Contract {
    pub fn cost(&self) -> u64 {
        self.price * self.lots
    }

    pub fn buyer_charge(&self, row: &Row) -> u64 {
        match self.state {
            State::Unfunded => row.charge(self.buy_price, self.lots),
            State::Funded { .. } => 0,
        }
    }

    pub fn seller_charge(&self, row: &Row) -> u64 {
        match row.kind {
            Kind::Warehouse => 0,
            Kind::Shipment => row.charge(self.sell_price, self.lots),
        }
    }

    /// What it holds of a member's position register.
    pub fn position_hold(&self, member: usize, row: &Row) -> u64 {
        if self.buyer == member {
            self.buyer_charge(row)
        } else if self.seller == member {
            self.seller_charge(row)
        } else {
            0
        }
    }

    /// What it holds of the buyer's clearing register.
    pub fn due(&self) -> u64 {
        match self.state {
            State::Unfunded => 0,
            State::Funded { paid, .. } => self.cost() - paid,
        }
    }

    /// What it holds of the seller's goods register.
    pub fn kilograms_held(&self, row: &Row) -> u64 {
        match (row.kind, self.state) {
            (Kind::Shipment, _) => 0,
            (Kind::Warehouse, State::Unfunded) => self.lots * row.lot_weight,
            (Kind::Warehouse, State::Funded { delivered, .. }) => {
                self.lots * row.lot_weight - delivered
            }
        }
    }
}
