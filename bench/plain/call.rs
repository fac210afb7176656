//! The calls on a book, and the half of the day that takes each of them.

use crate::live::Side;

#[derive(Clone, Copy, Debug, PartialEq, Eq)]
pub enum Half {
    Trading,
    Session,
}

#[derive(Clone, Copy, Debug)]
pub enum MoneyRegister {
    Position,
    Clearing,
}

#[derive(Clone, Copy, Debug)]
pub struct NewOrder {
    pub number: u64,
    pub member: u64,
    pub side: Side,
    pub instrument: u64,
    pub price: u64,
    pub lots: u64,
    pub last_day: Option<u64>,
}

#[derive(Clone, Copy, Debug)]
pub struct Trade {
    pub contract: u64,
    pub buy_order: u64,
    pub sell_order: u64,
    pub price: u64,
    pub lots: u64,
}

#[derive(Debug)]
pub enum Call {
    Deposit { member: u64, register: MoneyRegister, amount: u64 },
    Withdrawal { member: u64, register: MoneyRegister, amount: u64 },
    Shift { member: u64, source: MoneyRegister, amount: u64 },
    GoodsDeposit { member: u64, instrument: u64, kilograms: u64 },
    GoodsWithdrawal { member: u64, instrument: u64, kilograms: u64 },
    Order(NewOrder),
    Cancel { order: u64 },
    Trade(Trade),
    Rating { instrument: u64, rate: u64 },
    CloseTrading,
    Funding { contract: u64 },
    Delivery { contract: u64, kilograms: u64 },
    Default { contract: u64 },
    CloseSession,
}

impl Call {
    pub fn is_for(&self, half: Half) -> bool {
        match self {
            Call::Deposit { .. } | Call::GoodsDeposit { .. } => true,
            Call::Funding { .. }
            | Call::Delivery { .. }
            | Call::Default { .. }
            | Call::CloseSession => half == Half::Session,
            _ => half == Half::Trading,
        }
    }
}
