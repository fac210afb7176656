//! All refusals, and how the report shows them.

use crate::keeper::Fault;
use std::fmt;

#[derive(Clone, Copy, Debug, PartialEq, Eq)]
pub enum Refusal {
    UnknownMember,
    NoInstrument,
    BadValue,
    FreeLimit,
    PastDay,
    OrderNumber,
    OrdersFull,
    OrderNotLive,
    Mismatch,
    BadLots,
    ContractNumber,
    ContractsFull,
    ContractNotLive,
    ContractState,
    WrongDay,
    /// The money keeper's fault, and the register that it names.
    Money(Fault, usize),
    /// The goods keeper's fault, and the register that it names.
    Goods(Fault, usize),
    LongLine,
    UnknownVerb,
    FieldCount,
    /// The place of the first field that is not in its form.
    NotInForm(usize),
    Misplaced,
    LongSheet,
}

impl Refusal {
    /// Layer, number and place.
    fn shown(self) -> (char, u8, usize) {
        match self {
            Refusal::UnknownMember => ('B', 11, 0),
            Refusal::NoInstrument => ('B', 12, 0),
            Refusal::BadValue => ('B', 13, 0),
            Refusal::FreeLimit => ('B', 15, 0),
            Refusal::PastDay => ('B', 16, 0),
            Refusal::OrderNumber => ('B', 21, 0),
            Refusal::OrdersFull => ('B', 22, 0),
            Refusal::OrderNotLive => ('B', 23, 0),
            Refusal::Mismatch => ('B', 24, 0),
            Refusal::BadLots => ('B', 25, 0),
            Refusal::ContractNumber => ('B', 26, 0),
            Refusal::ContractsFull => ('B', 27, 0),
            Refusal::ContractNotLive => ('B', 31, 0),
            Refusal::ContractState => ('B', 32, 0),
            Refusal::WrongDay => ('B', 33, 0),
            Refusal::Money(fault, register) => ('M', fault as u8, register),
            Refusal::Goods(fault, register) => ('G', fault as u8, register),
            Refusal::LongLine => ('S', 51, 0),
            Refusal::UnknownVerb => ('S', 52, 0),
            Refusal::FieldCount => ('S', 53, 0),
            Refusal::NotInForm(place) => ('S', 54, place),
            Refusal::Misplaced => ('S', 55, 0),
            Refusal::LongSheet => ('S', 56, 0),
        }
    }
}

impl fmt::Display for Refusal {
    fn fmt(&self, f: &mut fmt::Formatter) -> fmt::Result {
        let (layer, number, place) = self.shown();
        write!(f, "{layer},{number},{place}")
    }
}

/// Refuses unless the condition holds.
pub fn ensure(holds: bool, refusal: Refusal) -> Result<(), Refusal> {
    if holds { Ok(()) } else { Err(refusal) }
}
