//! A table keeper: one amount for each register, in places lent by the caller.

use std::ops::Index;

/// The most that one entry, and all amounts together, may come to.
pub const MOST: u64 = 1_000_000_000_000_000;

const MOST_REGISTERS: usize = 1_024;

/// Why an entry is refused. A table's needs are 0, so number 6 never comes up.
#[derive(Clone, Copy, Debug, PartialEq, Eq)]
pub enum Fault {
    NoRegister = 1,
    BadAmount = 2,
    SameRegister = 3,
    TooLittle = 4,
    TooMuch = 5,
}

#[derive(Clone, Copy, Debug)]
pub enum Entry {
    Credit { to: usize, amount: u64 },
    Debit { from: usize, amount: u64 },
    Transfer { from: usize, to: usize, amount: u64 },
}

impl Entry {
    /// The register that a fault names.
    pub fn register(self) -> usize {
        match self {
            Entry::Credit { to, .. } | Entry::Transfer { to, .. } => to,
            Entry::Debit { from, .. } => from,
        }
    }
}

pub struct Table<'a> {
    amounts: &'a mut [u64],
    total: u64,
}

impl<'a> Table<'a> {
    /// Opens a keeper over the first 1,024 places at most, all set to 0.
    pub fn open(places: &'a mut [u64]) -> Self {
        let count = places.len().min(MOST_REGISTERS);
        let amounts = &mut places[..count];
        amounts.fill(0);
        Self { amounts, total: 0 }
    }

    pub fn count(&self) -> usize {
        self.amounts.len()
    }

    fn amount(&self, register: usize) -> Result<u64, Fault> {
        self.amounts.get(register).copied().ok_or(Fault::NoRegister)
    }

    /// Says whether the entry would be accepted; of several faults, the lowest.
    pub fn check(&self, entry: Entry) -> Result<(), Fault> {
        match entry {
            Entry::Credit { to, amount } => {
                self.amount(to)?;
                check_amount(amount)?;
                ensure(self.total + amount <= MOST, Fault::TooMuch)
            }
            Entry::Debit { from, amount } => {
                let has = self.amount(from)?;
                check_amount(amount)?;
                ensure(amount <= has, Fault::TooLittle)
            }
            Entry::Transfer { from, to, amount } => {
                let has = self.amount(from)?;
                self.amount(to)?;
                check_amount(amount)?;
                ensure(from != to, Fault::SameRegister)?;
                ensure(amount <= has, Fault::TooLittle)
            }
        }
    }

    /// Posts an entry that `check` has passed.
    pub fn post(&mut self, entry: Entry) {
        match entry {
            Entry::Credit { to, amount } => {
                self.amounts[to] += amount;
                self.total += amount;
            }
            Entry::Debit { from, amount } => {
                self.amounts[from] -= amount;
                self.total -= amount;
            }
            Entry::Transfer { from, to, amount } => {
                self.amounts[from] -= amount;
                self.amounts[to] += amount;
            }
        }
    }
}

impl Index<usize> for Table<'_> {
    type Output = u64;

    fn index(&self, register: usize) -> &u64 {
        &self.amounts[register]
    }
}

fn check_amount(amount: u64) -> Result<(), Fault> {
    ensure((1..=MOST).contains(&amount), Fault::BadAmount)
}

fn ensure(holds: bool, fault: Fault) -> Result<(), Fault> {
    if holds { Ok(()) } else { Err(fault) }
}
