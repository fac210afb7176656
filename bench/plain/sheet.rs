//! Lines of a day sheet and their fields.

use crate::call::{Call, MoneyRegister, NewOrder, Trade};
use crate::live::Side;
use crate::refusal::{Refusal, ensure};
use crate::terms::{Kind, Row};

pub const MOST_BYTES: usize = 65_536;

const LONGEST_LINE: usize = 120;
const MOST_DIGITS: usize = 16;

pub enum Line {
    Instrument(Row),
    Call(Call),
}

/// The lines without their feeds. Bytes after the last feed are a line, if there are any.
pub fn lines_of(sheet: &[u8]) -> impl Iterator<Item = &[u8]> {
    sheet
        .split_inclusive(|&byte| byte == b'\n')
        .map(|line| line.strip_suffix(b"\n").unwrap_or(line))
}

/// Whether the first field is `INS`: such a line never opens the book.
pub fn names_instrument(line: &[u8]) -> bool {
    line.split(|&byte| byte == b',').next() == Some(b"INS")
}

/// Reads a line; its refusals are 51 to 54, in this sequence.
pub fn read_line(line: &[u8]) -> Result<Line, Refusal> {
    ensure(line.len() <= LONGEST_LINE, Refusal::LongLine)?;
    let mut fields = line.split(|&byte| byte == b',');
    let verb = fields.next().and_then(Verb::from_field).ok_or(Refusal::UnknownVerb)?;
    ensure(fields.clone().count() == verb.field_count(), Refusal::FieldCount)?;
    verb.read(&mut Fields { fields, place: 0 })
}

enum Verb {
    Ins,
    Dep,
    Wdr,
    Shf,
    Gin,
    Got,
    Ord,
    Cxl,
    Trd,
    Rte,
    Eot,
    Fnd,
    Dlv,
    Dft,
    Eod,
}

impl Verb {
    fn from_field(field: &[u8]) -> Option<Self> {
        Some(match field {
            b"INS" => Verb::Ins,
            b"DEP" => Verb::Dep,
            b"WDR" => Verb::Wdr,
            b"SHF" => Verb::Shf,
            b"GIN" => Verb::Gin,
            b"GOT" => Verb::Got,
            b"ORD" => Verb::Ord,
            b"CXL" => Verb::Cxl,
            b"TRD" => Verb::Trd,
            b"RTE" => Verb::Rte,
            b"EOT" => Verb::Eot,
            b"FND" => Verb::Fnd,
            b"DLV" => Verb::Dlv,
            b"DFT" => Verb::Dft,
            b"EOD" => Verb::Eod,
            _ => return None,
        })
    }

    /// The number of fields after the verb.
    fn field_count(&self) -> usize {
        match self {
            Verb::Eot | Verb::Eod => 0,
            Verb::Cxl | Verb::Fnd | Verb::Dft => 1,
            Verb::Rte | Verb::Dlv => 2,
            Verb::Dep | Verb::Wdr | Verb::Shf | Verb::Gin | Verb::Got => 3,
            Verb::Trd => 5,
            Verb::Ins => 6,
            Verb::Ord => 7,
        }
    }

    fn read<'a>(
        self,
        fields: &mut Fields<impl Iterator<Item = &'a [u8]>>,
    ) -> Result<Line, Refusal> {
        Ok(Line::Call(match self {
            Verb::Ins => return fields.row().map(Line::Instrument),
            Verb::Dep => {
                let (member, register, amount) = fields.money()?;
                Call::Deposit { member, register, amount }
            }
            Verb::Wdr => {
                let (member, register, amount) = fields.money()?;
                Call::Withdrawal { member, register, amount }
            }
            Verb::Shf => {
                let (member, source, amount) = fields.money()?;
                Call::Shift { member, source, amount }
            }
            Verb::Gin => {
                let (member, instrument, kilograms) = fields.goods()?;
                Call::GoodsDeposit { member, instrument, kilograms }
            }
            Verb::Got => {
                let (member, instrument, kilograms) = fields.goods()?;
                Call::GoodsWithdrawal { member, instrument, kilograms }
            }
            Verb::Ord => Call::Order(fields.order()?),
            Verb::Cxl => Call::Cancel { order: fields.number()? },
            Verb::Trd => Call::Trade(fields.trade()?),
            Verb::Rte => Call::Rating { instrument: fields.number()?, rate: fields.number()? },
            Verb::Eot => Call::CloseTrading,
            Verb::Fnd => Call::Funding { contract: fields.number()? },
            Verb::Dlv => Call::Delivery { contract: fields.number()?, kilograms: fields.number()? },
            Verb::Dft => Call::Default { contract: fields.number()? },
            Verb::Eod => Call::CloseSession,
        }))
    }
}

/// The fields after the verb; `place` is that of the field read last.
struct Fields<I> {
    fields: I,
    place: usize,
}

impl<'a, I: Iterator<Item = &'a [u8]>> Fields<I> {
    /// Reads the next field; none at all is read like an empty one.
    fn read<T>(&mut self, form: impl FnOnce(&[u8]) -> Option<T>) -> Result<T, Refusal> {
        self.place += 1;
        let field = self.fields.next().unwrap_or_default();
        form(field).ok_or(Refusal::NotInForm(self.place))
    }

    fn number(&mut self) -> Result<u64, Refusal> {
        self.read(number)
    }

    fn row(&mut self) -> Result<Row, Refusal> {
        Ok(Row {
            number: self.number()?,
            kind: self.read(kind)?,
            lot_weight: self.number()?,
            funding_days: self.number()?,
            delivery_days: self.number()?,
            rate: self.number()?,
        })
    }

    fn money(&mut self) -> Result<(u64, MoneyRegister, u64), Refusal> {
        Ok((self.number()?, self.read(money_register)?, self.number()?))
    }

    fn goods(&mut self) -> Result<(u64, u64, u64), Refusal> {
        Ok((self.number()?, self.number()?, self.number()?))
    }

    fn order(&mut self) -> Result<NewOrder, Refusal> {
        Ok(NewOrder {
            number: self.number()?,
            member: self.number()?,
            side: self.read(side)?,
            instrument: self.number()?,
            price: self.number()?,
            lots: self.number()?,
            last_day: self.read(last_day)?,
        })
    }

    fn trade(&mut self) -> Result<Trade, Refusal> {
        Ok(Trade {
            contract: self.number()?,
            buy_order: self.number()?,
            sell_order: self.number()?,
            price: self.number()?,
            lots: self.number()?,
        })
    }
}

fn number(field: &[u8]) -> Option<u64> {
    match field {
        b"0" => Some(0),
        [b'1'..=b'9', ..] if field.len() <= MOST_DIGITS => {
            field.iter().try_fold(0, |value, byte| match byte {
                b'0'..=b'9' => Some(10 * value + u64::from(byte - b'0')),
                _ => None,
            })
        }
        _ => None,
    }
}

fn money_register(field: &[u8]) -> Option<MoneyRegister> {
    match field {
        b"P" => Some(MoneyRegister::Position),
        b"C" => Some(MoneyRegister::Clearing),
        _ => None,
    }
}

fn side(field: &[u8]) -> Option<Side> {
    match field {
        b"B" => Some(Side::Buy),
        b"S" => Some(Side::Sell),
        _ => None,
    }
}

fn kind(field: &[u8]) -> Option<Kind> {
    match field {
        b"W" => Some(Kind::Warehouse),
        b"S" => Some(Kind::Shipment),
        _ => None,
    }
}

fn last_day(field: &[u8]) -> Option<Option<u64>> {
    if field.is_empty() { Some(None) } else { number(field).map(Some) }
}
