//! The section book: every call is accepted with two numbers, or refused and changes nothing.

use crate::call::{Call, Half, MoneyRegister, NewOrder, Trade};
use crate::keeper::{Entry, MOST, Table};
use crate::live::{Contract, Hold, Order, Side, State};
use crate::refusal::{Refusal, ensure};
use crate::terms::{INSTRUMENTS, Kind, LAST_DAY, LOTS, PRICES, Row, TOP_RATE, in_force};

const MOST_MEMBERS: usize = 64;
const MOST_LIVE: usize = 256;
const MOST_REPORTED: u64 = 1_000_000_000;
/// Days after the delivery end on which a shipment is still taken.
const DAYS_OF_GRACE: u64 = 4;

/// The two numbers of an acceptance.
pub type Answer = (u64, u64);
type Outcome = Result<Answer, Refusal>;

pub struct Book<'a> {
    money: Table<'a>,
    goods: Table<'a>,
    rows: [Option<Row>; INSTRUMENTS],
    members: usize,
    orders: Vec<Order>,
    contracts: Vec<Contract>,
    last_order: u64,
    last_contract: u64,
    day: u64,
    half: Half,
}

impl<'a> Book<'a> {
    pub fn open(rows: &[Row], money: Table<'a>, goods: Table<'a>) -> Self {
        let members = MOST_MEMBERS.min(money.count() / 2).min(goods.count() / INSTRUMENTS);
        Self {
            money,
            goods,
            rows: in_force(rows),
            members,
            orders: Vec::with_capacity(MOST_LIVE),
            contracts: Vec::with_capacity(MOST_LIVE),
            last_order: 0,
            last_contract: 0,
            day: 0,
            half: Half::Trading,
        }
    }

    pub fn take(&mut self, call: Call) -> Outcome {
        ensure(call.is_for(self.half), Refusal::Misplaced)?;
        match call {
            Call::Deposit { member, register, amount } => self.deposit(member, register, amount),
            Call::Withdrawal { member, register, amount } => {
                self.withdraw(member, register, amount)
            }
            Call::Shift { member, source, amount } => self.shift(member, source, amount),
            Call::GoodsDeposit { member, instrument, kilograms } => {
                self.deposit_goods(member, instrument, kilograms)
            }
            Call::GoodsWithdrawal { member, instrument, kilograms } => {
                self.withdraw_goods(member, instrument, kilograms)
            }
            Call::Order(order) => self.order(order),
            Call::Cancel { order } => self.cancel(order),
            Call::Trade(trade) => self.trade(trade),
            Call::Rating { instrument, rate } => self.rate(instrument, rate),
            Call::CloseTrading => Ok(self.close_trading()),
            Call::Funding { contract } => self.fund(contract),
            Call::Delivery { contract, kilograms } => self.deliver(contract, kilograms),
            Call::Default { contract } => self.default(contract),
            Call::CloseSession => Ok(self.close_session()),
        }
    }

    pub fn members(&self) -> std::ops::Range<usize> {
        0..self.members
    }
}

/// Amounts, holds and free limits.
impl Book<'_> {
    pub fn position(&self, member: usize) -> u64 {
        self.money[position_of(member)]
    }

    pub fn clearing(&self, member: usize) -> u64 {
        self.money[clearing_of(member)]
    }

    pub fn free_position(&self, member: usize) -> i64 {
        let by_orders: u64 = self
            .orders
            .iter()
            .filter(|order| order.member == member)
            .map(|order| order.money_hold(self.terms(order.instrument)))
            .sum();
        let by_contracts: u64 = self
            .contracts
            .iter()
            .map(|contract| contract.position_hold(member, self.terms(contract.instrument)))
            .sum();
        free(self.position(member), by_orders + by_contracts)
    }

    pub fn free_clearing(&self, member: usize) -> i64 {
        let held = self
            .contracts
            .iter()
            .filter(|contract| contract.buyer == member)
            .map(Contract::due)
            .sum();
        free(self.clearing(member), held)
    }

    fn free_goods(&self, member: usize, instrument: usize) -> i64 {
        let row = self.terms(instrument);
        let by_orders: u64 = self
            .orders
            .iter()
            .filter(|order| order.member == member && order.instrument == instrument)
            .map(|order| order.goods_hold(row))
            .sum();
        let by_contracts: u64 = self
            .contracts
            .iter()
            .filter(|contract| contract.seller == member && contract.instrument == instrument)
            .map(|contract| contract.kilograms_held(row))
            .sum();
        free(self.goods[goods_of(member, instrument)], by_orders + by_contracts)
    }

    fn free_money(&self, member: usize, register: MoneyRegister) -> i64 {
        match register {
            MoneyRegister::Position => self.free_position(member),
            MoneyRegister::Clearing => self.free_clearing(member),
        }
    }

    /// The row of an instrument that is known to be in force.
    fn terms(&self, instrument: usize) -> &Row {
        self.rows[instrument].as_ref().expect("the instrument is in force")
    }
}

/// What the calls look up, each with its refusal.
impl Book<'_> {
    fn known(&self, member: u64) -> Result<usize, Refusal> {
        usize::try_from(member)
            .ok()
            .filter(|&member| member < self.members)
            .ok_or(Refusal::UnknownMember)
    }

    fn instrument(&self, number: u64) -> Result<usize, Refusal> {
        usize::try_from(number)
            .ok()
            .filter(|&number| matches!(self.rows.get(number), Some(Some(_))))
            .ok_or(Refusal::NoInstrument)
    }

    fn warehouse_instrument(&self, number: u64) -> Result<usize, Refusal> {
        let instrument = self.instrument(number)?;
        ensure(self.terms(instrument).kind == Kind::Warehouse, Refusal::NoInstrument)?;
        Ok(instrument)
    }

    fn live_order(&self, number: u64) -> Result<usize, Refusal> {
        self.orders.iter().position(|order| order.number == number).ok_or(Refusal::OrderNotLive)
    }

    fn live_contract(&self, number: u64) -> Result<usize, Refusal> {
        self.contracts
            .iter()
            .position(|contract| contract.number == number)
            .ok_or(Refusal::ContractNotLive)
    }

    /// Posts at most one entry at each keeper, after both have been asked.
    fn post(&mut self, money: Option<Entry>, goods: Option<Entry>) -> Result<(), Refusal> {
        if let Some(entry) = money {
            self.money.check(entry).map_err(|fault| Refusal::Money(fault, entry.register()))?;
        }
        if let Some(entry) = goods {
            self.goods.check(entry).map_err(|fault| Refusal::Goods(fault, entry.register()))?;
        }
        if let Some(entry) = money {
            self.money.post(entry);
        }
        if let Some(entry) = goods {
            self.goods.post(entry);
        }
        Ok(())
    }
}

/// Money and goods brought, taken and shifted.
impl Book<'_> {
    fn deposit(&mut self, member: u64, register: MoneyRegister, amount: u64) -> Outcome {
        let to = money_of(self.known(member)?, register);
        check_amount(amount)?;
        self.post(Some(Entry::Credit { to, amount }), None)?;
        Ok((self.money[to], 0))
    }

    fn withdraw(&mut self, member: u64, register: MoneyRegister, amount: u64) -> Outcome {
        let member = self.known(member)?;
        check_amount(amount)?;
        check_free(self.free_money(member, register), amount)?;
        let from = money_of(member, register);
        self.post(Some(Entry::Debit { from, amount }), None)?;
        Ok((self.money[from], 0))
    }

    fn shift(&mut self, member: u64, source: MoneyRegister, amount: u64) -> Outcome {
        let member = self.known(member)?;
        check_amount(amount)?;
        check_free(self.free_money(member, source), amount)?;
        let (from, to) = match source {
            MoneyRegister::Position => (position_of(member), clearing_of(member)),
            MoneyRegister::Clearing => (clearing_of(member), position_of(member)),
        };
        self.post(Some(Entry::Transfer { from, to, amount }), None)?;
        Ok((self.position(member), self.clearing(member)))
    }

    fn deposit_goods(&mut self, member: u64, instrument: u64, kilograms: u64) -> Outcome {
        let member = self.known(member)?;
        let to = goods_of(member, self.warehouse_instrument(instrument)?);
        check_amount(kilograms)?;
        self.post(None, Some(Entry::Credit { to, amount: kilograms }))?;
        Ok((self.goods[to], 0))
    }

    fn withdraw_goods(&mut self, member: u64, instrument: u64, kilograms: u64) -> Outcome {
        let member = self.known(member)?;
        let instrument = self.warehouse_instrument(instrument)?;
        check_amount(kilograms)?;
        check_free(self.free_goods(member, instrument), kilograms)?;
        let from = goods_of(member, instrument);
        self.post(None, Some(Entry::Debit { from, amount: kilograms }))?;
        Ok((self.goods[from], 0))
    }
}

/// Orders, trades, ratings and the closings.
impl Book<'_> {
    fn order(&mut self, new: NewOrder) -> Outcome {
        let member = self.known(new.member)?;
        let instrument = self.instrument(new.instrument)?;
        let in_limits = PRICES.contains(&new.price)
            && LOTS.contains(&new.lots)
            && new.last_day.is_none_or(|day| day <= LAST_DAY);
        ensure(in_limits, Refusal::BadValue)?;
        ensure(new.last_day.is_none_or(|day| day >= self.day), Refusal::PastDay)?;
        ensure(new.number > self.last_order, Refusal::OrderNumber)?;
        ensure(self.orders.len() < MOST_LIVE, Refusal::OrdersFull)?;
        let order = Order {
            number: new.number,
            member,
            side: new.side,
            instrument,
            price: new.price,
            rest: new.lots,
            last_day: new.last_day,
        };
        let (hold, limit) = match order.hold(self.terms(instrument)) {
            Hold::Money(hold) => (hold, self.free_position(member)),
            Hold::Goods(hold) => (hold, self.free_goods(member, instrument)),
        };
        check_free(limit, hold)?;
        self.last_order = order.number;
        self.orders.push(order);
        Ok((hold, 0))
    }

    fn cancel(&mut self, number: u64) -> Outcome {
        let at = self.live_order(number)?;
        let order = self.orders.swap_remove(at);
        Ok((order.rest, 0))
    }

    fn trade(&mut self, trade: Trade) -> Outcome {
        let buy_at = self.live_order(trade.buy_order)?;
        let sell_at = self.live_order(trade.sell_order)?;
        let (buy, sell) = (&self.orders[buy_at], &self.orders[sell_at]);
        ensure(matching(buy, sell, trade.price), Refusal::Mismatch)?;
        ensure((1..=buy.rest.min(sell.rest)).contains(&trade.lots), Refusal::BadLots)?;
        ensure(trade.contract > self.last_contract, Refusal::ContractNumber)?;
        ensure(self.contracts.len() < MOST_LIVE, Refusal::ContractsFull)?;
        let row = self.terms(buy.instrument);
        let contract = Contract {
            number: trade.contract,
            buyer: buy.member,
            seller: sell.member,
            instrument: buy.instrument,
            buy_price: buy.price,
            sell_price: sell.price,
            price: trade.price,
            lots: trade.lots,
            funding_day: self.day + row.funding_days,
            delivery_end: self.day + row.delivery_days,
            state: State::Unfunded,
        };
        let answer = (contract.buyer_charge(row), contract.seller_charge(row));
        self.last_contract = contract.number;
        self.contracts.push(contract);
        self.orders[buy_at].rest -= trade.lots;
        self.orders[sell_at].rest -= trade.lots;
        self.orders.retain(|order| order.rest > 0);
        Ok(answer)
    }

    fn rate(&mut self, instrument: u64, rate: u64) -> Outcome {
        let instrument = self.instrument(instrument)?;
        ensure(rate <= TOP_RATE, Refusal::BadValue)?;
        if let Some(row) = &mut self.rows[instrument] {
            row.rate = rate;
        }
        let demands = self.members().filter(|&member| self.free_position(member) < 0).count();
        Ok((demands as u64, 0))
    }

    fn close_trading(&mut self) -> Answer {
        let before = self.orders.len();
        self.orders.retain(|order| order.last_day != Some(self.day));
        self.half = Half::Session;
        ((before - self.orders.len()) as u64, 0)
    }

    fn close_session(&mut self) -> Answer {
        self.day = LAST_DAY.min(self.day + 1);
        self.half = Half::Trading;
        (0, 0)
    }
}

/// Events of a contract.
impl Book<'_> {
    fn fund(&mut self, number: u64) -> Outcome {
        let at = self.live_contract(number)?;
        let contract = &self.contracts[at];
        ensure(matches!(contract.state, State::Unfunded), Refusal::ContractState)?;
        ensure(self.day <= contract.funding_day, Refusal::WrongDay)?;
        let cost = contract.cost();
        check_free(self.free_clearing(contract.buyer), cost)?;
        self.contracts[at].state = State::Funded { delivered: 0, paid: 0 };
        Ok((cost, 0))
    }

    fn deliver(&mut self, number: u64, kilograms: u64) -> Outcome {
        let at = self.live_contract(number)?;
        let contract = &self.contracts[at];
        let State::Funded { delivered, paid } = contract.state else {
            return Err(Refusal::ContractState);
        };
        ensure((1..=MOST_REPORTED).contains(&kilograms), Refusal::BadValue)?;
        let row = self.terms(contract.instrument);
        let in_time = self.day <= contract.delivery_end + DAYS_OF_GRACE;
        ensure(row.kind == Kind::Warehouse || in_time, Refusal::WrongDay)?;
        let full_weight = contract.lots * row.lot_weight;
        let counted = kilograms.min(full_weight - delivered);
        let delivered = delivered + counted;
        let payment = contract.price * delivered / row.lot_weight - paid;
        let (buyer, seller) = (contract.buyer, contract.seller);
        let money = transfer(clearing_of(buyer), clearing_of(seller), payment);
        let goods = match row.kind {
            Kind::Warehouse => transfer(
                goods_of(seller, contract.instrument),
                goods_of(buyer, contract.instrument),
                counted,
            ),
            Kind::Shipment => None,
        };
        self.post(money, goods)?;
        if delivered == full_weight {
            self.contracts.swap_remove(at);
        } else {
            self.contracts[at].state = State::Funded { delivered, paid: paid + payment };
        }
        Ok((counted, payment))
    }

    fn default(&mut self, number: u64) -> Outcome {
        let at = self.live_contract(number)?;
        let contract = &self.contracts[at];
        let row = self.terms(contract.instrument);
        let (failing, other, penalty) = match (contract.state, row.kind) {
            (State::Unfunded, _) => {
                ensure(self.day > contract.funding_day, Refusal::WrongDay)?;
                (contract.buyer, contract.seller, contract.buyer_charge(row))
            }
            (State::Funded { .. }, Kind::Warehouse) => return Err(Refusal::ContractState),
            (State::Funded { .. }, Kind::Shipment) => {
                let too_late = self.day > contract.delivery_end + DAYS_OF_GRACE;
                ensure(too_late, Refusal::WrongDay)?;
                (contract.seller, contract.buyer, contract.seller_charge(row))
            }
        };
        let paid = penalty.min(self.position(failing));
        self.post(transfer(position_of(failing), position_of(other), paid), None)?;
        self.contracts.swap_remove(at);
        Ok((paid, penalty - paid))
    }
}

fn position_of(member: usize) -> usize {
    2 * member
}

fn clearing_of(member: usize) -> usize {
    2 * member + 1
}

fn money_of(member: usize, register: MoneyRegister) -> usize {
    match register {
        MoneyRegister::Position => position_of(member),
        MoneyRegister::Clearing => clearing_of(member),
    }
}

fn goods_of(member: usize, instrument: usize) -> usize {
    INSTRUMENTS * member + instrument
}

fn free(amount: u64, held: u64) -> i64 {
    amount as i64 - held as i64
}

fn check_amount(amount: u64) -> Result<(), Refusal> {
    ensure((1..=MOST).contains(&amount), Refusal::BadValue)
}

fn check_free(limit: i64, sum: u64) -> Result<(), Refusal> {
    ensure(limit >= sum as i64, Refusal::FreeLimit)
}

fn matching(buy: &Order, sell: &Order, price: u64) -> bool {
    buy.side == Side::Buy
        && sell.side == Side::Sell
        && buy.instrument == sell.instrument
        && buy.member != sell.member
        && (sell.price..=buy.price).contains(&price)
}

/// A transfer, or no entry for a sum of 0.
fn transfer(from: usize, to: usize, amount: u64) -> Option<Entry> {
    (amount > 0).then_some(Entry::Transfer { from, to, amount })
}
