#!/usr/bin/env python3
"""A plain model of the clearing program.

Reads a day sheet (any bytes) on standard input and prints what the program
must print. Nothing here is shared with the program: the rules are written
down a second time, in the simplest way, so that the two can be compared.
"""

import argparse
import sys
from dataclasses import dataclass
from typing import Callable, Optional

LIMIT = 10**15          # largest amount of one entry, and of a keeper's sum
TOP_PRICE = 10**9
TOP_LOTS = 10_000
TOP_DELIVERY = 10**9    # kilograms in one delivery report
LAST_DAY = 36_500
LIVE_LIMIT = 256        # live orders, and live contracts
MEMBERS = 64
INSTRUMENTS = 16
MONEY_REGISTERS = 128
GOODS_REGISTERS = 1_024
SHEET_BYTES = 65_536
LINE_BYTES = 120


class Refused(Exception):
    """A refusal: layer S, B, M or G, its number, and a place or register."""

    def __init__(self, layer, number, where=0):
        super().__init__(layer, number, where)
        self.layer, self.number, self.where = layer, number, where


def refuse_if(condition, number):
    """Refuses a call in the book's own name."""
    if condition:
        raise Refused("B", number)


# --- keepers -----------------------------------------------------------------

@dataclass(frozen=True)
class Entry:
    """A credit has no giver, a debit no receiver, a transfer has both."""
    giver: Optional[int]
    receiver: Optional[int]
    amount: int

    def registers(self):
        return [r for r in (self.giver, self.receiver) if r is not None]

    def named_register(self):
        """The register shown with a refusal: the receiver if there is one."""
        return self.giver if self.receiver is None else self.receiver

    def __str__(self):
        """As the program's own type is printed."""
        if self.giver is None:
            return f"Credit {{ receiver: {self.receiver}, amount: {self.amount} }}"
        if self.receiver is None:
            return f"Debit {{ giver: {self.giver}, amount: {self.amount} }}"
        return f"Transfer {{ giver: {self.giver}, receiver: {self.receiver}, amount: {self.amount} }}"


# What a test has in each place of a list that it lends to a journal.
UNWRITTEN = Entry(None, 0, 0)


class Keeper:
    """What both keepers have in common: when an entry is refused."""

    def refusal(self, entry):
        """The lowest number that stands against the entry, or 0."""
        if any(r >= self.count() for r in entry.registers()):
            return 1
        if entry.amount == 0 or entry.amount > LIMIT:
            return 2
        if entry.giver == entry.receiver:
            return 3
        if entry.giver is not None and self.amount(entry.giver) < entry.amount:
            return 4
        if entry.giver is None and self.total() + entry.amount > LIMIT:
            return 5
        if self.need(entry) > self.spare():
            return 6
        return 0

    def total(self):
        return sum(self.amount(r) for r in range(self.count()))


class TableKeeper(Keeper):
    """One place for each register; never short of room."""

    def __init__(self, registers):
        self.places = [0] * min(registers, 1_024)

    def count(self):
        return len(self.places)

    def amount(self, register):
        return self.places[register]

    def spare(self):
        return 0

    def need(self, entry):
        return 0

    def write(self, entry):
        if entry.giver is not None:
            self.places[entry.giver] -= entry.amount
        if entry.receiver is not None:
            self.places[entry.receiver] += entry.amount


class JournalKeeper(Keeper):
    """A list of entries; each accepted entry takes the next place."""

    def __init__(self, registers, places):
        self.registers = min(registers, 1_024)
        self.places = min(places, 65_535)
        self.written = []

    def count(self):
        return self.registers

    def amount(self, register):
        """What came in less what went out."""
        came = sum(e.amount for e in self.written if e.receiver == register)
        went = sum(e.amount for e in self.written if e.giver == register)
        return came - went

    def total(self):
        """Transfers leave the sum; only credits and debits change it."""
        came = sum(e.amount for e in self.written if e.giver is None)
        went = sum(e.amount for e in self.written if e.receiver is None)
        return came - went

    def spare(self):
        return self.places - len(self.written)

    def need(self, entry):
        return 1

    def write(self, entry):
        self.written.append(entry)

    def list(self):
        """Every place of the list that was lent."""
        return self.written + [UNWRITTEN] * self.spare()


# --- charge ------------------------------------------------------------------

@dataclass(frozen=True)
class Rule:
    """A top rate, and what one lot is charged at a rate and a price."""
    top: int
    one_lot: Callable[[int, int], int]

    def charge(self, rate, price, lots):
        if rate > self.top or not 1 <= price <= TOP_PRICE or lots > TOP_LOTS:
            return 0
        return self.one_lot(rate, price) * lots


# Rates are ten-thousandths of the price, and a lot's charge is rounded up.
PERCENT = Rule(10_000, lambda rate, price: -(-price * rate // 10_000))
# The rate is the charge.
FLAT = Rule(10**9, lambda rate, price: rate)


# --- records of the book -----------------------------------------------------

@dataclass
class Row:
    number: int
    kind: str
    weight: int
    funding_days: int
    delivery_days: int
    rate: int
    rule: Rule

    def charge(self, price, lots):
        return self.rule.charge(self.rate, price, lots)

    def is_good(self):
        return (self.number < INSTRUMENTS
                and 1 <= self.weight <= 100_000
                and self.funding_days <= self.delivery_days <= 90
                and self.rate <= self.rule.top)


@dataclass
class Order:
    member: int
    side: str
    row: Row
    price: int
    rest: int
    last_day: Optional[int]

    def charge(self):
        """Money held in the position register; a W sell holds goods instead."""
        if self.side == "S" and self.row.kind == "W":
            return 0
        return self.row.charge(self.price, self.rest)

    def goods(self):
        if self.side == "S" and self.row.kind == "W":
            return self.rest * self.row.weight
        return 0


@dataclass
class Contract:
    buyer: int
    seller: int
    row: Row
    buy_price: int
    sell_price: int
    price: int
    lots: int
    funding_day: int
    delivery_end: int
    funded: bool = False
    delivered: int = 0
    paid: int = 0

    def weight(self):
        return self.lots * self.row.weight

    def open_weight(self):
        return self.weight() - self.delivered

    def buyer_charge(self):
        """Held at the buy order's price until the contract is funded."""
        if self.funded:
            return 0
        return self.row.charge(self.buy_price, self.lots)

    def seller_charge(self):
        """Held at the sell order's price for all lots, in kind S only."""
        if self.row.kind == "W":
            return 0
        return self.row.charge(self.sell_price, self.lots)

    def due(self):
        """Held in the buyer's clearing register once funded."""
        return self.price * self.lots - self.paid if self.funded else 0

    def goods(self):
        return self.open_weight() if self.row.kind == "W" else 0


def position_register(member):
    return 2 * member


def clearing_register(member):
    return 2 * member + 1


def money_register(member, letter):
    return position_register(member) if letter == "P" else clearing_register(member)


def goods_register(member, instrument):
    return 16 * member + instrument


def open_rows(rows):
    """Bad rows are skipped; of good rows with one number the first stays."""
    kept = {}
    for row in rows:
        if row.is_good():
            kept.setdefault(row.number, row)
    return kept


# --- the book ----------------------------------------------------------------

class Book:
    """Both halves of the day; the sheet sees to it that a call fits the half.

    Each call returns its two answers or raises Refused with nothing changed.
    """

    def __init__(self, rows, money, goods):
        self.rows = open_rows(rows)
        self.money, self.goods = money, goods
        self.half = "trading"
        self.day = 0
        self.orders, self.contracts = {}, {}    # the live ones, by number
        self.top_order = self.top_contract = 0  # highest number accepted

    # limits

    def known(self, member):
        return (member < MEMBERS
                and clearing_register(member) < self.money.count()
                and goods_register(member, 15) < self.goods.count())

    def free_position(self, member):
        """May be below zero."""
        free = self.money.amount(position_register(member))
        for order in self.orders.values():
            if order.member == member:
                free -= order.charge()
        for contract in self.contracts.values():
            if contract.buyer == member:
                free -= contract.buyer_charge()
            if contract.seller == member:
                free -= contract.seller_charge()
        return free

    def free_clearing(self, member):
        dues = sum(c.due() for c in self.contracts.values() if c.buyer == member)
        return self.money.amount(clearing_register(member)) - dues

    def free_money(self, member, letter):
        return self.free_position(member) if letter == "P" else self.free_clearing(member)

    def free_goods(self, member, row):
        free = self.goods.amount(goods_register(member, row.number))
        for order in self.orders.values():
            if order.member == member and order.row is row:
                free -= order.goods()
        for contract in self.contracts.values():
            if contract.seller == member and contract.row is row:
                free -= contract.goods()
        return free

    def short_members(self):
        """Members with a margin demand."""
        return sum(self.known(m) and self.free_position(m) < 0 for m in range(MEMBERS))

    # entries

    def enter(self, money_entry=None, goods_entry=None):
        """Asks both keepers, money first, before the first entry is made."""
        planned = [("M", self.money, money_entry), ("G", self.goods, goods_entry)]
        planned = [p for p in planned if p[2] is not None and p[2].amount != 0]
        for layer, keeper, entry in planned:
            number = keeper.refusal(entry)
            if number:
                raise Refused(layer, number, entry.named_register())
        for _, keeper, entry in planned:
            keeper.write(entry)

    # money and goods of members

    def deposit(self, member, letter, amount):
        refuse_if(not self.known(member), 11)
        refuse_if(not 1 <= amount <= LIMIT, 13)
        register = money_register(member, letter)
        self.enter(money_entry=Entry(None, register, amount))
        return self.money.amount(register), 0

    def withdraw(self, member, letter, amount):
        refuse_if(not self.known(member), 11)
        refuse_if(not 1 <= amount <= LIMIT, 13)
        refuse_if(self.free_money(member, letter) < amount, 15)
        register = money_register(member, letter)
        self.enter(money_entry=Entry(register, None, amount))
        return self.money.amount(register), 0

    def shift(self, member, source, amount):
        refuse_if(not self.known(member), 11)
        refuse_if(not 1 <= amount <= LIMIT, 13)
        refuse_if(self.free_money(member, source) < amount, 15)
        giver = money_register(member, source)
        receiver = money_register(member, "C" if source == "P" else "P")
        self.enter(money_entry=Entry(giver, receiver, amount))
        return (self.money.amount(position_register(member)),
                self.money.amount(clearing_register(member)))

    def goods_row(self, member, instrument, amount):
        """The checks that goods deposits and withdrawals share."""
        refuse_if(not self.known(member), 11)
        row = self.rows.get(instrument)
        refuse_if(row is None or row.kind == "S", 12)
        refuse_if(not 1 <= amount <= LIMIT, 13)
        return row

    def goods_in(self, member, instrument, amount):
        self.goods_row(member, instrument, amount)
        register = goods_register(member, instrument)
        self.enter(goods_entry=Entry(None, register, amount))
        return self.goods.amount(register), 0

    def goods_out(self, member, instrument, amount):
        row = self.goods_row(member, instrument, amount)
        refuse_if(self.free_goods(member, row) < amount, 15)
        register = goods_register(member, instrument)
        self.enter(goods_entry=Entry(register, None, amount))
        return self.goods.amount(register), 0

    # orders, trades, ratings

    def order(self, number, member, side, instrument, price, lots, last_day):
        refuse_if(not self.known(member), 11)
        row = self.rows.get(instrument)
        refuse_if(row is None, 12)
        refuse_if(not 1 <= price <= TOP_PRICE, 13)
        refuse_if(not 1 <= lots <= TOP_LOTS, 13)
        refuse_if(last_day is not None and last_day > LAST_DAY, 13)
        refuse_if(last_day is not None and last_day < self.day, 16)
        refuse_if(number <= self.top_order, 21)
        refuse_if(len(self.orders) >= LIVE_LIMIT, 22)
        order = Order(member, side, row, price, lots, last_day)
        hold = self.order_hold_within_limit(order)
        self.orders[number] = order
        self.top_order = number
        return hold, 0

    def order_hold_within_limit(self, order):
        """The hold: kilograms for a sell in kind W, else money."""
        if order.side == "S" and order.row.kind == "W":
            hold, free = order.goods(), self.free_goods(order.member, order.row)
        else:
            hold, free = order.charge(), self.free_position(order.member)
        refuse_if(free < hold, 15)
        return hold

    def cancel(self, number):
        refuse_if(number not in self.orders, 23)
        return self.orders.pop(number).rest, 0

    def trade(self, number, buy_number, sell_number, price, lots):
        refuse_if(buy_number not in self.orders or sell_number not in self.orders, 23)
        buy, sell = self.orders[buy_number], self.orders[sell_number]
        refuse_if(not self.orders_meet(buy, sell, price), 24)
        refuse_if(lots == 0 or lots > buy.rest or lots > sell.rest, 25)
        refuse_if(number <= self.top_contract, 26)
        refuse_if(len(self.contracts) >= LIVE_LIMIT, 27)
        row = buy.row
        contract = Contract(buy.member, sell.member, row, buy.price, sell.price, price,
                            lots, self.day + row.funding_days, self.day + row.delivery_days)
        self.contracts[number] = contract
        self.top_contract = number
        for order_number in (buy_number, sell_number):
            self.lower_rest(order_number, lots)
        return contract.buyer_charge(), contract.seller_charge()

    @staticmethod
    def orders_meet(buy, sell, price):
        return (buy.side == "B" and sell.side == "S"
                and buy.row is sell.row
                and buy.member != sell.member
                and sell.price <= price <= buy.price)

    def lower_rest(self, number, lots):
        self.orders[number].rest -= lots
        if self.orders[number].rest == 0:
            del self.orders[number]

    def rate(self, instrument, rate):
        row = self.rows.get(instrument)
        refuse_if(row is None, 12)
        refuse_if(rate > row.rule.top, 13)
        row.rate = rate
        return self.short_members(), 0

    # events of a contract

    def live_contract(self, number):
        refuse_if(number not in self.contracts, 31)
        return self.contracts[number]

    def fund(self, number):
        contract = self.live_contract(number)
        refuse_if(contract.funded, 32)
        refuse_if(self.day > contract.funding_day, 33)
        refuse_if(self.free_clearing(contract.buyer) < contract.price * contract.lots, 15)
        contract.funded = True
        return contract.due(), 0

    def deliver(self, number, kilograms):
        contract = self.live_contract(number)
        row = contract.row
        refuse_if(not contract.funded, 32)
        refuse_if(not 1 <= kilograms <= TOP_DELIVERY, 13)
        refuse_if(row.kind == "S" and self.day > contract.delivery_end + 4, 33)
        counted = min(kilograms, contract.open_weight())
        # Rounded down once over all kilograms so far, never for one report alone.
        owed = contract.price * (contract.delivered + counted) // row.weight
        payment = owed - contract.paid
        self.enter(self.payment_entry(contract, payment), self.goods_entry(contract, counted))
        contract.delivered += counted
        contract.paid += payment
        if contract.open_weight() == 0:
            del self.contracts[number]
        return counted, payment

    @staticmethod
    def payment_entry(contract, payment):
        return Entry(clearing_register(contract.buyer),
                     clearing_register(contract.seller), payment)

    @staticmethod
    def goods_entry(contract, counted):
        if contract.row.kind == "S":
            return None
        instrument = contract.row.number
        return Entry(goods_register(contract.seller, instrument),
                     goods_register(contract.buyer, instrument), counted)

    def default(self, number):
        contract = self.live_contract(number)
        if not contract.funded:
            refuse_if(self.day <= contract.funding_day, 33)
            failing, other = contract.buyer, contract.seller
            penalty = contract.buyer_charge()
        else:
            refuse_if(contract.row.kind == "W", 32)
            refuse_if(self.day < contract.delivery_end + 5, 33)
            failing, other = contract.seller, contract.buyer
            penalty = contract.seller_charge()
        giver, receiver = position_register(failing), position_register(other)
        paid = min(penalty, self.money.amount(giver))
        self.enter(money_entry=Entry(giver, receiver, paid))
        del self.contracts[number]
        return paid, penalty - paid

    # closings

    def close_trading(self):
        """Drops the orders that end today and tells how many."""
        ending = [n for n, o in self.orders.items() if o.last_day == self.day]
        for number in ending:
            del self.orders[number]
        self.half = "session"
        return len(ending), 0

    def close_session(self):
        self.day = min(self.day + 1, LAST_DAY)
        self.half = "trading"
        return 0, 0

    # report

    def member_lines(self):
        for member in filter(self.known, range(MEMBERS)):
            position = self.money.amount(position_register(member))
            clearing = self.money.amount(clearing_register(member))
            free = self.free_position(member)
            if position or clearing or free:
                yield f"M,{member},{position},{clearing},{free},{self.free_clearing(member)}"


# --- the sheet ---------------------------------------------------------------

# For each verb the forms of its fields: n a number, e a number or nothing,
# else the letters that may stand there; then the halves that take it; then
# the call. INS has no half: it belongs before the opening.
BOTH, TRADING, SESSION = ("trading", "session"), ("trading",), ("session",)
VERBS = {
    b"INS": (("n", "WS", "n", "n", "n", "n"), (), None),
    b"DEP": (("n", "PC", "n"), BOTH, Book.deposit),
    b"WDR": (("n", "PC", "n"), TRADING, Book.withdraw),
    b"SHF": (("n", "PC", "n"), TRADING, Book.shift),
    b"GIN": (("n", "n", "n"), BOTH, Book.goods_in),
    b"GOT": (("n", "n", "n"), TRADING, Book.goods_out),
    b"ORD": (("n", "n", "BS", "n", "n", "n", "e"), TRADING, Book.order),
    b"CXL": (("n",), TRADING, Book.cancel),
    b"TRD": (("n", "n", "n", "n", "n"), TRADING, Book.trade),
    b"RTE": (("n", "n"), TRADING, Book.rate),
    b"EOT": ((), TRADING, Book.close_trading),
    b"FND": (("n",), SESSION, Book.fund),
    b"DLV": (("n", "n"), SESSION, Book.deliver),
    b"DFT": (("n",), SESSION, Book.default),
    b"EOD": ((), SESSION, Book.close_session),
}


def split_lines(sheet):
    """Each feed ends a line; a rest after the last feed is a line too."""
    lines = sheet.split(b"\n")
    if lines[-1] == b"":
        lines.pop()
    return lines


def first_field(line):
    return line.split(b",", 1)[0]


def is_number(text):
    """1 to 16 ASCII digits; a leading zero only in 0 itself."""
    digits = all(byte in b"0123456789" for byte in text)
    return 1 <= len(text) <= 16 and digits and (text == b"0" or text[:1] != b"0")


def read_field(form, text, place):
    """The field's value, or refusal 54 with its place."""
    if form == "e" and text == b"":
        return None
    if form in ("n", "e"):
        if is_number(text):
            return int(text)
    elif len(text) == 1 and text in form.encode():
        return text.decode()
    raise Refused("S", 54, place)


def read_line(line):
    """The verb and its field values: the checks 51 to 54 in sequence."""
    if len(line) > LINE_BYTES:
        raise Refused("S", 51)
    verb, *fields = line.split(b",")
    if verb not in VERBS:
        raise Refused("S", 52)
    forms = VERBS[verb][0]
    if len(fields) != len(forms):
        raise Refused("S", 53)
    pairs = zip(forms, fields)
    return verb, [read_field(form, text, place + 1) for place, (form, text) in enumerate(pairs)]


class Run:
    """Rows are collected until the book opens; then calls go to the book."""

    def __init__(self, money, goods, rule):
        self.money, self.goods, self.rule = money, goods, rule
        self.rows = []
        self.book = None

    def take(self, line):
        # The first line that does not begin with INS opens the book,
        # whatever becomes of that line.
        if self.book is None and first_field(line) != b"INS":
            self.book = Book(self.rows, self.money, self.goods)
        verb, values = read_line(line)
        if verb == b"INS":
            return self.take_row(values)
        _, halves, call = VERBS[verb]
        if self.book.half not in halves:
            raise Refused("S", 55)
        return call(self.book, *values)

    def take_row(self, values):
        if self.book is not None:
            raise Refused("S", 55)
        self.rows.append(Row(*values, self.rule))
        return 0, 0


def run_sheet(sheet, money, goods, rule=PERCENT):
    """All lines that the program prints for the sheet."""
    if len(sheet) > SHEET_BYTES:
        yield "0,R,S,56,0"
        return
    run = Run(money, goods, rule)
    for number, line in enumerate(split_lines(sheet), 1):
        try:
            first, second = run.take(line)
            yield f"{number},A,{first},{second}"
        except Refused as r:
            yield f"{number},R,{r.layer},{r.number},{r.where}"
    if run.book is not None:
        yield from run.book.member_lines()


def make_keepers(journal):
    if journal is None:
        return TableKeeper(MONEY_REGISTERS), TableKeeper(GOODS_REGISTERS)
    return (JournalKeeper(MONEY_REGISTERS, journal[0]),
            JournalKeeper(GOODS_REGISTERS, journal[1]))


def main():
    parser = argparse.ArgumentParser(description="Model of the clearing program.")
    parser.add_argument("--journal", nargs=2, type=int,
                        metavar=("MONEY_PLACES", "GOODS_PLACES"),
                        help="journal keepers with so many places instead of tables")
    parser.add_argument("--flat", action="store_true", help="the flat rule instead of percent")
    options = parser.parse_args()
    money, goods = make_keepers(options.journal)
    rule = FLAT if options.flat else PERCENT
    for line in run_sheet(sys.stdin.buffer.read(), money, goods, rule):
        sys.stdout.write(line + "\n")


if __name__ == "__main__":
    main()
