#!/usr/bin/env python3
"""Prints a random day sheet; the seed is the first argument.

Each line goes through the model as it is written, so that the next one can
name orders and contracts that live. Most values fit; some are left to chance,
and some are spoiled on purpose, so that refusals come about as often.
"""

import random
import sys

import model

MEMBERS = 6             # most lines are about these few
ROWS = (0, 1, 2, 3)     # even ones mostly of kind W, odd ones of kind S
LENGTH = 300


class Generator:
    def __init__(self, seed):
        self.pick = random.Random(seed)
        self.lines = []
        self.run = model.Run(*model.make_keepers(None), model.PERCENT)

    def number(self, low, high):
        return self.pick.randint(low, max(low, high))

    def chance(self, percent):
        return self.pick.random() * 100 < percent

    def member(self):
        return self.pick.choice((63, 64, 99)) if self.chance(3) else self.number(0, MEMBERS - 1)

    def row(self):
        return self.number(4, 17) if self.chance(3) else self.pick.choice(ROWS)

    def add_bytes(self, line):
        self.lines.append(line)
        try:
            self.run.take(line)
        except model.Refused:
            pass

    def add(self, *fields):
        self.add_bytes(",".join(str(field) for field in fields).encode())

    # opening

    def add_rows(self):
        for row in ROWS:
            kind = "WS"[row % 2] if self.chance(95) else self.pick.choice("WSX")
            funding = self.number(0, 3)
            delivery = funding + self.number(0, 4) - (1 if self.chance(5) else 0)
            weight = self.pick.choice((1, 3, 7, 10, 1000))
            rate = self.pick.choice((0, 1, 33, 500, 1250, 10000))
            self.add("INS", row, kind, weight, funding, max(delivery, 0), rate)
            if self.chance(15):
                self.add("INS", self.number(0, 17), "S", self.number(0, 2), 1, 1, 100)

    def add_funds(self):
        for member in range(MEMBERS):
            self.add("DEP", member, "P", self.number(100, 4000))
            self.add("DEP", member, "C", self.number(500, 4000))
            for row in ROWS:
                if self.chance(70 if row % 2 == 0 else 10):
                    self.add("GIN", member, row, self.number(1, 20000))

    # accounts

    def money(self):
        verb = self.pick.choice(("DEP", "WDR", "SHF"))
        amount = self.number(1, 900)
        if self.chance(6):
            amount = self.pick.choice((0, 10**15, 10**15 + 1, 10**16 - 1, 10**15 - 30000))
        self.add(verb, self.member(), self.pick.choice("PC"), amount)

    def goods(self):
        amount = self.number(1, 3000)
        if self.chance(6):
            amount = self.pick.choice((0, 10**15, 10**15 + 1, 10**15 - 200000))
        row = self.row() if self.chance(20) else self.pick.choice(ROWS[::2])
        self.add(self.pick.choice(("GIN", "GOT", "GOT")), self.member(), row, amount)

    # exchange

    def add_order(self, member, side, row, price):
        top = self.run.book.top_order
        number = top + 1 + (self.number(1, 3) if self.chance(10) else 0)
        if self.chance(4):
            number = self.number(0, top)
        lots = self.pick.choice((0, 10000, 10001)) if self.chance(4) else self.number(1, 5)
        self.add("ORD", number, member, side, row, price, lots, self.last_day())

    def last_day(self):
        if self.chance(65):
            return ""
        if self.chance(8):
            return self.pick.choice((36500, 36501, 0))
        return max(0, self.run.book.day + self.number(-1, 3) + self.chance(50))

    def price(self):
        if self.chance(3):
            return self.pick.choice((0, 1, 10**9, 10**9 + 1))
        return self.number(90, 130)

    def single_order(self):
        self.add_order(self.member(), self.pick.choice("BS"), self.row(), self.price())

    def orders_pair(self):
        """Two orders that can meet, and perhaps a trade."""
        buyer, seller = self.member(), self.member()
        row, price = self.row(), self.price()
        self.add_order(buyer, "B", row, price + self.number(0, 4))
        self.add_order(seller, "S", row, max(price - self.number(0, 4), 0))
        if self.chance(60):
            self.trade()

    def meeting_orders(self):
        """A pair of live orders; if there is one, a pair that can meet."""
        live = list(self.run.book.orders.items())
        fitting = [(b, s) for b in live for s in live
                   if model.Book.orders_meet(b[1], s[1], s[1].price)]
        if fitting and self.chance(80):
            return self.pick.choice(fitting)
        return (self.pick.choice(live), self.pick.choice(live)) if live else None

    def trade(self):
        pair = self.meeting_orders()
        if pair is None:
            return
        (buy_number, buy), (sell_number, sell) = pair
        top = self.run.book.top_contract
        number = top + 1 if self.chance(95) else self.number(0, top + 3)
        price = self.number(sell.price, buy.price) if self.chance(92) else self.price()
        lots = self.number(1, min(buy.rest, sell.rest, 5))
        if self.chance(8):
            lots = self.pick.choice((0, lots + 1, 10000))
        if self.chance(4):
            sell_number = self.number(0, sell_number + 9)
        self.add("TRD", number, buy_number, sell_number, price, lots)

    def cancel(self):
        live = list(self.run.book.orders)
        number = self.number(0, self.run.book.top_order + 2)
        self.add("CXL", self.pick.choice(live) if live and self.chance(70) else number)

    def rating(self):
        rate = self.pick.choice((0, 1, 33, 100, 500, 777, 2500, 10000, 10001))
        self.add("RTE", self.row(), rate)

    # session

    def some_contract(self, fits):
        """A live contract, by preference one that fits; or any number."""
        live = self.run.book.contracts
        if not live or self.chance(7):
            return self.number(0, self.run.book.top_contract + 2)
        fitting = [n for n, contract in live.items() if fits(contract)]
        return self.pick.choice(fitting if fitting and self.chance(75) else list(live))

    def funding(self):
        self.add("FND", self.some_contract(lambda c: not c.funded))

    def delivery(self):
        amount = self.pick.choice((1, 2, 3, 5, 10, 400, 999, 5000, 10**9))
        if self.chance(5):
            amount = self.pick.choice((0, 10**9 + 1))
        self.add("DLV", self.some_contract(lambda c: c.funded), amount)

    def default(self):
        day = self.run.book.day
        late = self.number(-1, 2)       # about the first day that allows it
        self.add("DFT", self.some_contract(
            lambda c: day + late > (c.delivery_end + 4 if c.funded else c.funding_day)))

    # damage

    def odd_line(self):
        """A line that is often not in its form, or not for this half."""
        if self.chance(30):
            self.add_bytes(self.pick.choice((
                b"", b",", b"INS,1,W,1,0,0,0", b"EOT,", b"EOX", b"dep,1,P,1", b"DEP,1,P",
                b"X" * self.number(115, 125), b"DEP,1,P,1\r", b"DEP,1,\xc3\x9f,1",
                b"INS," + b"1" * 117, b"ORD,1,1,B,0,1,1", b"DEP,1,P,00", b"\xff\xfe\x00")))
            return
        line = bytearray(self.pick.choice(self.lines))
        for _ in range(self.number(0, 2)):
            if line:
                spot = self.number(0, len(line) - 1)
                line[spot] = self.pick.choice(b"0011223456789,,PCBSWDE x\r\x00\xe9")
        self.add_bytes(bytes(line))

    # course of the days

    def one_of(self, *steps):
        calls, weights = zip(*steps)
        self.pick.choices(calls, weights)[0]()

    def trading_step(self):
        self.one_of((self.money, 20), (self.goods, 12), (self.orders_pair, 20),
                    (self.single_order, 12), (self.trade, 20), (self.cancel, 8),
                    (self.rating, 6), (self.odd_line, 4), (self.funding, 1), (self.default, 1))

    def session_step(self):
        self.one_of((self.funding, 30), (self.delivery, 40), (self.default, 16),
                    (self.money, 5), (self.goods, 3), (self.odd_line, 4), (self.cancel, 1))

    def day_of_lines(self):
        quiet = self.chance(40)
        for _ in range(0 if quiet else self.number(3, 22)):
            self.trading_step()
        self.add("EOT")
        for _ in range(self.number(0, 3) if quiet else self.number(2, 20)):
            self.session_step()
        self.add("EOD")

    def sheet(self):
        self.add_rows()
        if self.chance(20):
            self.odd_line()
        self.add_funds()
        while len(self.lines) < LENGTH:
            self.day_of_lines()
        for _ in range(self.number(0, 12)):
            self.trading_step()
        return b"\n".join(self.lines) + (b"" if self.chance(30) else b"\n")


def main():
    if len(sys.argv) != 2:
        raise SystemExit("usage: random_sheets.py SEED")
    sys.stdout.buffer.write(Generator(int(sys.argv[1])).sheet())


if __name__ == "__main__":
    main()
