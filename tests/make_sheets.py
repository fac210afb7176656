#!/usr/bin/env python3
"""Writes the test sheets, and what the programs must print for them.

The sheets go to crates/test_sheets/data, their reports to its stdout, and the
sample to crates/daysheet too. Where a line stands with an answer, that answer
was worked out by hand and the model must agree with it; elsewhere the model
alone gives the expected output.
"""

import pathlib
import random

import model

CRATES = pathlib.Path(__file__).resolve().parent.parent / "crates"
PROGRAM = CRATES / "daysheet"
SHEETS = CRATES / "test_sheets"


class Sheet:
    """Lines of a sheet, and the answers known by hand, by line number."""

    def __init__(self):
        self.lines = []
        self.known = {}

    def add(self, line, answer=None):
        """One line; the answer is what follows its number in the output."""
        self.lines.append(line if isinstance(line, bytes) else line.encode())
        if answer is not None:
            self.known[len(self.lines)] = answer
        return self

    def table(self, text):
        """Lines of the form `line -> answer`; the answer may be missing."""
        for row in text.strip("\n").split("\n"):
            line, _, answer = row.partition(" -> ")
            self.add(line.rstrip(" "), answer or None)
        return self

    def days(self, count):
        """Closes both halves so often; no order may end on these days."""
        for _ in range(count):
            self.add("EOT", "A,0,0").add("EOD", "A,0,0")
        return self

    def text(self, last_feed=True):
        return b"\n".join(self.lines) + (b"\n" if last_feed else b"")


class Reports:
    """What the test program prints: days over tables, and then days over journals."""

    def __init__(self):
        self.tables, self.journals = [], []

    def text(self):
        return "".join(f"== {name}\n{out}" for name, out in self.tables + self.journals)


REPORTS = Reports()


def report(sheet, money, goods):
    return "".join(line + "\n" for line in model.run_sheet(sheet, money, goods))


def agree(name, sheet, members, out):
    """Stops unless the answers and the member lines known by hand are the model's."""
    lines = out.splitlines()
    for number, answer in (sheet.known if sheet else {}).items():
        want = f"{number},{answer}"
        if lines[number - 1] != want:
            raise SystemExit(f"{name}: {sheet.lines[number - 1]!r}: "
                             f"by hand {want}, model {lines[number - 1]}")
    if members is not None:
        tail = [line for line in lines if line.startswith("M,")]
        if tail != members.split():
            raise SystemExit(f"{name}: members by hand {members.split()}, model {tail}")


def write(name, text, sheet=None, members=None):
    """A day over tables."""
    out = report(text, *model.make_keepers(None))
    agree(name, sheet, members, out)
    (SHEETS / "data" / f"{name}.txt").write_bytes(text)
    REPORTS.tables.append((name, out))
    return out


def write_journals(name, text, places, sheet, members, entries):
    """A day over journals of so many places, and then every place of both."""
    money, goods = model.make_keepers(places)
    out = report(text, money, goods)
    agree(name, sheet, members, out)
    lists = [f"{keeper} {entry}" for keeper, journal in (("money", money), ("goods", goods))
             for entry in journal.list()]
    if lists != entries.strip("\n").split("\n"):
        raise SystemExit(f"{name}: entries by hand {entries}, model {lists}")
    (SHEETS / "data" / f"{name}.txt").write_bytes(text)
    REPORTS.journals.append((name, out + "".join(line + "\n" for line in lists)))


# --- sample: every answer by hand ---------------------------------------------

SAMPLE_PLACES = (6, 2)


def sample():
    sheet = Sheet().table("""
INS,0,S,60000,1,10,500 -> A,0,0
DEP,1,P,102 -> A,102,0
DEP,2,P,200 -> A,200,0
DEP,1,C,2020 -> A,2020,0
ORD,1,1,B,0,1010,2, -> A,102,0
ORD,2,2,S,0,1000,2, -> A,100,0
TRD,1,1,2,1010,1 -> A,51,50
WDR,1,P,1 -> R,B,15,0
EOT -> A,0,0
FND,1 -> A,1010,0
DLV,1,30000 -> A,30000,505
""")
    members = """
M,1,102,1515,51,1010
M,2,200,505,100,505
"""
    text = sheet.text()
    out = report(text, *model.make_keepers(None))
    agree("sample", sheet, members, out)
    (PROGRAM / "stdin").write_bytes(text)
    (PROGRAM / "stdout").write_text(out)
    write_journals("sample", text, SAMPLE_PLACES, sheet, members, """
money Credit { receiver: 2, amount: 102 }
money Credit { receiver: 4, amount: 200 }
money Credit { receiver: 3, amount: 2020 }
money Transfer { giver: 3, receiver: 5, amount: 505 }
money Credit { receiver: 0, amount: 0 }
money Credit { receiver: 0, amount: 0 }
goods Credit { receiver: 0, amount: 0 }
goods Credit { receiver: 0, amount: 0 }
""")


# --- accounts: every answer by hand -------------------------------------------

ACCOUNT_ROWS = """
INS,0,W,1000,1,10,500 -> A,0,0
INS,1,S,60000,1,10,500 -> A,0,0
INS,0,S,1,0,0,0 -> A,0,0
INS,16,W,1,0,0,0 -> A,0,0
INS,2,S,0,0,0,0 -> A,0,0
INS,2,S,100001,0,0,0 -> A,0,0
INS,2,S,1,5,4,0 -> A,0,0
INS,2,S,1,0,91,0 -> A,0,0
INS,2,S,1,0,0,10001 -> A,0,0
INS,2,W,100000,90,90,10000 -> A,0,0
INS,2,S,1,0,0,0 -> A,0,0
INS,3,X,1,0,0,0 -> R,S,54,2
INS,3,,1,0,0,0 -> R,S,54,2
INS,3,WS,1,0,0,0 -> R,S,54,2
INS,3,W,1,0,0 -> R,S,53,0
INS,3,W,1,0,0,0, -> R,S,53,0
INS,03,W,1,0,0,0 -> R,S,54,1
INS,3,W,01,0,0,0 -> R,S,54,3
INS,3,W,1,x,0,0 -> R,S,54,4
INS,3,W,1,0,-1,0 -> R,S,54,5
INS,3,W,1,0,0, -> R,S,54,6
INS,3,W,1,0,0,12345678901234567 -> R,S,54,6
INS,3,W,1,0,0,1234567890123456 -> A,0,0
INS -> R,S,53,0
"""

ACCOUNT_FORMS = """
INS,4,W,1,0,0,0 -> R,S,55,0
INS,4,Q,1,0,0,0 -> R,S,54,2
INS,4 -> R,S,53,0
GIN,0,4,5 -> R,B,12,0
DEP,0,P,100 -> A,100,0
DEP,64,P,100 -> R,B,11,0
DEP,63,C,7 -> A,7,0
DEP,9999999999999999,P,0 -> R,B,11,0
DEP,0,P,0 -> R,B,13,0
DEP,0,P,1000000000000001 -> R,B,13,0
DEP,0,P,9999999999999999 -> R,B,13,0
DEP,0,P,10000000000000000 -> R,S,54,3
DEP,0,P,0100 -> R,S,54,3
DEP,0,P,00 -> R,S,54,3
DEP,00,P,1 -> R,S,54,1
DEP,0,X,1 -> R,S,54,2
DEP,0,p,1 -> R,S,54,2
DEP,0,PC,1 -> R,S,54,2
DEP,,P,1 -> R,S,54,1
DEP,0,,1 -> R,S,54,2
DEP,0,P, -> R,S,54,3
DEP,x,Y,z -> R,S,54,1
DEP,0,P -> R,S,53,0
DEP,x -> R,S,53,0
DEP,0,P,1, -> R,S,53,0
DEP -> R,S,53,0
dep,0,P,1 -> R,S,52,0
DEPO,0,P,1 -> R,S,52,0
DE,0,P,1 -> R,S,52,0
 DEP,0,P,1 -> R,S,52,0
,DEP,0,P,1 -> R,S,52,0
DEP,0,P,+1 -> R,S,54,3
DEP,0,P,-1 -> R,S,54,3
DEP,0,P, 1 -> R,S,54,3
DEP,0,P,1.0 -> R,S,54,3
"""

ACCOUNT_CALLS = """
DEP,0,P,1000000000000000 -> R,M,5,0
DEP,0,P,999999999999893 -> A,999999999999993,0
DEP,5,C,1 -> R,M,5,11
DEP,63,P,1 -> R,M,5,126
WDR,0,P,999999999999994 -> R,B,15,0
WDR,0,P,999999999999993 -> A,0,0
WDR,0,P,1 -> R,B,15,0
WDR,63,C,8 -> R,B,15,0
WDR,63,C,6 -> A,1,0
WDR,64,C,0 -> R,B,11,0
WDR,0,C,0 -> R,B,13,0
WDR,0,C,1000000000000001 -> R,B,13,0
WDR,0,C,1000000000000000 -> R,B,15,0
DEP,1,P,102 -> A,102,0
SHF,1,P,2 -> A,100,2
SHF,1,C,3 -> R,B,15,0
SHF,1,C,1 -> A,101,1
SHF,1,P,102 -> R,B,15,0
SHF,1,P,101 -> A,0,102
SHF,64,P,1 -> R,B,11,0
SHF,64,P,0 -> R,B,11,0
SHF,1,P,0 -> R,B,13,0
SHF,1,P,1000000000000001 -> R,B,13,0
SHF,1,P,1000000000000000 -> R,B,15,0
SHF,1,Q,1 -> R,S,54,2
GIN,1,0,500 -> A,500,0
GIN,1,1,500 -> R,B,12,0
GIN,1,2,1 -> A,1,0
GIN,1,3,1 -> R,B,12,0
GIN,1,15,1 -> A,1,0
GIN,1,16,1 -> R,B,12,0
GIN,64,16,0 -> R,B,11,0
GIN,1,16,0 -> R,B,12,0
GIN,1,1,0 -> R,B,12,0
GIN,1,0,0 -> R,B,13,0
GIN,1,0,1000000000000001 -> R,B,13,0
GIN,63,0,1000000000000000 -> R,G,5,1008
GIN,63,0,999999999999498 -> A,999999999999498,0
GIN,2,15,1 -> R,G,5,47
GOT,1,0,501 -> R,B,15,0
GOT,1,0,500 -> A,0,0
GOT,1,0,1 -> R,B,15,0
GOT,1,1,1 -> R,B,12,0
GOT,1,3,1 -> R,B,12,0
GOT,1,0,0 -> R,B,13,0
GOT,64,0,1 -> R,B,11,0
GIN,2,15,500 -> A,500,0
GIN,2,15,1 -> R,G,5,47
EOD -> R,S,55,0
EOT, -> R,S,53,0
EOD,0 -> R,S,53,0
"""

ACCOUNT_DAYS = """
EOT -> A,0,0
EOT -> R,S,55,0
WDR,1,C,1 -> R,S,55,0
SHF,1,C,1 -> R,S,55,0
GOT,1,2,1 -> R,S,55,0
WDR,1,C,01 -> R,S,54,3
DEP,1,C,8 -> A,110,0
DEP,64,P,1 -> R,B,11,0
GOT,2,15 -> R,S,53,0
GIN,63,0,1 -> R,G,5,1008
GIN,1,3,1 -> R,B,12,0
INS,5,W,1,0,0,0 -> R,S,55,0
EOD -> A,0,0
EOD -> R,S,55,0
GOT,63,0,999999999999498 -> A,0,0
GIN,1,2,4 -> A,5,0
EOT -> A,0,0
GIN,1,2,4 -> A,9,0
GIN,1,5,4 -> R,B,12,0
DEP,2,P,40 -> A,40,0
EOD -> A,0,0
WDR,1,C,110 -> A,0,0
SHF,2,P,40 -> A,0,40
EOT -> A,0,0
EOD -> A,0,0
SHF,2,C,15 -> A,15,25
WDR,63,C,1 -> A,0,0
DEP,3,P,5 -> A,5,0
"""


def accounts():
    sheet = Sheet().table(ACCOUNT_ROWS)
    # Lines too long do not open the book while their first field is INS.
    sheet.add("INS,3,W,1,0,0," + "1" * 107, "R,S,51,0")
    sheet.add("INS,3,W,1,0,0," + "1" * 106, "R,S,54,6")
    sheet.add(b"INS,3,W,1,0,0,0\r", "R,S,54,6")
    sheet.add("INS,15,W,1,0,0,0", "A,0,0")
    # The empty line opens it.
    sheet.add("", "R,S,52,0")
    sheet.table(ACCOUNT_FORMS)
    sheet.add(b"DEP,0,P,1\r", "R,S,54,3")
    sheet.add(b"EOT\r", "R,S,52,0")
    sheet.add(b"\r", "R,S,52,0")
    sheet.add(b"DEP,0,\xd0,1", "R,S,54,2")
    sheet.add(b"DEP,0,P,\xb2", "R,S,54,3")
    sheet.add(b"DEP,0,P,\xd9\xa1", "R,S,54,3")
    sheet.add(b"DEP,0,P,\x001", "R,S,54,3")
    sheet.add(b"\xff,0,P,1", "R,S,52,0")
    sheet.add("DEP,0,P," + "1" * 112, "R,S,54,3")
    sheet.add("DEP,0,P," + "1" * 113, "R,S,51,0")
    sheet.add("X" * 120, "R,S,52,0")
    sheet.add("X" * 121, "R,S,51,0")
    sheet.add("DEP" + "," * 117, "R,S,53,0")
    sheet.add("DEP" + "," * 118, "R,S,51,0")
    sheet.add(b"X" * 120 + b"\r", "R,S,51,0")
    sheet.add("INS,3,W,1,0,0," + "1" * 107, "R,S,51,0")
    sheet.table(ACCOUNT_CALLS).add("", "R,S,52,0").table(ACCOUNT_DAYS)
    write("accounts", sheet.text(last_feed=False), sheet=sheet, members="""
M,2,15,25,15,25
M,3,5,0,5,0
""")


# --- opening by a line too long -----------------------------------------------

def opening():
    """A line too long opens the book where its first field is not INS."""
    sheet = Sheet().table("""
INS,0,W,1,0,0,0 -> A,0,0
""")
    sheet.add("INSX," + "1" * 116, "R,S,51,0")
    sheet.table("""
INS,1,W,1,0,0,0 -> R,S,55,0
GIN,0,0,1 -> A,1,0
GIN,0,1,1 -> R,B,12,0
""")
    write("opening", sheet.text(), sheet=sheet, members="")
    rows = Sheet().table("""
INS,0,W,1,0,0,0 -> A,0,0
INS,1 -> R,S,53,0
""")
    write("rows", rows.text(), sheet=rows, members="")
    write("empty", b"")
    write("feed", b"\n", members="")


# --- exchange -----------------------------------------------------------------

EXCHANGE_ORDERS = """
INS,0,S,60000,1,10,500 -> A,0,0
INS,1,W,1000,1,10,500 -> A,0,0
INS,2,S,1,0,0,0 -> A,0,0
INS,3,W,1,0,90,10000 -> A,0,0
DEP,1,P,1000 -> A,1000,0
DEP,2,P,1000 -> A,1000,0
DEP,3,P,101 -> A,101,0
ORD,1,64,B,16,0,0,36501 -> R,B,11,0
ORD,1,1,B,4,1010,2, -> R,B,12,0
ORD,1,1,B,16,0,0, -> R,B,12,0
ORD,1,1,B,0,0,2, -> R,B,13,0
ORD,1,1,B,0,1000000001,2, -> R,B,13,0
ORD,1,1,B,0,1010,0, -> R,B,13,0
ORD,1,1,B,0,1010,10001, -> R,B,13,0
ORD,0,1,B,0,1010,2,36501 -> R,B,13,0
ORD,0,1,B,0,1010,2, -> R,B,21,0
ORD,1,1,X,0,1010,2, -> R,S,54,3
ORD,1,1,b,0,1010,2, -> R,S,54,3
ORD,1,1,,0,1010,2, -> R,S,54,3
ORD,1,1,B,0,,2, -> R,S,54,5
ORD,1,1,B,0,1010,, -> R,S,54,6
ORD,1,1,B,0,1010,2,x -> R,S,54,7
ORD,1,1,B,0,1010,2,01 -> R,S,54,7
ORD,1,1,B,0,1010,2,12345678901234567 -> R,S,54,7
ORD,1,1,B,0,1010,2,1234567890123456 -> R,B,13,0
ORD,1,1,B,0,1010,2 -> R,S,53,0
ORD,1,1,B,0,1010,2,, -> R,S,53,0
ORD,1,3,B,0,1010,2, -> R,B,15,0
DEP,3,P,1 -> A,102,0
ORD,1,3,B,0,1010,2, -> A,102,0
ORD,1,3,B,0,1010,2, -> R,B,21,0
ORD,2,3,B,0,1,1, -> R,B,15,0
ORD,2,3,B,2,1000000000,10000, -> A,0,0
ORD,5,2,S,0,1000,2, -> A,100,0
ORD,4,2,S,0,1000,2, -> R,B,21,0
CXL,0 -> R,B,23,0
CXL,3 -> R,B,23,0
CXL,4 -> R,B,23,0
CXL -> R,S,53,0
CXL,x -> R,S,54,1
WDR,3,P,1 -> R,B,15,0
SHF,3,P,1 -> R,B,15,0
GIN,2,1,2500 -> A,2500,0
ORD,6,2,S,1,333,3, -> R,B,15,0
ORD,6,2,S,1,333,2, -> A,2000,0
GOT,2,1,501 -> R,B,15,0
GOT,2,1,500 -> A,2000,0
ORD,7,2,S,1,333,1, -> R,B,15,0
ORD,7,1,B,1,333,5, -> A,85,0
ORD,8,2,B,0,1000,1, -> A,50,0
WDR,1,P,916 -> R,B,15,0
GIN,1,1,10 -> A,10,0
GOT,1,1,10 -> A,0,0
GIN,4,1,1000 -> A,1000,0
GIN,4,3,1 -> A,1,0
ORD,9,4,S,1,400,1,0 -> A,1000,0
GOT,4,3,1 -> A,0,0
DEP,4,P,1 -> A,1,0
WDR,4,P,1 -> A,0,0
CXL,9 -> A,1,0
GOT,4,1,1000 -> A,0,0
DEP,5,P,10000000000000 -> A,10000000000000,0
ORD,10,5,B,3,1000000000,10000, -> A,10000000000000,0
WDR,5,P,1 -> R,B,15,0
CXL,10 -> A,10000,0
WDR,5,P,10000000000000 -> A,0,0
"""

EXCHANGE_TRADES = """
TRD,1,9,5,1000,1 -> R,B,23,0
TRD,1,1,9,1000,1 -> R,B,23,0
TRD,0,9,9,0,0 -> R,B,23,0
TRD,1,5,1,1005,1 -> R,B,24,0
TRD,1,1,8,1000,1 -> R,B,24,0
TRD,1,5,5,1000,1 -> R,B,24,0
TRD,1,1,1,1010,1 -> R,B,24,0
TRD,1,1,6,1000,1 -> R,B,24,0
TRD,1,7,5,333,1 -> R,B,24,0
TRD,1,8,5,1000,1 -> R,B,24,0
TRD,1,1,5,999,1 -> R,B,24,0
TRD,1,1,5,1011,1 -> R,B,24,0
TRD,1,1,5,0,0 -> R,B,24,0
TRD,1,1,5,9999999999999999,1 -> R,B,24,0
TRD,0,1,5,1010,0 -> R,B,25,0
TRD,1,1,5,1010,3 -> R,B,25,0
TRD,0,1,5,1010,1 -> R,B,26,0
TRD,1,1,5,1010 -> R,S,53,0
TRD,1,1,5,,1 -> R,S,54,4
TRD,7,1,5,1010,1 -> A,51,50
TRD,7,1,5,1010,1 -> R,B,26,0
TRD,6,1,5,1010,1 -> R,B,26,0
TRD,6,1,5,1010,2 -> R,B,25,0
TRD,8,1,5,1000,1 -> A,51,50
TRD,9,1,5,1000,1 -> R,B,23,0
CXL,1 -> R,B,23,0
CXL,5 -> R,B,23,0
WDR,3,P,1 -> R,B,15,0
TRD,9,7,6,333,2 -> A,34,0
CXL,6 -> R,B,23,0
GOT,2,1,1 -> R,B,15,0
CXL,7 -> A,3,0
CXL,7 -> R,B,23,0
WDR,1,P,967 -> R,B,15,0
WDR,1,P,966 -> A,34,0
WDR,1,P,1 -> R,B,15,0
DEP,1,P,966 -> A,1000,0
"""

# Member 3 holds two lots bought at 1010 against 104 at most; member 2 has sold
# two lots at 1000 and bids for one at 1000, against 1000.
EXCHANGE_RATINGS = """
RTE,4,1 -> R,B,12,0
RTE,16,10001 -> R,B,12,0
RTE,0,10001 -> R,B,13,0
RTE,0 -> R,S,53,0
RTE,0,x -> R,S,54,2
RTE,0,501 -> A,0,0
RTE,0,505 -> A,1,0
WDR,3,P,1 -> R,B,15,0
ORD,29,3,B,2,5,1, -> R,B,15,0
ORD,29,3,S,2,5,1, -> R,B,15,0
RTE,0,10000 -> A,2,0
RTE,1,10000 -> A,2,0
ORD,29,2,B,2,5,1, -> R,B,15,0
DEP,2,P,2000 -> A,3000,0
RTE,0,10000 -> A,1,0
ORD,29,2,B,2,5,1, -> A,0,0
ORD,30,2,B,3,1,1, -> R,B,15,0
RTE,0,0 -> A,0,0
WDR,2,P,2000 -> A,1000,0
RTE,0,505 -> A,1,0
DEP,3,P,2 -> A,104,0
RTE,0,505 -> A,0,0
ORD,30,3,B,2,5,1, -> A,0,0
RTE,2,1 -> A,1,0
RTE,2,0 -> A,0,0
CXL,2 -> A,10000,0
CXL,29 -> A,1,0
CXL,30 -> A,1,0
RTE,0,500 -> A,0,0
RTE,1,500 -> A,0,0
"""

# Only order 8 is live before these lines. Holds of orders 31 and 32 at 500:
# 51 a lot; split 1 and 2 of 3 lots.
EXCHANGE_DAYS = """
ORD,31,1,B,0,1010,3,0 -> A,153,0
ORD,32,2,S,0,1010,3,1 -> A,153,0
ORD,33,1,B,2,5,1,1 -> A,0,0
ORD,34,1,B,2,5,1, -> A,0,0
ORD,35,1,B,2,5,1,36500 -> A,0,0
ORD,36,1,B,2,5,1,2 -> A,0,0
TRD,10,31,32,1010,1 -> A,51,51
RTE,0,600 -> A,1,0
TRD,11,31,32,1010,1 -> A,61,61
RTE,0,500 -> A,0,0
EOT -> A,1,0
ORD,37,1,B,2,5,1, -> R,S,55,0
ORD,37,1,B,2,5,1,x -> R,S,54,7
CXL,32 -> R,S,55,0
TRD,12,8,32,1000,1 -> R,S,55,0
RTE,0,500 -> R,S,55,0
EOD -> A,0,0
CXL,31 -> R,B,23,0
TRD,12,31,32,1010,1 -> R,B,23,0
ORD,37,1,B,2,5,1,0 -> R,B,16,0
ORD,37,64,B,2,5,1,0 -> R,B,11,0
ORD,37,1,B,2,5,0,0 -> R,B,13,0
ORD,0,1,B,2,5,1,0 -> R,B,16,0
ORD,37,1,B,2,5,1,1 -> A,0,0
ORD,38,1,S,2,5,1,1 -> A,0,0
CXL,38 -> A,1,0
EOT -> A,3,0
EOD -> A,0,0
CXL,37 -> R,B,23,0
CXL,32 -> R,B,23,0
CXL,33 -> R,B,23,0
EOT -> A,1,0
EOD -> A,0,0
CXL,36 -> R,B,23,0
CXL,34 -> A,1,0
CXL,35 -> A,1,0
CXL,8 -> A,1,0
"""


def many_orders(sheet):
    """From no live order to 256, and one more; all with a hold of 0."""
    for number in range(101, 357):
        sheet.add(f"ORD,{number},{number % 50 + 10},{'BS'[number % 2]},2,{number},1,", "A,0,0")
    sheet.table("""
ORD,357,10,B,2,1,1, -> R,B,22,0
ORD,356,10,B,2,1,1, -> R,B,21,0
ORD,357,10,B,3,1,1, -> R,B,22,0
ORD,357,10,B,2,1,1,2 -> R,B,16,0
CXL,200 -> A,1,0
ORD,357,10,B,3,1,1, -> R,B,15,0
ORD,358,10,B,2,1,1, -> A,0,0
ORD,359,10,B,2,1,1, -> R,B,22,0
RTE,2,1 -> A,50,0
RTE,2,0 -> A,0,0
""")
    for number in list(range(101, 200)) + list(range(201, 357)) + [358]:
        sheet.add(f"CXL,{number}", "A,1,0")


def many_contracts(sheet):
    """Five contracts live before; 251 more, then one more still.

    They come from two orders of 10,000 lots, at a rate of 0."""
    sheet.table("""
ORD,400,61,B,2,3,10000, -> A,0,0
ORD,401,62,S,2,1,10000, -> A,0,0
DEP,61,C,5 -> A,5,0
""")
    for number in range(101, 352):
        sheet.add(f"TRD,{number},400,401,{number % 3 + 1},1", "A,0,0")
    sheet.table("""
TRD,352,400,401,1,1 -> R,B,27,0
TRD,351,400,401,1,1 -> R,B,26,0
TRD,352,400,401,1,9750 -> R,B,25,0
TRD,352,400,401,1,9749 -> R,B,27,0
RTE,2,10000 -> A,2,0
RTE,2,0 -> A,0,0
EOT -> A,0,0
FND,101 -> A,3,0
FND,102 -> A,1,0
FND,103 -> R,B,15,0
DLV,101,1 -> A,1,3
EOD -> A,0,0
TRD,353,400,401,1,9749 -> A,0,0
CXL,400 -> R,B,23,0
CXL,401 -> R,B,23,0
RTE,2,1 -> A,2,0
ORD,402,61,B,2,3,1, -> R,B,15,0
ORD,402,63,S,2,3,1, -> R,B,15,0
DEP,63,P,1 -> A,1,0
ORD,402,63,S,2,3,1, -> A,1,0
RTE,2,10000 -> A,3,0
""")


def exchange():
    sheet = Sheet()
    for part in (EXCHANGE_ORDERS, EXCHANGE_TRADES, EXCHANGE_RATINGS, EXCHANGE_DAYS):
        sheet.table(part)
    many_orders(sheet)
    many_contracts(sheet)
    write("exchange", sheet.text(), sheet=sheet, members="""
M,1,1000,0,864,0
M,2,1000,0,798,0
M,3,104,0,2,0
M,61,0,2,-29994,1
M,62,0,3,-9999,3
M,63,1,0,-2,0
""")


# --- settlement ---------------------------------------------------------------

SETTLEMENT_DAY_0 = """
INS,0,S,60000,1,10,500 -> A,0,0
INS,1,W,1000,1,10,500 -> A,0,0
INS,2,S,7,0,0,10000 -> A,0,0
INS,3,W,3,2,2,250 -> A,0,0
DEP,1,P,1000 -> A,1000,0
DEP,2,P,1000 -> A,1000,0
DEP,1,C,4000 -> A,4000,0
DEP,3,P,51 -> A,51,0
DEP,3,C,1009 -> A,1009,0
DEP,4,P,500 -> A,500,0
DEP,4,C,5000 -> A,5000,0
GIN,5,1,10000 -> A,10000,0
FND,1 -> R,S,55,0
DLV,1,1 -> R,S,55,0
DFT,1 -> R,S,55,0
EOD -> R,S,55,0
FND -> R,S,53,0
FND,01 -> R,S,54,1
DLV,1 -> R,S,53,0
DLV,1, -> R,S,54,2
DFT,x -> R,S,54,1
DFT,1,1 -> R,S,53,0
ORD,1,1,B,0,1010,8, -> A,408,0
ORD,2,2,S,0,1000,10, -> A,500,0
ORD,3,3,B,0,1010,1, -> A,51,0
ORD,4,4,B,1,999,6, -> A,300,0
ORD,5,5,S,1,999,6, -> A,6000,0
TRD,1,1,2,1010,1 -> A,51,50
TRD,2,1,2,1010,1 -> A,51,50
TRD,3,1,2,1005,1 -> A,51,50
TRD,4,1,2,1000,1 -> A,51,50
TRD,5,1,2,1000,1 -> A,51,50
TRD,6,3,2,1010,1 -> A,51,50
TRD,7,4,5,999,1 -> A,50,0
TRD,8,4,5,999,2 -> A,100,0
TRD,9,4,5,999,1 -> A,50,0
CXL,1 -> A,3,0
CXL,2 -> A,4,0
CXL,3 -> R,B,23,0
CXL,4 -> A,2,0
CXL,5 -> A,2,0
EOT -> A,0,0
WDR,1,P,1 -> R,S,55,0
SHF,1,P,1 -> R,S,55,0
GOT,5,1,1 -> R,S,55,0
ORD,6,1,B,0,1,1, -> R,S,55,0
CXL,1 -> R,S,55,0
TRD,10,1,2,1,1 -> R,S,55,0
RTE,0,1 -> R,S,55,0
EOT -> R,S,55,0
INS,4,S,1,0,0,0 -> R,S,55,0
FND,0 -> R,B,31,0
FND,10 -> R,B,31,0
DLV,10,0 -> R,B,31,0
DFT,10 -> R,B,31,0
DFT,0 -> R,B,31,0
DLV,1,0 -> R,B,32,0
DLV,1,1 -> R,B,32,0
DLV,7,1 -> R,B,32,0
DFT,1 -> R,B,33,0
DFT,7 -> R,B,33,0
FND,1 -> A,1010,0
FND,1 -> R,B,32,0
DFT,1 -> R,B,33,0
DLV,1,0 -> R,B,13,0
DLV,1,1000000001 -> R,B,13,0
DLV,1,20000 -> A,20000,336
DLV,1,20000 -> A,20000,337
DLV,1,50000 -> A,20000,337
DLV,1,1 -> R,B,31,0
FND,1 -> R,B,31,0
DFT,1 -> R,B,31,0
FND,4 -> A,1000,0
DLV,4,1 -> A,1,0
DLV,4,59 -> A,59,1
FND,6 -> R,B,15,0
DEP,3,C,1 -> A,1010,0
FND,6 -> A,1010,0
DLV,6,1000000000 -> A,60000,1010
DLV,6,1 -> R,B,31,0
FND,7 -> A,999,0
DFT,7 -> R,B,32,0
DLV,7,1 -> A,1,0
DLV,7,1 -> A,1,1
DLV,7,998 -> A,998,998
DLV,7,1 -> R,B,31,0
EOD -> A,0,0
"""

# Contracts 2, 5 and 8 are funded on the last day for it; 3 and 9 never are.
SETTLEMENT_FUNDING = """
GOT,4,1,1001 -> R,B,15,0
GOT,4,1,1000 -> A,0,0
GOT,5,1,6001 -> R,B,15,0
GOT,5,1,6000 -> A,3000,0
GOT,5,1,1 -> R,B,15,0
WDR,1,C,1991 -> R,B,15,0
SHF,1,C,1991 -> R,B,15,0
WDR,2,C,2022 -> R,B,15,0
WDR,2,C,2021 -> A,0,0
EOT -> A,0,0
FND,5 -> A,1000,0
FND,2 -> R,B,15,0
DEP,1,C,20 -> A,3009,0
FND,2 -> A,1010,0
FND,8 -> A,1998,0
DFT,3 -> R,B,33,0
DFT,9 -> R,B,33,0
DLV,3,1 -> R,B,32,0
EOD -> A,0,0
EOT -> A,0,0
FND,3 -> R,B,33,0
FND,9 -> R,B,33,0
FND,2 -> R,B,32,0
DLV,3,1 -> R,B,32,0
DLV,3,0 -> R,B,32,0
DFT,3 -> A,51,0
DFT,3 -> R,B,31,0
FND,3 -> R,B,31,0
DFT,9 -> A,50,0
DLV,2,30000 -> A,30000,505
DFT,2 -> R,B,33,0
EOD -> A,0,0
GOT,5,1,1001 -> R,B,15,0
GOT,5,1,1000 -> A,2000,0
"""

SETTLEMENT_DAY_10 = """
EOT -> A,0,0
DFT,4 -> R,B,33,0
DLV,4,1 -> A,1,0
EOD -> A,0,0
"""

# From day 13: the last day to deliver in kind S is 14, default begins on 15.
SETTLEMENT_DAY_13 = """
EOT -> A,0,0
DFT,4 -> R,B,33,0
EOD -> A,0,0
EOT -> A,0,0
DFT,4 -> R,B,33,0
DFT,5 -> R,B,33,0
DLV,4,29939 -> A,29939,499
DLV,8,1 -> A,1,0
EOD -> A,0,0
EOT -> A,0,0
DLV,4,1 -> R,B,33,0
DLV,4,0 -> R,B,13,0
DLV,5,1 -> R,B,33,0
DLV,2,1 -> R,B,33,0
DFT,8 -> R,B,32,0
DFT,4 -> A,50,0
DFT,4 -> R,B,31,0
DFT,5 -> A,50,0
DFT,2 -> A,50,0
DLV,8,1000 -> A,1000,999
EOD -> A,0,0
WDR,1,C,2006 -> R,B,15,0
WDR,1,C,2005 -> A,0,0
WDR,1,P,1100 -> R,B,15,0
WDR,1,P,1099 -> A,0,0
WDR,2,P,901 -> A,0,0
WDR,2,C,1004 -> A,0,0
"""

# From day 36. A rating lifts the buyer's hold to 150 over an amount of 100.
SETTLEMENT_BUYER_PENALTY = """
EOT -> A,0,0
DFT,8 -> R,B,32,0
DLV,8,1000000000 -> A,999,999
DFT,8 -> R,B,31,0
EOD -> A,0,0
DEP,6,P,100 -> A,100,0
DEP,7,P,1000 -> A,1000,0
ORD,10,6,B,0,2000,1, -> A,100,0
ORD,11,7,S,0,2000,2, -> A,200,0
TRD,20,10,11,2000,1 -> A,100,100
RTE,0,750 -> A,1,0
EOT -> A,0,0
EOD -> A,0,0
EOT -> A,0,0
DFT,20 -> R,B,33,0
EOD -> A,0,0
EOT -> A,0,0
FND,20 -> R,B,33,0
DFT,20 -> A,100,50
DFT,20 -> R,B,31,0
EOD -> A,0,0
WDR,7,P,951 -> R,B,15,0
WDR,7,P,950 -> A,150,0
"""

# From day 40: contract 21 ends delivery on 50.
SETTLEMENT_SELLER = """
DEP,6,P,150 -> A,150,0
DEP,6,C,2000 -> A,2000,0
ORD,12,6,B,0,2000,1, -> A,150,0
TRD,21,12,11,2000,1 -> A,150,150
EOT -> A,0,0
FND,21 -> A,2000,0
EOD -> A,0,0
RTE,0,10000 -> A,1,0
WDR,6,P,1 -> A,149,0
DEP,6,P,1 -> A,150,0
WDR,6,C,1 -> R,B,15,0
"""

SETTLEMENT_SELLER_PENALTY = """
EOT -> A,0,0
DFT,21 -> R,B,33,0
DLV,21,1 -> A,1,0
EOD -> A,0,0
EOT -> A,0,0
DLV,21,1 -> R,B,33,0
DFT,21 -> A,150,1850
EOD -> A,0,0
WDR,6,C,2000 -> A,0,0
WDR,6,P,301 -> R,B,15,0
WDR,6,P,300 -> A,0,0
"""

# From day 56: instrument 2 funds and ends delivery on the day of the trade.
SETTLEMENT_SAME_DAY = """
RTE,2,0 -> A,0,0
ORD,13,8,B,2,10,3, -> A,0,0
ORD,14,9,S,2,10,3, -> A,0,0
TRD,22,13,14,10,1 -> A,0,0
TRD,23,13,14,10,2 -> A,0,0
RTE,2,10000 -> A,2,0
EOT -> A,0,0
DFT,22 -> R,B,33,0
EOD -> A,0,0
EOT -> A,0,0
FND,22 -> R,B,33,0
DFT,22 -> A,0,10
DEP,8,P,5 -> A,5,0
DFT,23 -> A,5,15
EOD -> A,0,0
RTE,2,0 -> A,0,0
ORD,15,8,B,2,10,1, -> A,0,0
ORD,16,9,S,2,10,1, -> A,0,0
TRD,24,15,16,10,1 -> A,0,0
EOT -> A,0,0
EOD -> A,0,0
EOT -> A,0,0
DFT,24 -> A,0,0
EOD -> A,0,0
ORD,17,8,B,2,10,1, -> A,0,0
ORD,18,9,S,2,10,1, -> A,0,0
TRD,25,17,18,10,1 -> A,0,0
DEP,8,C,10 -> A,10,0
EOT -> A,0,0
FND,25 -> A,10,0
DLV,25,1 -> A,1,1
DLV,25,1 -> A,1,1
DLV,25,1 -> A,1,2
DLV,25,1 -> A,1,1
DLV,25,1 -> A,1,2
DLV,25,1 -> A,1,1
DLV,25,1 -> A,1,2
DLV,25,1 -> R,B,31,0
EOD -> A,0,0
ORD,19,8,B,2,10,1, -> A,0,0
ORD,20,9,S,2,10,1, -> A,0,0
TRD,26,19,20,10,1 -> A,0,0
DEP,8,C,10 -> A,10,0
EOT -> A,0,0
FND,26 -> A,10,0
DLV,26,3 -> A,3,4
EOD -> A,0,0
"""

# From day 65, four days after the trade; from day 67 kind W with weight 3.
SETTLEMENT_WEIGHT_3 = """
EOT -> A,0,0
DLV,26,1 -> A,1,1
DFT,26 -> R,B,33,0
EOD -> A,0,0
EOT -> A,0,0
DLV,26,1 -> R,B,33,0
DFT,26 -> A,0,0
EOD -> A,0,0
GIN,9,3,30 -> A,30,0
DEP,8,P,30 -> A,30,0
ORD,21,8,B,3,100,10, -> A,30,0
ORD,22,9,S,3,99,10, -> A,30,0
TRD,30,21,22,100,4 -> A,12,0
TRD,31,21,22,99,6 -> A,18,0
DEP,8,C,988 -> A,993,0
"""

SETTLEMENT_DAY_69 = """
EOT -> A,0,0
FND,30 -> A,400,0
FND,31 -> R,B,15,0
DEP,8,C,1 -> A,994,0
FND,31 -> A,594,0
DLV,30,1 -> A,1,33
DLV,31,1 -> A,1,33
DLV,30,1 -> A,1,33
DLV,30,1 -> A,1,34
DLV,31,1 -> A,1,33
DLV,31,50 -> A,16,528
DFT,30 -> R,B,32,0
EOD -> A,0,0
GOT,9,3,1 -> R,B,15,0
GOT,8,3,22 -> R,B,15,0
GOT,8,3,21 -> A,0,0
SHF,8,C,1 -> R,B,15,0
RTE,0,500 -> A,0,0
"""


def turn_over(sheet):
    """Thirty more days of trades, each followed on the days after it.

    One trade a day, by turns in kinds S and W; one contract in three is never
    funded, one in four is reported to the end, the rest only in parts."""
    sheet.table("""
DEP,10,P,5000 -> A,5000,0
DEP,10,C,90000 -> A,90000,0
DEP,11,P,5000 -> A,5000,0
GIN,11,1,60000 -> A,60000,0
""")
    for turn in range(30):
        contract, buy, sell = 100 + turn, 1000 + 2 * turn, 1001 + 2 * turn
        instrument, price = turn % 2, 1003 + 37 * turn
        sheet.add(f"ORD,{buy},10,B,{instrument},{price + 5},3,{70 + turn}")
        sheet.add(f"ORD,{sell},11,S,{instrument},{price - 5},2,")
        sheet.add(f"TRD,{contract},{buy},{sell},{price},2")
        if turn % 7 == 3:
            sheet.add(f"RTE,{instrument},{(turn * 331) % 1500}")
        sheet.add("EOT", "A,1,0")
        for back in (0, 1, 2):
            if (contract - back) % 3:
                sheet.add(f"FND,{contract - back}")
        for back in (0, 1, 5, 13, 14, 15):
            kilograms = contract * 7919 % 40000 // (1 if instrument == 0 else 40) + 1
            sheet.add(f"DLV,{contract - back},{kilograms}")
        for back in (1, 2, 14, 15, 16):
            sheet.add(f"DFT,{contract - back}")
        if contract % 4 == 0:
            sheet.add(f"DLV,{contract - 4},1000000000")
        sheet.add("EOD", "A,0,0")


def settlement():
    sheet = Sheet().table(SETTLEMENT_DAY_0).table(SETTLEMENT_FUNDING)
    sheet.days(7).table(SETTLEMENT_DAY_10)
    sheet.days(2).table(SETTLEMENT_DAY_13)
    sheet.days(20).table(SETTLEMENT_BUYER_PENALTY).table(SETTLEMENT_SELLER)
    sheet.days(13).table(SETTLEMENT_SELLER_PENALTY).table(SETTLEMENT_SAME_DAY)
    sheet.days(3).table(SETTLEMENT_WEIGHT_3)
    sheet.days(2).table(SETTLEMENT_DAY_69)
    turn_over(sheet)
    write("settlement", sheet.text(), sheet=sheet)


# --- journal ------------------------------------------------------------------

JOURNAL_PLACES = (8, 3)

# Goods are full first, while money has room; then money is full too.
JOURNAL = """
INS,0,W,1000,1,10,500 -> A,0,0
INS,1,S,1000,0,0,1000 -> A,0,0
DEP,4,P,1000000000000000 -> A,1000000000000000,0
WDR,4,P,1000000000000000 -> A,0,0
DEP,1,P,1000 -> A,1000,0
DEP,1,C,5000 -> A,5000,0
DEP,2,P,500 -> A,500,0
GIN,2,0,2000 -> A,2000,0
ORD,1,1,B,0,1000,2, -> A,100,0
ORD,2,2,S,0,1000,2, -> A,2000,0
TRD,1,1,2,1000,2 -> A,100,0
EOT -> A,0,0
FND,1 -> A,2000,0
DLV,1,500 -> A,500,500
GIN,2,0,1 -> A,1501,0
DLV,1,500 -> R,G,6,16
GIN,3,0,1 -> R,G,6,48
DEP,3,C,7 -> A,7,0
DEP,1,C,1 -> A,4501,0
DEP,1,C,1 -> R,M,6,3
DEP,1,C,1000000000000000 -> R,M,5,3
DLV,1,500 -> R,M,6,5
DLV,1,0 -> R,B,13,0
EOD -> A,0,0
WDR,1,P,1 -> R,M,6,2
SHF,1,P,1 -> R,M,6,3
SHF,1,C,1 -> R,M,6,2
SHF,1,C,3002 -> R,B,15,0
GOT,2,0,1 -> R,G,6,32
GOT,2,0,2 -> R,B,15,0
ORD,3,1,B,1,1000,1, -> A,100,0
ORD,4,2,S,1,900,1, -> A,90,0
TRD,2,3,4,950,1 -> A,100,90
ORD,5,3,B,1,1,1,1 -> R,B,15,0
ORD,5,1,B,1,1,1,1 -> A,1,0
EOT -> A,1,0
EOD -> A,0,0
EOT -> A,0,0
DFT,2 -> R,M,6,4
EOD -> A,0,0
RTE,1,0 -> A,0,0
EOT -> A,0,0
DFT,2 -> A,0,0
DLV,1,1 -> R,M,6,5
EOD -> A,0,0
"""

SHORT_PLACES = (2, 4)

# Money is full first; a delivery whose payment is 0 needs goods only.
JOURNAL_MONEY_FIRST = """
INS,0,W,1000,0,10,0 -> A,0,0
DEP,1,C,10 -> A,10,0
DEP,2,P,1 -> A,1,0
GIN,2,0,5000 -> A,5000,0
ORD,1,1,B,0,5,2, -> A,0,0
ORD,2,2,S,0,5,2, -> A,2000,0
TRD,1,1,2,5,2 -> A,0,0
EOT -> A,0,0
FND,1 -> A,10,0
DLV,1,200 -> R,M,6,5
DLV,1,2000 -> R,M,6,5
DLV,1,199 -> A,199,0
DLV,1,1 -> R,M,6,5
EOD -> A,0,0
GOT,1,0,200 -> R,B,15,0
GOT,1,0,199 -> A,0,0
GIN,1,0,1 -> A,1,0
GOT,1,0,1 -> R,G,6,16
ORD,3,1,B,0,4,1, -> A,0,0
ORD,4,2,S,0,4,3, -> A,3000,0
ORD,5,2,S,0,4,1, -> R,B,15,0
TRD,2,3,4,4,1 -> A,0,0
EOT -> A,0,0
FND,2 -> R,B,15,0
DLV,2,1 -> R,B,32,0
DLV,1,1 -> R,M,6,5
EOD -> A,0,0
EOT -> A,0,0
DFT,2 -> A,0,0
DFT,1 -> R,B,32,0
EOD -> A,0,0
CXL,4 -> A,2,0
"""


def journal():
    sheet = Sheet().table(JOURNAL)
    write_journals("journal", sheet.text(), JOURNAL_PLACES, sheet, """
M,1,1000,4501,1000,3001
M,2,500,500,500,500
M,3,0,7,0,7
""", """
money Credit { receiver: 8, amount: 1000000000000000 }
money Debit { giver: 8, amount: 1000000000000000 }
money Credit { receiver: 2, amount: 1000 }
money Credit { receiver: 3, amount: 5000 }
money Credit { receiver: 4, amount: 500 }
money Transfer { giver: 3, receiver: 5, amount: 500 }
money Credit { receiver: 7, amount: 7 }
money Credit { receiver: 3, amount: 1 }
goods Credit { receiver: 32, amount: 2000 }
goods Transfer { giver: 32, receiver: 16, amount: 500 }
goods Credit { receiver: 32, amount: 1 }
""")
    sheet = Sheet().table(JOURNAL_MONEY_FIRST)
    write_journals("journal-money-first", sheet.text(), SHORT_PLACES, sheet, """
M,1,0,10,0,0
M,2,1,0,1,0
""", """
money Credit { receiver: 3, amount: 10 }
money Credit { receiver: 4, amount: 1 }
goods Credit { receiver: 32, amount: 5000 }
goods Transfer { giver: 32, receiver: 16, amount: 199 }
goods Debit { giver: 16, amount: 199 }
goods Credit { receiver: 16, amount: 1 }
""")


# --- size and noise -----------------------------------------------------------

def sized(size):
    """A sheet of exactly so many bytes; its last line has no feed."""
    sheet = Sheet().add("INS,0,S,1,0,0,1")
    used = len(sheet.text())
    for turn in range(10**6):
        line = ("DEP,%d,%s,%d" % (turn % 64, "PC"[turn % 3 == 0], turn + 1),
                "X" * 100, "WDR,%d,P,1" % (turn % 64))[turn % 3]
        if used + len(line) + 1 > size - 40:
            break
        sheet.add(line)
        used += len(line) + 1
    deposit = "DEP,7,C,1"
    sheet.add("Y" * (size - used - len(deposit) - 1)).add(deposit)
    return sheet.text(last_feed=False)


def sizes():
    assert len(sized(65_536)) == 65_536 and len(sized(65_537)) == 65_537
    write("limit", sized(65_536))
    write("big", sized(65_537))
    # The feed counts: the same text with one more feed is too large.
    write("big-feed", sized(65_536) + b"\n")


def garbage():
    """About 200 lines of noise: any bytes, and damaged lines of the forms."""
    noise = random.Random(20240611)
    near = [b"DEP,1,P,5", b"ORD,9,1,B,0,10,1,", b"EOT", b"EOD", b"INS,0,S,1,0,0,1",
            b"TRD,1,1,2,3,4", b"GIN,1,0,7", b"SHF,1,C,2", b"WDR,1,P,1", b"RTE,0,5"]
    lines = []
    for turn in range(200):
        if turn % 2:
            line = bytearray(noise.choice(near))
            for _ in range(noise.randrange(3)):
                line[noise.randrange(len(line))] = noise.choice(b"0123456789,,PCBSDEX\r\x00\xff")
        else:
            line = bytearray(noise.randbytes(noise.randrange(150)))
        lines.append(bytes(line).replace(b"\n", b","))
    write("garbage", b"\n".join(lines) + b"\n")


# --- every field of every verb ------------------------------------------------

# Fields in form, by verb: n a number, l the optional last day, and else a letter.
FORMS = {
    "INS": "n0 S n1 n0 n0 n1", "DEP": "n1 P n5", "WDR": "n1 P n5", "SHF": "n1 C n2",
    "GIN": "n1 n0 n7", "GOT": "n1 n0 n7", "ORD": "n9 n1 B n0 n10 n1 l", "CXL": "n9",
    "TRD": "n1 n1 n2 n3 n4", "RTE": "n0 n5", "EOT": "", "FND": "n1", "DLV": "n1 n5",
    "DFT": "n1", "EOD": "",
}

# What is in no form of a number, of a last day, and of a letter.
NO_NUMBER = ["", "x", "01", "+1", " 1", "1 ", "12345678901234567"]
NO_LAST_DAY = NO_NUMBER[1:]
NO_LETTER = ["", "Q", "p", "PP", "1"]


def misfits(sheet, verb):
    """Each field out of form alone, then together with the last; then a field too few and too many."""
    forms = FORMS[verb].split()
    good = [form[1:] if form[0] in "nl" else form for form in forms]
    for place, form in enumerate(forms, 1):
        wrong = {"n": NO_NUMBER, "l": NO_LAST_DAY}.get(form[0], NO_LETTER)
        for field in wrong:
            fields = good[:place - 1] + [field] + good[place:]
            sheet.add(",".join([verb] + fields), f"R,S,54,{place}")
        if place < len(forms):
            fields = good[:place - 1] + ["*"] + good[place:-1] + ["*"]
            sheet.add(",".join([verb] + fields), f"R,S,54,{place}")
    if forms:
        sheet.add(",".join([verb] + good[:-1]), "R,S,53,0")
    sheet.add(",".join([verb] + good + ["1"]), "R,S,53,0")
    sheet.add(",".join([verb] + good + [""]), "R,S,53,0")


def rows_alone():
    """A sheet that never opens the book: rows, and lines whose first field is INS. It lists no member."""
    sheet = Sheet().add("INS,0,S,60000,1,10,500", "A,0,0")
    misfits(sheet, "INS")
    sheet.add("INS," + "1" * 117, "R,S,51,0").add("INS", "R,S,53,0")
    sheet.add("INS,3,W,50,0,0,0", "A,0,0")
    write("rows-alone", sheet.text(), sheet=sheet, members="")


def fields():
    """Every field of every verb out of its form, and every verb with a field too few and too many."""
    sheet = Sheet().add("INS,0,W,50,1,10,500", "A,0,0").add("DEP,1,P,5", "A,5,0")
    for verb in FORMS:
        misfits(sheet, verb)
    sheet.add("WDR,1,P,1", "A,4,0")
    write("fields", sheet.text(), sheet=sheet)


def main():
    for build in (sample, accounts, opening, exchange, settlement, journal, sizes, rows_alone, fields, garbage):
        build()
    (SHEETS / "stdout").write_text(REPORTS.text())


if __name__ == "__main__":
    main()
