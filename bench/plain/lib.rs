//! The day sheet in plain Rust, written from docs/RULES.md alone: a second opinion on what the
//! proved book answers, and something to measure its speed against.

mod book;
mod call;
mod keeper;
mod live;
mod refusal;
mod sheet;
mod terms;

use book::{Answer, Book};
use keeper::Table;
use refusal::Refusal;
use sheet::{Line, MOST_BYTES, lines_of, names_instrument, read_line};
use std::io::{self, Write};

/// Runs a sheet over table keepers on the first 1,024 places of `money` and `goods`, which are set
/// to 0 first, with the percent charge rule, and gives the bytes of the report. A sheet that is too
/// long leaves all places as they were.
pub fn run_day(sheet: &[u8], money: &mut [u64], goods: &mut [u64]) -> Vec<u8> {
    let mut report = Vec::with_capacity(sheet.len());
    let written = if sheet.len() > MOST_BYTES {
        write_outcome(&mut report, 0, Err(Refusal::LongSheet))
    } else {
        write_report(sheet, Table::open(money), Table::open(goods), &mut report)
    };
    written.expect("a vector takes every write");
    report
}

fn write_report(
    sheet: &[u8],
    money: Table,
    goods: Table,
    report: &mut impl Write,
) -> io::Result<()> {
    let mut lines = (1..).zip(lines_of(sheet)).peekable();
    let mut rows = Vec::new();
    while let Some((number, line)) = lines.next_if(|(_, line)| names_instrument(line)) {
        let outcome = read_line(line).map(|line| {
            if let Line::Instrument(row) = line {
                rows.push(row);
            }
            (0, 0)
        });
        write_outcome(report, number, outcome)?;
    }
    if lines.peek().is_none() {
        return Ok(());
    }
    let mut book = Book::open(&rows, money, goods);
    for (number, line) in lines {
        write_outcome(report, number, take_line(&mut book, line))?;
    }
    write_members(report, &book)
}

/// A line after the opening.
fn take_line(book: &mut Book, line: &[u8]) -> Result<Answer, Refusal> {
    match read_line(line)? {
        Line::Instrument(_) => Err(Refusal::Misplaced),
        Line::Call(call) => book.take(call),
    }
}

fn write_outcome(
    report: &mut impl Write,
    line: u64,
    outcome: Result<Answer, Refusal>,
) -> io::Result<()> {
    match outcome {
        Ok((first, second)) => writeln!(report, "{line},A,{first},{second}"),
        Err(refusal) => writeln!(report, "{line},R,{refusal}"),
    }
}

fn write_members(report: &mut impl Write, book: &Book) -> io::Result<()> {
    for member in book.members() {
        let (position, clearing) = (book.position(member), book.clearing(member));
        let (free_position, free_clearing) =
            (book.free_position(member), book.free_clearing(member));
        if position != 0 || clearing != 0 || free_position != 0 {
            writeln!(report, "M,{member},{position},{clearing},{free_position},{free_clearing}")?;
        }
    }
    Ok(())
}
