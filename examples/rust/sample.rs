//! Runs the sample sheet of docs/RULES.md, section 12, and prints its report.

use std::io::{self, Write};

const SHEET: &[u8] = b"\
INS,0,S,60000,1,10,500
DEP,1,P,102
DEP,2,P,200
DEP,1,C,2020
ORD,1,1,B,0,1010,2,
ORD,2,2,S,0,1000,2,
TRD,1,1,2,1010,1
WDR,1,P,1
EOT
FND,1
DLV,1,30000
";

const NO_MEMORY: u64 = u64::MAX;

// As in include/zaldrif.h.
unsafe extern "C" {
    fn zaldrif_run_day(
        sheet: *const u8,
        sheet_len: usize,
        money: *mut u64,
        money_len: usize,
        goods: *mut u64,
        goods_len: usize,
        report: *mut u8,
        report_len: usize,
    ) -> u64;
}

/// The length of the report, which is in the buffer if that is long enough; `None` where memory was
/// wanting.
fn run_day(sheet: &[u8], money: &mut [u64], goods: &mut [u64], report: &mut [u8]) -> Option<usize> {
    // SAFETY: each pointer comes with the length of its own slice, and no two slices overlap.
    let length = unsafe {
        zaldrif_run_day(
            sheet.as_ptr(),
            sheet.len(),
            money.as_mut_ptr(),
            money.len(),
            goods.as_mut_ptr(),
            goods.len(),
            report.as_mut_ptr(),
            report.len(),
        )
    };
    if length == NO_MEMORY {
        None
    } else {
        usize::try_from(length).ok()
    }
}

fn main() -> io::Result<()> {
    let (mut money, mut goods) = ([0; 128], [0; 1_024]);
    let mut run = |report: &mut [u8]| {
        run_day(SHEET, &mut money, &mut goods, report).ok_or(io::ErrorKind::OutOfMemory)
    };

    let mut small = [0; 10];
    let needed = run(&mut small)?;
    eprintln!(
        "a buffer of {} bytes is too small, {needed} are needed",
        small.len()
    );

    let mut report = vec![0; needed];
    run(&mut report)?;
    io::stdout().write_all(&report)
}
