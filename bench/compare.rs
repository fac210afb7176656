//! Compares and measures the proved library and the plain one, both in this process.
//!
//!     compare check KEEP SHEET...    the same reports and registers, or the sheet is kept in KEEP
//!     compare measure SHEET...       the time of both, as a table

use std::collections::BTreeMap;
use std::error::Error;
use std::hint::black_box;
use std::path::Path;
use std::process::ExitCode;
use std::time::{Duration, Instant};
use std::{env, fs};

type Outcome<T> = Result<T, Box<dyn Error>>;

const NO_MEMORY: u64 = u64::MAX;
const LONGEST_REPORT: usize = 4 << 20;

unsafe extern "C" {
    fn zaldrif_run_day(
        sheet: *const u8,
        sheet_len: usize,
        money: *mut u64,
        money_len: usize,
        goods: *mut u64,
        goods_len: usize,
        report: *mut u8,
        report_len: usize,
    ) -> u64;
}

/// The money and the goods registers.
#[derive(Clone, PartialEq, Eq)]
struct Registers {
    money: Vec<u64>,
    goods: Vec<u64>,
}

impl Registers {
    /// Registers that are not empty: a run has to do that.
    fn used((money, goods): (usize, usize)) -> Self {
        Self { money: vec![7; money], goods: vec![7; goods] }
    }
}

fn ours(sheet: &[u8], registers: &mut Registers, report: &mut [u8]) -> u64 {
    let Registers { money, goods } = registers;
    // SAFETY: each pointer comes with the length of its own slice, and no two slices overlap.
    unsafe {
        zaldrif_run_day(
            sheet.as_ptr(),
            sheet.len(),
            money.as_mut_ptr(),
            money.len(),
            goods.as_mut_ptr(),
            goods.len(),
            report.as_mut_ptr(),
            report.len(),
        )
    }
}

fn plain(sheet: &[u8], registers: &mut Registers) -> Vec<u8> {
    plain::run_day(sheet, &mut registers.money, &mut registers.goods)
}

fn main() -> ExitCode {
    let args: Vec<String> = env::args().skip(1).collect();
    let outcome = match args.iter().map(String::as_str).collect::<Vec<_>>()[..] {
        ["check", keep, ref sheets @ ..] => check(Path::new(keep), sheets),
        ["measure", ref sheets @ ..] => measure(sheets),
        _ => Err("compare check KEEP SHEET... | compare measure SHEET...".into()),
    };
    if let Err(error) = outcome {
        eprintln!("{error}");
        return ExitCode::FAILURE;
    }
    ExitCode::SUCCESS
}

// ---- Comparing ----

/// The counts of the program, and others: none, too few for a member, few, more than are used.
const PROGRAM: (usize, usize) = (128, 1_024);
const OTHERS: [(usize, usize); 6] =
    [(0, 0), (1, 16), (2, 15), (7, 50), (64, 2_000), (1_100, 1_024)];

/// What the buffers are filled with; no report has this byte.
const UNTOUCHED: u8 = 0xA5;

fn check(keep: &Path, sheets: &[&str]) -> Outcome<()> {
    let mut seen = BTreeMap::new();
    for (path, others) in sheets.iter().zip(OTHERS.iter().cycle()) {
        let sheet = fs::read(path)?;
        for counts in [PROGRAM, *others] {
            if let Err(difference) = compare(&sheet, counts, keep) {
                fs::write(keep.join("differs.txt"), &sheet)?;
                let kept = keep.display();
                return Err(
                    format!("{path} {counts:?}: {difference}; kept in {kept}/differs.*").into()
                );
            }
        }
        count_outcomes(&plain(&sheet, &mut Registers::used(PROGRAM)), &mut seen);
    }
    println!("{} sheets, same reports and registers; lines by outcome:", sheets.len());
    let shown: Vec<String> =
        seen.iter().map(|(outcome, count)| format!("{outcome} {count}")).collect();
    println!("{}", shown.join(", "));
    Ok(())
}

fn compare(sheet: &[u8], counts: (usize, usize), keep: &Path) -> Outcome<()> {
    let (mut by_ours, mut by_plain) = (Registers::used(counts), Registers::used(counts));
    let plain_report = plain(sheet, &mut by_plain);
    let report = full_report(sheet, &mut by_ours, plain_report.len() / 2)?;
    if report != plain_report {
        fs::write(keep.join("differs.ours"), &report)?;
        fs::write(keep.join("differs.plain"), &plain_report)?;
        return Err(first_difference(&report, &plain_report).into());
    }
    if by_ours != by_plain {
        return Err("the registers differ".into());
    }
    Ok(())
}

/// Our report, got by a first call with a short buffer and a second one with more than enough.
fn full_report(sheet: &[u8], registers: &mut Registers, short: usize) -> Outcome<Vec<u8>> {
    let mut buffer = vec![UNTOUCHED; short];
    let needed = ours(sheet, registers, &mut buffer);
    if needed == NO_MEMORY {
        return Err("memory was wanting".into());
    }
    let length = usize::try_from(needed)?;
    if length > LONGEST_REPORT {
        return Err(format!("a report of {needed} bytes").into());
    }
    if length > short && buffer.iter().any(|&byte| byte != UNTOUCHED) {
        return Err("a buffer that was too short has been touched".into());
    }
    let mut buffer = vec![UNTOUCHED; length + 64];
    if ours(sheet, registers, &mut buffer) != needed {
        return Err("the second call gave another length".into());
    }
    let rest = buffer.split_off(length);
    if rest.iter().any(|&byte| byte != UNTOUCHED) {
        return Err("the buffer has been touched behind the report".into());
    }
    Ok(buffer)
}

/// The first lines that differ, with their feeds.
fn first_difference(ours: &[u8], plain: &[u8]) -> String {
    let lines =
        |report| String::from_utf8_lossy(report).split_inclusive('\n').map(String::from).collect();
    let (ours, plain): (Vec<String>, Vec<String>) = (lines(ours), lines(plain));
    let same = ours.iter().zip(&plain).take_while(|(ours, plain)| ours == plain).count();
    let (ours, plain) = (ours.get(same), plain.get(same));
    format!("reports differ, ours has {ours:?} where plain has {plain:?}")
}

/// Counts acceptances as `A`, refusals by layer and number.
fn count_outcomes(report: &[u8], seen: &mut BTreeMap<String, u64>) {
    for line in String::from_utf8_lossy(report).lines() {
        let fields: Vec<&str> = line.split(',').collect();
        let outcome = match fields[..] {
            ["M", ..] => continue,
            [_, "R", layer, number, _] => format!("{layer}{number}"),
            _ => "A".into(),
        };
        *seen.entry(outcome).or_default() += 1;
    }
}

// ---- Measuring ----

const SAMPLES: usize = 41;
const SAMPLE_TIME: Duration = Duration::from_millis(20);

fn measure(sheets: &[&str]) -> Outcome<()> {
    println!("Whole sheets through the library call. Nanoseconds per line of the sheet, best and");
    println!(
        "median of {SAMPLES} samples taken in turn. Ratio: calls per second of ours ÷ plain, so"
    );
    println!("that 1.00 or more is at least as fast.\n");
    println!("                              ours            plain            ratio");
    println!("sheet        lines refused    best  median    best  median    best  median");
    for path in sheets {
        let sheet = fs::read(path)?;
        let name = Path::new(path).file_stem().unwrap_or_default().to_string_lossy();
        println!("{}", row(&name, &sheet)?);
    }
    Ok(())
}

fn row(name: &str, sheet: &[u8]) -> Outcome<String> {
    let mut registers = Registers::used(PROGRAM);
    let mut buffer = vec![0; LONGEST_REPORT];
    let report = plain(sheet, &mut registers);
    let length = ours(sheet, &mut registers, &mut buffer);
    if buffer.get(..usize::try_from(length)?) != Some(&report) {
        return Err(format!("{name}: reports differ").into());
    }
    let mut seen = BTreeMap::new();
    count_outcomes(&report, &mut seen);
    let lines: u64 = seen.values().sum();
    let refused = lines - seen.get("A").copied().unwrap_or(0);

    let mut run_ours = || black_box(ours(black_box(sheet), &mut registers, &mut buffer)) as usize;
    let mut plain_registers = Registers::used(PROGRAM);
    let mut run_plain = || black_box(plain(black_box(sheet), &mut plain_registers)).len();
    let [ours, plain] = samples(&mut run_ours, &mut run_plain, lines as f64);
    Ok(format!(
        "{name:<11}{lines:>7}{refused:>8}{:>8.1}{:>8.1}{:>8.1}{:>8.1}{:>8.2}{:>8.2}",
        ours.best,
        ours.median,
        plain.best,
        plain.median,
        plain.best / ours.best,
        plain.median / ours.median,
    ))
}

/// Nanoseconds per line.
struct Time {
    best: f64,
    median: f64,
}

/// Samples of both, in turn, the first of each pair by turns too.
fn samples(
    ours: &mut impl FnMut() -> usize,
    plain: &mut impl FnMut() -> usize,
    lines: f64,
) -> [Time; 2] {
    let calls = [calls_for_sample(ours), calls_for_sample(plain)];
    let mut times = [Vec::new(), Vec::new()];
    for sample in 0..SAMPLES {
        for turn in [sample % 2, (sample + 1) % 2] {
            let time = if turn == 0 { timed(ours, calls[0]) } else { timed(plain, calls[1]) };
            times[turn].push(time.as_nanos() as f64 / (f64::from(calls[turn]) * lines));
        }
    }
    times.map(|mut times| {
        times.sort_by(f64::total_cmp);
        Time { best: times[0], median: times[SAMPLES / 2] }
    })
}

fn timed(run: &mut impl FnMut() -> usize, calls: u32) -> Duration {
    let start = Instant::now();
    for _ in 0..calls {
        run();
    }
    start.elapsed()
}

/// As many calls as fill a sample; measuring them also warms up.
fn calls_for_sample(run: &mut impl FnMut() -> usize) -> u32 {
    let mut calls = 1;
    while timed(run, calls) < SAMPLE_TIME && calls < 1 << 20 {
        calls *= 2;
    }
    calls
}
