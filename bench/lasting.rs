//! How long a part lasts, counted by trying: every schedule of every short trace, and what `ee size` tells of random
//! scripts, against plain arithmetic.
//!
//!     lasting EE CASES SEED
//!
//! First every trace up to renaming, of up to ten writes or up to seven writes and forgettings, on one to six
//! slots: of all its schedules with at most one copy between two changes, the fewest erases of the most worn page
//! are half of the transfers that a store makes that transfers as late as it can, rounded down where the other set starts
//! blank, and up where its first page waits to be erased. Then CASES runs of `EE size`. The last line is
//! `N passed, M failed, 0 skipped`, with status 1 where M isn't 0.
#![forbid(unsafe_code)]

mod dice;

use dice::Dice;
use std::env;
use std::fmt::Write as _;
use std::fs;
use std::path::Path;
use std::process::{Command, ExitCode};

const MOST_SLOTS: usize = 6;
const MOST_WRITES: usize = 10;
const MOST_CHANGES: usize = 7;
/// With a copy before each change, and each change carried along.
const MOST_TRANSFERS: usize = 2 * MOST_WRITES;
/// A store has generations for so many transfers.
const GENERATIONS: u64 = 4_294_967_293;

#[derive(Clone, Copy)]
enum Change {
    Write(usize),
    Forget(usize),
}

fn made(live: u32, change: Change) -> u32 {
    match change {
        Change::Write(address) => live | 1 << address,
        Change::Forget(address) => live & !(1 << address),
    }
}

/// How often the more worn of two pages is erased by so many transfers, each of which enters the page that isn't live:
/// it must be blank then. At the start the first one is live, and the other blank, or it waits to be erased.
fn most_worn(transfers: usize, waits: bool) -> u64 {
    let (mut erases, mut blank, mut live) = ([0, 0], [false, !waits], 0);
    for _ in 0..transfers {
        live = 1 - live;
        if !blank[live] {
            erases[live] += 1;
        }
        blank[live] = false;
    }
    erases[0].max(erases[1])
}

/// What all schedules of a trace come to: for each number of transfers the slots that may be used then, one bit each.
#[derive(Clone, Copy)]
struct Schedules([u8; MOST_TRANSFERS + 1]);

impl Schedules {
    fn at_start() -> Self {
        let mut reached = [0; MOST_TRANSFERS + 1];
        reached[0] = 1;
        Schedules(reached)
    }

    /// One change more: appended to a free slot, or carried along in a transfer; and a copy may come before.
    fn with(&self, slots: u32, live: u32, change: Change) -> Self {
        let next = made(live, change);
        let after = next.count_ones();
        let fits = after <= slots || matches!(change, Change::Forget(_));
        let free = (1u8 << slots) - 1;
        let mut reached = [0; MOST_TRANSFERS + 1];
        for copies in 0..2 {
            for transfers in 0..=MOST_TRANSFERS {
                let from = match (copies, self.0[transfers]) {
                    (_, 0) => continue,
                    (0, used) => used,
                    _ => 1 << live.count_ones(),
                };
                if from & free != 0 {
                    reached[transfers + copies] |= (from & free) << 1;
                }
                if fits {
                    reached[transfers + copies + 1] |= 1 << after;
                }
            }
        }
        Schedules(reached)
    }

    /// The fewest erases of the most worn page, if there is a schedule.
    fn least(&self, waits: bool) -> Option<u64> {
        (0..=MOST_TRANSFERS)
            .filter(|&transfers| self.0[transfers] != 0)
            .map(|transfers| most_worn(transfers, waits))
            .min()
    }
}

/// The store that transfers when each slot is used.
#[derive(Clone, Copy)]
struct Late {
    fill: u64,
    transfers: u64,
}

impl Late {
    fn with(self, slots: u64, live_after: u64) -> Self {
        if self.fill < slots {
            Late {
                fill: self.fill + 1,
                ..self
            }
        } else {
            Late {
                fill: live_after,
                transfers: self.transfers + 1,
            }
        }
    }
}

struct Counts {
    passed: u64,
    failed: u64,
}

impl Counts {
    fn count(&mut self, right: bool, say: impl FnOnce() -> String) {
        if right {
            self.passed += 1;
        } else {
            self.failed += 1;
            if self.failed < 10 {
                println!("{}", say());
            }
        }
    }
}

/// A trace on so many slots, as far as it goes.
#[derive(Clone, Copy)]
struct Trace {
    slots: u32,
    live: u32,
    names: usize,
    schedules: Schedules,
    late: Late,
}

/// All traces that go on from this one by so many changes at the most; a new address has the next name.
fn try_traces(trace: Trace, more: usize, forgets: bool, counts: &mut Counts) {
    let transfers = trace.late.transfers;
    let least = [false, true].map(|waits| trace.schedules.least(waits));
    counts.count(
        least == [Some(transfers / 2), Some((transfers + 1) / 2)],
        || {
            format!(
                "{} slots, {transfers} transfers, least {least:?}",
                trace.slots
            )
        },
    );
    if more == 0 {
        return;
    }
    for address in 0..=trace.names {
        for change in [Change::Write(address), Change::Forget(address)] {
            if matches!(change, Change::Forget(_)) && !forgets {
                continue;
            }
            let live = made(trace.live, change);
            let schedules = trace.schedules.with(trace.slots, trace.live, change);
            if live.count_ones() > trace.slots {
                counts.count(schedules.least(false).is_none(), || {
                    "a schedule of what doesn't fit".into()
                });
                continue;
            }
            let late = trace
                .late
                .with(trace.slots.into(), live.count_ones().into());
            let names = trace.names.max(address + 1);
            try_traces(
                Trace {
                    live,
                    names,
                    schedules,
                    late,
                    ..trace
                },
                more - 1,
                forgets,
                counts,
            );
        }
    }
}

impl Dice {
    fn of(&mut self, least: u64, most: u64) -> u64 {
        least + self.next() % (most - least + 1)
    }

    /// A number of up to so many bits, few or many.
    fn of_any_length(&mut self, bits: u64) -> u64 {
        let bits = self.of(1, bits);
        self.of(1, 1 << bits)
    }
}

/// What a script made so often asks of sets of so many slots: the transfers, or the first change that doesn't fit.
struct Asked {
    changes: u64,
    /// How many addresses are live after each change; none where all writes are of one address.
    live: Vec<u64>,
}

impl Asked {
    fn transfers(&self, slots: u64) -> Result<u64, u64> {
        if self.live.is_empty() {
            // One address: each transfer leaves one slot used, and each change takes one more.
            return Ok(self.changes.saturating_sub(1) / slots);
        }
        if let Some(place) = self.live.iter().position(|&live| live > slots) {
            return Err(place as u64 + 1);
        }
        let mut late = Late {
            fill: 0,
            transfers: 0,
        };
        for &live in &self.live {
            late = late.with(slots, live);
        }
        Ok(late.transfers)
    }
}

/// N / (2 P W), rounded up, less one.
fn limit(changes: u64, pages: u64, words: u64) -> u64 {
    let words = 2 * pages * words;
    ((changes + words - 1) / words).saturating_sub(1)
}

fn verdict(transfers: u64, limit: u64, cycles: u64) -> &'static str {
    let erases = (transfers + 1) / 2;
    match () {
        () if transfers > GENERATIONS => "spent",
        () if erases <= cycles => "enough",
        () if cycles < limit => "worn for any",
        () if cycles < transfers / 2 => "worn for all",
        () => "worn",
    }
}

/// The lines of all sizes, with the fewest pages that are enough, and whether some are.
fn told(asked: &Asked, words: u64, cycles: u64) -> (String, bool) {
    let (mut text, mut fewest) = (String::new(), None);
    for pages in 1..=64 {
        let slots = pages * (words - 4);
        let _ = write!(text, "pages {pages} slots {slots} ");
        match asked.transfers(slots) {
            Err(place) => {
                let _ = writeln!(text, "not fitting {place}");
            }
            Ok(transfers) => {
                let (erases, least) = ((transfers + 1) / 2, transfers / 2);
                let limit = limit(asked.changes, pages, words);
                let verdict = verdict(transfers, limit, cycles);
                if verdict == "enough" {
                    fewest = fewest.or(Some(pages));
                }
                let _ = writeln!(
                    text,
                    "transfers {transfers} erases {erases} least {least} limit {limit} {verdict}"
                );
            }
        }
    }
    if let Some(pages) = fewest {
        let _ = writeln!(text, "fewest pages {pages}");
    }
    (text, fewest.is_some())
}

/// A script of one address, made any number of times.
fn script_of_one(dice: &mut Dice) -> (String, u64, Asked) {
    let (lines, runs) = (dice.of(1, 9), dice.of_any_length(32).min(u32::MAX.into()));
    let script = "w 7 1\nr 7\n".repeat(lines as usize);
    (
        script,
        runs,
        Asked {
            changes: lines * runs,
            live: Vec::new(),
        },
    )
}

/// A script of few addresses, which are written, forgotten and read.
fn script_of_some(dice: &mut Dice) -> (String, u64, Asked) {
    let (lines, runs, names) = (dice.of(0, 20), dice.of(1, 150), dice.of(1, 9));
    let (mut script, mut changes) = (String::new(), Vec::new());
    for _ in 0..lines {
        let address = dice.of(1, names) as usize;
        match dice.of(0, 9) {
            0 => script.push_str("c\n"),
            1 => _ = writeln!(script, "r {address}"),
            2 | 3 => {
                _ = writeln!(script, "f {address}");
                changes.push(Change::Forget(address));
            }
            _ => {
                _ = writeln!(script, "w {address} {}", dice.of(0, u32::MAX.into()));
                changes.push(Change::Write(address));
            }
        }
    }
    let (mut live, mut counts) = (0, Vec::new());
    for _ in 0..runs {
        for &change in &changes {
            live = made(live, change);
            counts.push(live.count_ones().into());
        }
    }
    (
        script,
        runs,
        Asked {
            changes: counts.len() as u64,
            live: counts,
        },
    )
}

/// Cycles that are near to what one of the sizes says, or far from it.
fn cycles_near(dice: &mut Dice, asked: &Asked, words: u64) -> u64 {
    let pages = dice.of(1, 8);
    let transfers = asked.transfers(pages * (words - 4)).unwrap_or(0);
    let near = match dice.of(0, 3) {
        0 => dice.of_any_length(31),
        1 => limit(asked.changes, pages, words),
        _ => transfers / 2,
    };
    (near + dice.of(0, 2))
        .saturating_sub(1)
        .clamp(1, u32::MAX.into())
}

/// One run of `size` on a random script.
fn try_size(
    ee: &str,
    path: &Path,
    dice: &mut Dice,
    counts: &mut Counts,
) -> Result<(), std::io::Error> {
    let words = if dice.of(0, 1) == 0 {
        dice.of(5, 12)
    } else {
        dice.of(5, 512)
    };
    let (script, runs, asked) = if dice.of(0, 2) == 0 {
        script_of_one(dice)
    } else {
        script_of_some(dice)
    };
    let cycles = cycles_near(dice, &asked, words);
    fs::write(path, &script)?;
    let numbers = [words, cycles, runs].map(|number| number.to_string());
    let ended = Command::new(ee)
        .arg("size")
        .arg(&numbers[0])
        .arg(path)
        .arg(&numbers[1])
        .arg(&numbers[2])
        .output()?;
    let (text, some) = told(&asked, words, cycles);
    let (fault, status) = if some {
        ("", 0)
    } else {
        ("ee: no size is enough\n", 4)
    };
    let right = ended.stdout == text.as_bytes()
        && ended.stderr == fault.as_bytes()
        && ended.status.code() == Some(status);
    counts.count(right, || {
        format!("size {words} SCRIPT {cycles} {runs}, of the script\n{script}")
    });
    Ok(())
}

fn try_sizes(ee: &str, cases: u64, seed: u64, counts: &mut Counts) -> Result<(), std::io::Error> {
    let folder = env::temp_dir().join(format!("ee-lasting-{}", std::process::id()));
    fs::create_dir(&folder)?;
    let mut dice = Dice(seed);
    let ended =
        (0..cases).try_for_each(|_| try_size(ee, &folder.join("script"), &mut dice, counts));
    fs::remove_dir_all(&folder)?;
    ended
}

fn main() -> ExitCode {
    let words: Vec<String> = env::args().skip(1).collect();
    let [ee, cases, seed] = &words[..] else {
        eprintln!("lasting EE CASES SEED");
        return ExitCode::from(2);
    };
    let (Ok(cases), Ok(seed)) = (cases.parse(), seed.parse()) else {
        eprintln!("lasting: CASES and SEED are numbers");
        return ExitCode::from(2);
    };
    let mut counts = Counts {
        passed: 0,
        failed: 0,
    };
    for slots in 1..=MOST_SLOTS as u32 {
        let start = Trace {
            slots,
            live: 0,
            names: 0,
            schedules: Schedules::at_start(),
            late: Late {
                fill: 0,
                transfers: 0,
            },
        };
        try_traces(start, MOST_WRITES, false, &mut counts);
        try_traces(start, MOST_CHANGES, true, &mut counts);
    }
    println!(
        "{} traces on one to six slots, of which all schedules were made",
        counts.passed + counts.failed
    );
    if let Err(fault) = try_sizes(ee, cases, seed, &mut counts) {
        eprintln!("lasting: {fault}");
        return ExitCode::from(2);
    }
    println!("{cases} runs of size");
    println!(
        "{} passed, {} failed, 0 skipped",
        counts.passed, counts.failed
    );
    ExitCode::from(u8::from(counts.failed > 0))
}
