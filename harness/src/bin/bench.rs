//! Times the proved library beside the independent implementation, on the same inputs in one run.
//!
//! bench [--rounds N]
//!
//! Within a round everything is run once, the proved and the plain one in turns. A time is the median over
//! the rounds of this thread's processor time; a ratio or a growth is the median of the rounds' quotients.
//! What a single call costs is the difference of two files, with it and without.

use std::hint::black_box;
use std::process::ExitCode;

use harness::independent::{line, writer};
use harness::{generate, independent, loads, proved};

const SEED: u64 = 1;
/// Reports in a file that times them.
const REPORTS: usize = 200;
/// How often a week's lines are read in a round.
const READINGS: usize = 20;

mod clock {
    /// Linux's number of the clock of this thread's processor time.
    const THREAD: i32 = 3;

    #[repr(C)]
    struct Time {
        seconds: i64,
        nanoseconds: i64,
    }

    extern "C" {
        fn clock_gettime(clock: i32, time: *mut Time) -> i32;
    }

    /// Seconds of processor time so far.
    pub fn now() -> f64 {
        let mut time = Time {
            seconds: 0,
            nanoseconds: 0,
        };
        // SAFETY: `time` is the C structure on 64-bit Linux, and lives through the call.
        let status = unsafe { clock_gettime(THREAD, &mut time) };
        assert_eq!(status, 0, "the clock can be read");
        time.seconds as f64 + time.nanoseconds as f64 * 1e-9
    }
}

/// Seconds of both, the same work.
#[derive(Clone, Copy)]
struct Both {
    proved: f64,
    plain: f64,
}

impl Both {
    fn map(self, f: impl Fn(f64) -> f64) -> Both {
        Both {
            proved: f(self.proved),
            plain: f(self.plain),
        }
    }

    fn minus(self, other: Both) -> Both {
        Both {
            proved: self.proved - other.proved,
            plain: self.plain - other.plain,
        }
    }
}

fn seconds<T>(work: impl FnOnce() -> T) -> f64 {
    let begun = clock::now();
    black_box(work());
    clock::now() - begun
}

fn median(numbers: impl Iterator<Item = f64>) -> f64 {
    let mut numbers: Vec<f64> = numbers.collect();
    numbers.sort_by(f64::total_cmp);
    numbers[numbers.len() / 2]
}

/// Work that is timed in every round, and what the rounds told.
struct Measure {
    what: &'static str,
    work: Box<dyn Fn() -> Both>,
    told: Vec<Both>,
}

impl Measure {
    fn new(what: &'static str, work: impl Fn() -> Both + 'static) -> Measure {
        Measure {
            what,
            work: Box::new(work),
            told: Vec::new(),
        }
    }

    fn time(&self) -> Both {
        Both {
            proved: median(self.told.iter().map(|both| both.proved)),
            plain: median(self.told.iter().map(|both| both.plain)),
        }
    }

    /// Proved by plain.
    fn ratio(&self) -> f64 {
        median(self.told.iter().map(|both| both.proved / both.plain))
    }

    /// How many times the other's cost this one costs.
    fn growth(&self, other: &Measure) -> Both {
        let rounds = || self.told.iter().zip(&other.told);
        Both {
            proved: median(rounds().map(|(now, before)| now.proved / before.proved)),
            plain: median(rounds().map(|(now, before)| now.plain / before.plain)),
        }
    }
}

type Serve = fn(&[u8]) -> Vec<u8>;

/// Both implementations of a way to serve a file.
#[derive(Clone, Copy)]
struct Served {
    proved: Serve,
    plain: Serve,
}

const USUAL: Served = Served {
    proved: proved::serve,
    plain: independent::serve,
};
const LARGE: Served = Served {
    proved: proved::serve_large,
    plain: independent::serve_large,
};

impl Served {
    /// Both must print the same.
    fn check(self, file: &[u8]) {
        let printed = (self.proved)(file);
        assert_eq!(printed, (self.plain)(file), "both print the same");
        assert!(file.len() <= independent::INPUT_LIMIT);
    }

    /// As `check`, and no line may be refused.
    fn check_accepted(self, file: &[u8]) {
        self.check(file);
        assert_eq!(refused(&(self.plain)(file)), 0, "every line is accepted");
    }

    fn time(self, file: &[u8]) -> Both {
        Both {
            proved: seconds(|| (self.proved)(file)),
            plain: seconds(|| (self.plain)(file)),
        }
    }

    /// What the file takes longer than the other.
    fn difference(self, file: Vec<u8>, without: Vec<u8>) -> impl Fn() -> Both {
        self.check_accepted(&file);
        self.check_accepted(&without);
        move || self.time(&file).minus(self.time(&without))
    }
}

/// How many of the printed answers are refusals.
fn refused(printed: &[u8]) -> usize {
    let answers = printed.split(|&byte| byte == b'\n');
    answers.filter(|answer| answer.starts_with(b"NO")).count()
}

fn week(file: &[u8]) -> Measure {
    USUAL.check(file);
    let file = file.to_vec();
    Measure::new("a trading week", move || USUAL.time(&file))
}

/// A report on so many open lots.
fn report(what: &'static str, lots: usize) -> Measure {
    let work = LARGE.difference(loads::reports(lots, REPORTS), loads::reports(lots, 0));
    Measure::new(what, move || work().map(|time| time / REPORTS as f64))
}

fn trade() -> Measure {
    let work = USUAL.difference(loads::pairs(true), loads::pairs(false));
    Measure::new("a trade against 1,000 lots that makes 500 pairs", work)
}

/// A rollover of so many slips over 64 accounts.
fn rollover(what: &'static str, slips: usize) -> Measure {
    let work = LARGE.difference(loads::slips(slips, true), loads::slips(slips, false));
    Measure::new(what, work)
}

/// Work on each line of a file in its turn, a line.
fn each_line(
    what: &'static str,
    file: &[u8],
    proved: fn(usize, &[u8]) -> usize,
    plain: fn(usize, &[u8]) -> usize,
) -> Measure {
    let lines = file.split_inclusive(|&byte| byte == b'\n');
    let lines: Vec<Vec<u8>> = lines.map(<[u8]>::to_vec).collect();
    let sum = move |work: fn(usize, &[u8]) -> usize| {
        let all = || {
            (1..)
                .zip(&lines)
                .map(|(number, line)| work(number, black_box(line)))
        };
        (0..READINGS).map(|_| all().sum::<usize>()).sum::<usize>()
    };
    assert_eq!(sum(proved), sum(plain), "both tell the same");
    let count = READINGS * file.iter().filter(|&&byte| byte == b'\n').count();
    Measure::new(what, move || {
        let both = Both {
            proved: seconds(|| sum(proved)),
            plain: seconds(|| sum(plain)),
        };
        both.map(|time| time / count as f64)
    })
}

fn reader(file: &[u8]) -> Measure {
    each_line(
        "reader, a line of the week",
        file,
        |number, line| usize::from(proved::refused_field(number, line).is_none()),
        |number, line| usize::from(black_box(line::read(line, number)).is_ok()),
    )
}

fn reader_and_writer(file: &[u8]) -> Measure {
    each_line(
        "reader and writer, a line of the week",
        file,
        |number, line| {
            let mut out = [0; proved::LINE_ROOM];
            let length = proved::rewrite_into(number, line, &mut out);
            black_box(&out);
            length.unwrap_or_default()
        },
        |number, line| {
            let mut out = [0; proved::LINE_ROOM];
            let call = line::read(line, number).ok();
            let length = call.and_then(|call| writer::write(&call, &mut out));
            black_box(&out);
            length.unwrap_or_default()
        },
    )
}

/// A time in the unit that suits it.
fn shown(seconds: f64) -> String {
    match seconds.abs() {
        s if s < 1e-6 => format!("{:.1} ns", seconds * 1e9),
        s if s < 1e-3 => format!("{:.1} us", seconds * 1e6),
        _ => format!("{:.2} ms", seconds * 1e3),
    }
}

fn print_head(title: &str) {
    println!(
        "\n{title:<50} {:>10} {:>10} {:>7}",
        "proved", "plain", "ratio"
    );
}

fn print_row(measure: &Measure) {
    let time = measure.time();
    println!(
        "{:<50} {:>10} {:>10} {:>7.2}",
        measure.what,
        shown(time.proved),
        shown(time.plain),
        measure.ratio()
    );
}

/// How the cost grows where the load doubles.
fn print_doubling(measures: &[Measure]) {
    print_head("each twice the load before");
    print_row(&measures[0]);
    for two in measures.windows(2) {
        let growth = two[1].growth(&two[0]);
        let times = |growth: f64| format!("x {growth:.2}");
        println!(
            "{:<50} {:>10} {:>10}",
            "",
            times(growth.proved),
            times(growth.plain)
        );
        print_row(&two[1]);
    }
}

fn rounds() -> Option<usize> {
    let words: Vec<String> = std::env::args().skip(1).collect();
    match &words[..] {
        [] => Some(21),
        [word, number] if word == "--rounds" => number.parse().ok().filter(|&rounds| rounds > 0),
        _ => None,
    }
}

fn main() -> ExitCode {
    let Some(rounds) = rounds() else {
        eprintln!("bench [--rounds N]");
        return ExitCode::from(2);
    };
    let file = generate::week(SEED);
    let mut single = [
        week(&file),
        trade(),
        reader(&file),
        reader_and_writer(&file),
    ];
    let mut reports = [
        report("a report on 1,024 open lots", 1_024),
        report("a report on 2,048 open lots", 2_048),
        report("a report on 4,096 open lots", 4_096),
    ];
    let mut rollovers = [
        rollover("a rollover of 2,048 slips, 64 accounts", 2_048),
        rollover("a rollover of 4,096 slips, 64 accounts", 4_096),
        rollover("a rollover of 8,192 slips, 64 accounts", 8_192),
    ];
    for _ in 0..rounds {
        for measure in single.iter_mut().chain(&mut reports).chain(&mut rollovers) {
            measure.told.push((measure.work)());
        }
    }

    let lines = file.iter().filter(|&&byte| byte == b'\n').count();
    let refused = refused(&proved::serve(&file));
    println!(
        "{rounds} rounds; the week of seed {SEED} has {} bytes, {lines} lines, {refused} of them refused",
        file.len()
    );
    print_head("");
    let [week, trade, reader, both] = &single;
    for measure in [week, &reports[2], trade, &rollovers[2], reader, both] {
        print_row(measure);
    }
    print_doubling(&reports);
    print_doubling(&rollovers);
    ExitCode::SUCCESS
}
