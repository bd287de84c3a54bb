//! Compares the proved library with the independent implementation on drawn files, and stops at the
//! first difference.
//!
//! compare [--seed N] [--files N | --seconds N] [--save FOLDER]
//! compare --show NUMBER [--seed N]   prints the file of that number

use std::collections::BTreeMap;
use std::fmt::Display;
use std::io::{self, Write};
use std::path::PathBuf;
use std::process::ExitCode;
use std::time::{Duration, Instant};

use harness::independent::line;
use harness::independent::refusal::Refusal;
use harness::independent::writer;
use harness::{generate, independent, proved};

const USAGE: &str = "compare [--seed N] [--files N | --seconds N] [--save FOLDER] [--show NUMBER]";

struct Options {
    seed: u64,
    files: u64,
    seconds: u64,
    save: PathBuf,
    /// The number of a file to print.
    show: Option<u64>,
}

fn options() -> Result<Options, String> {
    let mut options = Options {
        seed: 1,
        files: u64::MAX,
        seconds: u64::MAX,
        save: PathBuf::from("."),
        show: None,
    };
    let mut words = std::env::args().skip(1);
    while let Some(word) = words.next() {
        let mut value = || words.next().ok_or(format!("{word} wants a value"));
        let number = |text: String| text.parse().map_err(|_| format!("{text} is no number"));
        match word.as_str() {
            "--seed" => options.seed = number(value()?)?,
            "--files" => options.files = number(value()?)?,
            "--seconds" => options.seconds = number(value()?)?,
            "--save" => options.save = PathBuf::from(value()?),
            "--show" => options.show = Some(number(value()?)?),
            _ => return Err(format!("what is {word}?")),
        }
    }
    if options.files == u64::MAX && options.seconds == u64::MAX {
        options.files = 1_000;
    }
    Ok(options)
}

/// What was compared.
#[derive(Default)]
struct Counts {
    files: u64,
    bytes: u64,
    answers: u64,
    /// Accepted calls by the letter of their line, reports too.
    accepted: BTreeMap<char, u64>,
    /// Refusals by layer and number.
    refused: BTreeMap<String, u64>,
    /// Lines that the reader alone accepted and refused.
    lines_accepted: u64,
    lines_refused: u64,
}

impl Counts {
    fn add_file(&mut self, file: &[u8], printed: &[u8]) {
        self.files += 1;
        self.bytes += file.len() as u64;
        let lines = file.split(|&byte| byte == b'\n');
        for (line, answer) in lines.zip(String::from_utf8_lossy(printed).lines()) {
            self.answers += 1;
            let mut fields = answer.split(',');
            if fields.next() == Some("NO") {
                let cause: Vec<&str> = fields.skip(1).take(2).collect();
                *self.refused.entry(cause.join(" ")).or_default() += 1;
            } else {
                *self.accepted.entry(line[0] as char).or_default() += 1;
            }
        }
    }

    fn print(&self) {
        println!(
            "files {}, each over both sizes of the book; bytes {}, answers {}",
            self.files, self.bytes, self.answers
        );
        let accepted: u64 = self.accepted.values().sum();
        let refused: u64 = self.refused.values().sum();
        println!("calls accepted {accepted}: {}", shown(&self.accepted));
        println!("calls refused {refused}: {}", shown(&self.refused));
        println!(
            "lines read alone {}: accepted and written again {}, refused {}",
            self.lines_accepted + self.lines_refused,
            self.lines_accepted,
            self.lines_refused
        );
    }
}

fn shown<K: Display>(counts: &BTreeMap<K, u64>) -> String {
    let each: Vec<String> = counts
        .iter()
        .map(|(key, count)| format!("{key} {count}"))
        .collect();
    each.join(", ")
}

/// What both print for a whole file, or how they differ.
fn compare_file(file: &[u8]) -> Result<Vec<u8>, String> {
    let (wanted, found) = (independent::serve_large(file), proved::serve_large(file));
    if wanted != found {
        return Err(first_other_line("serve_large", file, &wanted, &found));
    }
    let (wanted, found) = (independent::serve(file), proved::serve(file));
    if wanted != found {
        return Err(first_other_line("serve", file, &wanted, &found));
    }
    Ok(found)
}

fn first_other_line(function: &str, file: &[u8], wanted: &[u8], found: &[u8]) -> String {
    let parts = |bytes: &[u8]| -> Vec<String> {
        let lines = bytes.split(|&byte| byte == b'\n');
        lines
            .map(|line| String::from_utf8_lossy(line).into_owned())
            .collect()
    };
    let (file, wanted, found) = (parts(file), parts(wanted), parts(found));
    let place = (0..)
        .find(|&i| wanted.get(i) != found.get(i))
        .unwrap_or_default();
    let at = |lines: &[String]| lines.get(place).cloned().unwrap_or_default();
    format!(
        "{function}, line {}: {}\n  independent: {}\n  proved:      {}",
        place + 1,
        at(&file),
        at(&wanted),
        at(&found)
    )
}

/// What a reader and its writer make of a line: the refused field, and the line written again.
type Reading = (Option<u64>, Option<Vec<u8>>);

fn independent_reading(number: usize, line: &[u8]) -> Reading {
    match line::read(line, number) {
        Ok(call) => {
            let mut out = [0; proved::LINE_ROOM];
            let length = writer::write(&call, &mut out);
            (None, length.map(|length| out[..length].to_vec()))
        }
        Err(Refusal::Line(field)) => (Some(field), None),
        Err(refusal) => panic!("a reader refuses by cause 15, not by {refusal}"),
    }
}

fn proved_reading(number: usize, line: &[u8]) -> Reading {
    (
        proved::refused_field(number, line),
        proved::rewrite(number, line),
    )
}

/// How the two differ on a line read alone; an accepted line must be written again in the same bytes.
fn line_difference(number: usize, line: &[u8]) -> Option<String> {
    let wanted = independent_reading(number, line);
    let found = proved_reading(number, line);
    let is_same = wanted == found && found.1.as_deref().is_none_or(|written| written == line);
    let text = |reading: Reading| match reading {
        (field, None) => format!("refused field {field:?}"),
        (field, Some(written)) => {
            format!(
                "refused field {field:?}, written again {}",
                written.escape_ascii()
            )
        }
    };
    (!is_same).then(|| {
        format!(
            "line {} as number {number}\n  independent: {}\n  proved:      {}",
            line.escape_ascii(),
            text(wanted),
            text(found)
        )
    })
}

/// Reads each line of a file alone: under its own number, under one of the first three, and with one byte
/// spoiled. At a difference, the line and how.
fn check_lines(counts: &mut Counts, seed: u64, file: &[u8]) -> Result<(), (Vec<u8>, String)> {
    let lines = file.split_inclusive(|&byte| byte == b'\n');
    for (place, line) in lines.enumerate() {
        let spoiled = generate::spoiled(seed.wrapping_add(place as u64), line);
        for (number, line) in [
            (place + 1, line),
            (place % 3 + 1, line),
            (place + 1, &spoiled),
        ] {
            if let Some(how) = line_difference(number, line) {
                return Err((line.to_vec(), how));
            }
            match proved::refused_field(number, line) {
                None => counts.lines_accepted += 1,
                Some(_) => counts.lines_refused += 1,
            }
        }
    }
    Ok(())
}

/// Leaves out lines for as long as a difference remains.
fn shrunk(file: &[u8]) -> Vec<u8> {
    let mut lines: Vec<&[u8]> = file.split_inclusive(|&byte| byte == b'\n').collect();
    let mut size = lines.len() / 2;
    while size > 0 {
        let mut begin = 0;
        while begin < lines.len() {
            let end = (begin + size).min(lines.len());
            let rest = [&lines[..begin], &lines[end..]].concat();
            if compare_file(&rest.concat()).is_err() {
                lines = rest;
            } else {
                begin = end;
            }
        }
        size /= 2;
    }
    lines.concat()
}

fn save(options: &Options, name: &str, bytes: &[u8]) -> io::Result<()> {
    std::fs::create_dir_all(&options.save)?;
    let path = options.save.join(name);
    println!("saved {}", path.display());
    std::fs::write(path, bytes)
}

fn tell_file(options: &Options, number: u64, file: &[u8], how: &str) -> io::Result<()> {
    println!("file {number} of seed {} differs: {how}", options.seed);
    let name = format!("difference-{}-{number}", options.seed);
    save(options, &format!("{name}.txt"), file)?;
    let small = shrunk(file);
    save(options, &format!("{name}-small.txt"), &small)?;
    if let Err(how) = compare_file(&small) {
        println!("in the small file: {how}");
    }
    Ok(())
}

fn tell_line(options: &Options, number: u64, line: &[u8], how: &str) -> io::Result<()> {
    println!("in file {number} of seed {}: {how}", options.seed);
    let name = format!("difference-{}-{number}-line.txt", options.seed);
    save(options, &name, line)
}

/// Whether no difference was found.
fn run(options: &Options) -> io::Result<bool> {
    println!("seed {}", options.seed);
    let until = Instant::now().checked_add(Duration::from_secs(options.seconds.min(1_000_000)));
    let mut counts = Counts::default();
    let mut is_same = true;
    for number in 0..options.files {
        if until.is_some_and(|until| Instant::now() >= until) {
            break;
        }
        let file = generate::file(options.seed, number);
        match compare_file(&file) {
            Ok(printed) => counts.add_file(&file, &printed),
            Err(how) => {
                tell_file(options, number, &file, &how)?;
                is_same = false;
                break;
            }
        }
        if let Err((line, how)) = check_lines(&mut counts, options.seed ^ number, &file) {
            tell_line(options, number, &line, &how)?;
            is_same = false;
            break;
        }
    }
    counts.print();
    if is_same {
        println!("no difference");
    }
    Ok(is_same)
}

fn main() -> ExitCode {
    let options = match options() {
        Ok(options) => options,
        Err(message) => {
            eprintln!("{message}\n{USAGE}");
            return ExitCode::from(2);
        }
    };
    let outcome = match options.show {
        Some(number) => io::stdout()
            .write_all(&generate::file(options.seed, number))
            .map(|()| true),
        None => run(&options),
    };
    match outcome {
        Ok(true) => ExitCode::SUCCESS,
        Ok(false) => ExitCode::FAILURE,
        Err(error) => {
            eprintln!("{error}");
            ExitCode::from(2)
        }
    }
}
