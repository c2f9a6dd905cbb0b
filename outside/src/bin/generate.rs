//! Writes drill files from a seed, and counts what comes in random calls.
//!
//! generate random SEED N          a drill file of N random calls
//! generate spent SEED             a drill file that spends the numbers
//! generate coverage SEED TARGET   a table of what came in about TARGET calls

use outside::drill;
use outside::generator;
use outside::kinds::{self, Counts, Form, LAST_KIND};
use std::io::{self, BufWriter, Write};
use std::process::ExitCode;

/// Calls of one history in a coverage run.
const HISTORY: u64 = 2000;

/// Writes calls to standard output as they come.
struct File {
    out: BufWriter<io::StdoutLock<'static>>,
    bytes: Vec<u8>,
    failed: Option<io::Error>,
}

impl File {
    fn new() -> Self {
        File {
            out: BufWriter::new(io::stdout().lock()),
            bytes: Vec::new(),
            failed: None,
        }
    }

    fn give(&mut self, call: &[u32; 6]) {
        self.bytes.clear();
        drill::push_call(call, &mut self.bytes);
        if self.failed.is_none() {
            self.failed = self.out.write_all(&self.bytes).err();
        }
    }

    fn close(mut self) -> io::Result<()> {
        match self.failed.take() {
            Some(error) => Err(error),
            None => self.out.flush(),
        }
    }
}

/// A kind's word before a remark.
fn word(form: &Form) -> String {
    kinds::row(form.kind).map_or_else(String::new, |row| format!("{}: ", row.word))
}

fn coverage(seed: u64, target: u64) -> io::Result<()> {
    let mut counts = Counts::new();
    let mut calls = 0u64;
    let mut give = |call, answer| {
        calls += 1;
        kinds::count(&mut counts, call, answer);
    };
    // Many short histories: one long one would spend its numbers.
    for n in 0..target.div_ceil(HISTORY) {
        let length = HISTORY.min(target - n * HISTORY);
        generator::random(seed.wrapping_add(n), length, &mut |_, call, answer| {
            give(call, answer)
        });
    }
    generator::spent(seed, &mut |_, call, answer| give(call, answer));

    let possible = kinds::possible();
    let mut out = BufWriter::new(io::stdout().lock());
    writeln!(
        out,
        "     kind  code event      count   (kind 0: outside 1 to {LAST_KIND})"
    )?;
    for (triple, count) in &counts {
        let (form, code, event) = triple;
        let mark = if possible.contains(triple) {
            String::new()
        } else {
            format!("   {}not held possible", word(form))
        };
        writeln!(out, "{form:>9} {code:5} {event:5} {count:10}{mark}")?;
    }
    for (form, code, event) in possible
        .iter()
        .filter(|triple| !counts.contains_key(triple))
    {
        writeln!(
            out,
            "{form:>9} {code:5} {event:5}          0   {}possible, never seen",
            word(form)
        )?;
    }
    let seen = possible
        .iter()
        .filter(|triple| counts.contains_key(triple))
        .count();
    writeln!(
        out,
        "{calls} calls (random histories of {HISTORY}, and one that spends the numbers): \
         {seen} of {} possible triples seen, {} others",
        possible.len(),
        counts.len() - seen
    )?;
    out.flush()
}

fn main() -> ExitCode {
    let words: Vec<String> = std::env::args().skip(1).collect();
    let number = |n: usize| words.get(n).and_then(|word| word.parse::<u64>().ok());
    let mode = words.first().map(String::as_str);
    let done = match (mode, words.len(), number(1), number(2)) {
        (Some("random"), 3, Some(seed), Some(count)) => {
            let mut file = File::new();
            generator::random(seed, count, &mut |_, call, _| file.give(&call));
            file.close()
        }
        (Some("spent"), 2, Some(seed), None) => {
            let mut file = File::new();
            generator::spent(seed, &mut |_, call, _| file.give(&call));
            file.close()
        }
        (Some("coverage"), 3, Some(seed), Some(target)) => coverage(seed, target),
        _ => {
            eprintln!("generate random SEED N | spent SEED | coverage SEED TARGET");
            return ExitCode::FAILURE;
        }
    };
    match done {
        Ok(()) => ExitCode::SUCCESS,
        Err(e) if e.kind() == io::ErrorKind::BrokenPipe => ExitCode::SUCCESS,
        Err(e) => {
            eprintln!("generate: {e}");
            ExitCode::FAILURE
        }
    }
}
