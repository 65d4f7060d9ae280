//! `oracle` answers each line of standard input; `oracle compare` holds the
//! answers against the recorded ones.

use std::collections::BTreeMap;
use std::io::{self, BufRead, BufWriter, Write};
use std::panic;
use std::process::ExitCode;

use oracle::Refusal;
use oracle::vectors::{self, Reply};

fn main() -> io::Result<ExitCode> {
    let args: Vec<String> = std::env::args().skip(1).collect();
    let mut out = BufWriter::new(io::stdout().lock());
    let lines = io::stdin().lock().lines();
    let code = match args.iter().map(String::as_str).collect::<Vec<_>>()[..] {
        [] => {
            for line in lines {
                match answer(&line?) {
                    Some(reply) => writeln!(out, "{reply}")?,
                    None => writeln!(out, "stopped {PANIC}")?,
                }
            }
            ExitCode::SUCCESS
        }
        ["compare"] => compare(lines, &mut out)?,
        _ => {
            eprintln!("usage: oracle [compare] < LINES");
            ExitCode::from(2)
        }
    };
    out.flush()?;
    Ok(code)
}

const PANIC: &str = "the Rust panicked, and no guard foresaw it";

/// `None` if the Rust panics.
fn answer(line: &str) -> Option<Reply> {
    panic::catch_unwind(|| vectors::answer(line)).ok()
}

#[derive(Default)]
struct Count {
    ok: usize,
    no: usize,
    stopped: usize,
    different: usize,
    doc: usize,
}

/// Compares the lines marked `both`: the values where they are accepted, the
/// refusal alone where they are not, since the Rust gives no question numbers.
fn compare(
    lines: impl Iterator<Item = io::Result<String>>,
    out: &mut impl Write,
) -> io::Result<ExitCode> {
    let mut counts: BTreeMap<String, Count> = BTreeMap::new();
    for (i, line) in lines.enumerate() {
        let line = line?;
        let Some((call, recorded)) = line.split_once(" = ") else {
            continue;
        };
        let name = call.split(' ').next().unwrap_or_default();
        let count = counts.entry(name.to_owned()).or_default();
        let Some(recorded) = recorded.strip_suffix(" # both") else {
            count.doc += 1;
            continue;
        };
        let reply = answer(call);
        let question = recorded.strip_prefix("no ");
        match (&reply, question) {
            (Some(reply @ Reply::Ok(_)), None) if reply.to_string() == recorded => count.ok += 1,
            (Some(Reply::Refused(Refusal::No(_))), Some(_)) => count.no += 1,
            (Some(Reply::Refused(Refusal::Stopped(_))), Some(question)) if may_stop(question) => {
                count.stopped += 1;
            }
            _ => {
                count.different += 1;
                let reply = reply.map_or(PANIC.to_owned(), |reply| reply.to_string());
                writeln!(out, "line {}: {call}", i + 1)?;
                writeln!(out, "  recorded {recorded}\n  the Rust {reply}")?;
            }
        }
    }

    let header = ["call", "ok", "no", "stopped", "different", "doc"].map(str::to_owned);
    let mut total = Count::default();
    let mut row = |cells: [String; 6]| {
        let [call, ok, no, stopped, different, doc] = cells;
        writeln!(
            out,
            "{call:<10}{ok:>6}{no:>6}{stopped:>9}{different:>11}{doc:>6}"
        )
    };
    row(header)?;
    for (name, count) in counts {
        row(count.row(&name))?;
        total.add(&count);
    }
    row(total.row("total"))?;
    Ok(ExitCode::from(u8::from(total.different > 0)))
}

/// The questions that answer where the Rust is stopped.
fn may_stop(question: &str) -> bool {
    matches!(question.split(' ').next(), Some("6" | "21" | "28"))
}

impl Count {
    fn add(&mut self, other: &Self) {
        self.ok += other.ok;
        self.no += other.no;
        self.stopped += other.stopped;
        self.different += other.different;
        self.doc += other.doc;
    }

    fn row(&self, name: &str) -> [String; 6] {
        let numbers = [self.ok, self.no, self.stopped, self.different, self.doc];
        let [ok, no, stopped, different, doc] = numbers.map(|n| n.to_string());
        [name.to_owned(), ok, no, stopped, different, doc]
    }
}
