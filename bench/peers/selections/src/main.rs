//! The yardstick of reports by several keys: those of `focusd report` as a plain Rust program, without proofs.
//!
//!     selections SCRIPT < QUESTIONS
//!
//! It reads the posts of a script by the modules of the yardstick of ingest (`../expert`), and keeps of each row in columns what reports by
//! keys need (`columns`). Then it answers the questions of standard input, a line of JSON each (`question`), over all rows. An answer is a
//! line with its bytes and the nanoseconds of the processor that it took, and a CSV as focusd prints it. Nothing is kept from one question
//! to the next.
//!
//! It trusts the script: posts in turn that break no rule, and nothing else. Where one does, it stops with status 101.
#[path = "../../expert/src/fields.rs"]
mod fields;
#[allow(dead_code)] // the yardstick of ingest has more of it
#[path = "../../expert/src/names.rs"]
mod names;
#[path = "../../expert/src/rows.rs"]
mod rows;

mod columns;
mod question;
mod sums;

use columns::Columns;
use question::Question;
use std::fs::File;
use std::io::{self, BufRead, BufReader, Write};
use sums::Group;

const BUFFER: usize = 1 << 18;

/// The rows of all posts of a script.
fn read_script(path: &str) -> io::Result<Columns> {
    let mut input = BufReader::with_capacity(BUFFER, File::open(path)?);
    let mut columns = Columns::new();
    let (mut line, mut text) = (String::new(), Vec::new());
    while input.read_line(&mut line)? > 0 {
        let words: Vec<&str> = line.split_whitespace().collect();
        let ["post", _, _, lines] = words[..] else { panic!("no post: {line}") };
        text.clear();
        for _ in 0..lines.parse::<usize>().expect("a number of lines") {
            input.read_until(b'\n', &mut text)?;
        }
        columns.take(&text);
        line.clear();
    }
    Ok(columns)
}

#[repr(C)]
struct Time {
    seconds: i64,
    nanos: i64,
}

extern "C" {
    /// Of the C library, which std links anyway.
    fn clock_gettime(clock: i32, time: *mut Time) -> i32;
}

/// The nanoseconds of the processor that this program took.
fn processor_nanos() -> i64 {
    const OF_THE_PROCESS: i32 = 2;
    let mut time = Time { seconds: 0, nanos: 0 };
    // SAFETY: the place is that of a `timespec` of Linux on 64 bits.
    assert_eq!(unsafe { clock_gettime(OF_THE_PROCESS, &mut time) }, 0);
    time.seconds * 1_000_000_000 + time.nanos
}

/// A text as a field of a CSV.
fn field(text: &str) -> String {
    if text.contains([',', '"', '\r', '\n']) {
        format!("\"{}\"", text.replace('"', "\"\""))
    } else {
        text.to_string()
    }
}

fn amount(nanos: i128) -> String {
    let (sign, nanos) = (if nanos < 0 { "-" } else { "" }, nanos.unsigned_abs());
    format!("{sign}{}.{:09}", nanos / 1_000_000_000, nanos % 1_000_000_000)
}

fn csv_of(question: &Question, groups: &[Group]) -> String {
    let names: Vec<String> = question.keys.iter().map(|key| field(key.name())).collect();
    let mut text = names.join(",") + ",BilledCost,EffectiveCost\n";
    for group in groups {
        for part in &group.texts {
            text += &field(part);
            text.push(',');
        }
        text += &format!("{},{}\n", amount(group.sums.billed), amount(group.sums.effective));
    }
    text
}

/// The answer to a question. It is a function of its own in the program, so that its instructions can be counted.
#[inline(never)]
fn answer(columns: &Columns, line: &str) -> String {
    let question = Question::read(line);
    csv_of(&question, &sums::groups(columns, &question))
}

fn main() -> io::Result<()> {
    let path = std::env::args().nth(1).expect("the path of a script");
    let columns = read_script(&path)?;
    let (mut input, mut output) = (io::stdin().lock(), io::stdout().lock());
    writeln!(output, "rows {}", columns.costs.len())?;
    let mut line = String::new();
    while input.read_line(&mut line)? > 0 {
        let began = processor_nanos();
        let text = answer(&columns, &line);
        let took = processor_nanos() - began;
        write!(output, "{} {took}\n{text}", text.len())?;
        output.flush()?;
        line.clear();
    }
    Ok(())
}
