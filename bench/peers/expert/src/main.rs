//! The yardstick of the bench: the job of `focusd run` as a plain Rust program, without proofs.
//!
//! It reads the same script from standard input, checks the same rules of each
//! row, tells entries apart that are sent twice or out of turn, keeps every accepted row
//! in memory, and answers posts, withdrawals and reports in the same words. Rows are kept as an expert would keep them: amounts as whole
//! nanos (10^-9 of the currency unit), times as seconds since 1970. By `--log FILE --syncs 1|2` each post and each withdrawal is appended
//! to a file and synced, once or twice, before it is answered.
mod fields;
mod log;
mod names;
mod rows;
mod warehouse;

use log::Log;
use std::collections::BTreeMap;
use std::fmt;
use std::io::{self, BufRead, BufReader, BufWriter, Write};
use warehouse::{NoReport, Sums, Verdict, Warehouse};

const BUFFER: usize = 1 << 18;
const MOST_LINES: usize = 1_000_000;

enum Command {
    Post {
        origin: Vec<u8>,
        number: Option<u64>,
        lines: usize,
    },
    Withdraw {
        origin: Vec<u8>,
        number: Option<u64>,
        target: u64,
    },
    State,
    Report {
        key: String,
        from_hour: i64,
        to_hour: i64,
    },
}

impl Command {
    fn read(line: &[u8]) -> Option<Command> {
        if let Some(rest) = line.strip_prefix(b"post ") {
            let mut words = rest.split(|&byte| byte == b' ');
            let (origin, number, lines) = (words.next()?, words.next()?, words.next()?);
            if words.next().is_some() || lines.is_empty() {
                return None;
            }
            let mut count = 0;
            for byte in lines {
                if !byte.is_ascii_digit() {
                    return None;
                }
                count = (count * 10 + usize::from(byte - b'0')).min(MOST_LINES + 1);
            }
            return (count <= MOST_LINES).then_some(Command::Post {
                origin: origin.to_vec(),
                number: entry_number(number),
                lines: count,
            });
        }
        if let Some(rest) = line.strip_prefix(b"withdraw ") {
            let mut words = rest.split(|&byte| byte == b' ');
            let (origin, number, target) = (words.next()?, words.next()?, words.next()?);
            let withdrawal = Command::Withdraw {
                origin: origin.to_vec(),
                number: entry_number(number),
                target: entry_number(target)?,
            };
            return words.next().is_none().then_some(withdrawal);
        }
        if line == b"state" {
            return Some(Command::State);
        }
        let mut words = line
            .strip_prefix(b"report ")?
            .rsplitn(3, |&byte| byte == b' ');
        let (to, from, key) = (words.next()?, words.next()?, words.next()?);
        Some(Command::Report {
            key: std::str::from_utf8(key).ok()?.to_string(),
            from_hour: whole_hour(from)?,
            to_hour: whole_hour(to)?,
        })
    }
}

/// The number of an entry: digits alone, from 1 to 2^64 - 1.
fn entry_number(word: &[u8]) -> Option<u64> {
    if !word.iter().all(u8::is_ascii_digit) {
        return None;
    }
    std::str::from_utf8(word).ok()?.parse().ok().filter(|&number| number > 0)
}

fn whole_hour(text: &[u8]) -> Option<i64> {
    let seconds = fields::seconds(text)?;
    (seconds % 3_600 == 0).then_some(seconds / 3_600)
}

/// Reads lines up to and with their line feeds into `text`, and tells how many there were.
fn read_lines(input: &mut impl BufRead, count: usize, text: &mut Vec<u8>) -> io::Result<usize> {
    text.clear();
    for read in 0..count {
        if input.read_until(b'\n', text)? == 0 {
            return Ok(read);
        }
    }
    Ok(count)
}

/// The answer to an entry.
fn answer_text<F: fmt::Display>(verdict: Result<Verdict, F>) -> String {
    match verdict {
        Ok(Verdict::Accepted(number)) => format!("accepted {number}"),
        Ok(Verdict::Already(last)) => format!("already {last}"),
        Ok(Verdict::Gap(expected)) => format!("gap {expected}"),
        Ok(Verdict::Refused(why)) => format!("refused {why}"),
        Err(fault) => format!("refused {fault}"),
    }
}

/// The text of a report.
fn report_text(report: &BTreeMap<&str, Sums>) -> String {
    let mut text = String::from("Group,BilledCost,EffectiveCost,ChargedCost\n");
    for (group, sums) in report {
        let (billed, effective) = (Nanos(sums.billed), Nanos(sums.effective));
        let quoted = if group.contains([',', '"', '\r', '\n']) {
            format!("\"{}\"", group.replace('"', "\"\""))
        } else {
            group.to_string()
        };
        text += &format!("{quoted},{billed},{effective},{effective}\n");
    }
    text
}

struct Nanos(i128);

impl fmt::Display for Nanos {
    fn fmt(&self, out: &mut fmt::Formatter<'_>) -> fmt::Result {
        let sign = if self.0 < 0 { "-" } else { "" };
        let amount = self.0.unsigned_abs();
        write!(
            out,
            "{sign}{}.{:09}",
            amount / 1_000_000_000,
            amount % 1_000_000_000
        )
    }
}

fn main() -> io::Result<()> {
    let mut input = BufReader::with_capacity(BUFFER, io::stdin().lock());
    let mut output = BufWriter::new(io::stdout().lock());
    let words: Vec<String> = std::env::args().collect();
    let option = |name: &str| words.iter().position(|word| word == name).and_then(|place| words.get(place + 1));
    let currency = option("--currency").map_or("USD", String::as_str);
    let has_gates = option("--syncs").is_some_and(|syncs| syncs == "2");
    let log = option("--log").map(|path| Log::create(path, has_gates)).transpose()?;
    let mut warehouse = Warehouse::new(currency.as_bytes().try_into().unwrap(), log);
    let (mut line, mut text) = (Vec::new(), Vec::new());
    while read_lines(&mut input, 1, &mut line)? == 1 {
        match Command::read(line.strip_suffix(b"\n").unwrap_or(&line)) {
            None => writeln!(output, "bad command")?,
            Some(Command::State) => writeln!(output, "state {} {} 0 0", warehouse.entries(), warehouse.rows())?,
            Some(Command::Post {
                origin,
                number,
                lines,
            }) => {
                if read_lines(&mut input, lines, &mut text)? < lines {
                    writeln!(output, "bad end")?;
                    break;
                }
                writeln!(output, "{}", answer_text(warehouse.post(&origin, number, &text)?))?;
            }
            Some(Command::Withdraw {
                origin,
                number,
                target,
            }) => {
                let verdict = warehouse.withdraw(&origin, number, target)?;
                writeln!(output, "{}", answer_text::<&str>(Ok(verdict)))?;
            }
            Some(Command::Report {
                key,
                from_hour,
                to_hour,
            }) => match warehouse.report(&key, from_hour, to_hour) {
                Ok(report) => {
                    let text = report_text(&report);
                    write!(output, "bytes {}\n{text}", text.len())?;
                }
                Err(NoReport::Range) => writeln!(output, "refused Q1 Range")?,
                Err(NoReport::TotalTooLarge) => writeln!(output, "refused Q2 TotalTooLarge")?,
            },
        }
    }
    output.flush()
}
