//! The yardstick of reports: the reports of `focusd run` as a plain Rust program, without proofs.
//!
//! It reads a script of commitments, added purchases, posts, withdrawals, policies and reports from standard input, and writes the
//! answers of `focusd`. Rows are read by the modules of the yardstick of ingest (`../expert`), and the rows of a withdrawn post are taken
//! out of the list. What a report needs is made once for all rows and commitments, when the first report after a change asks for it: rows
//! clustered by hour, with those that a commitment may take first (`index`). A report is then one pass over the hours of its range
//! (`cover`).
//!
//! It trusts the script: entries in turn, commitments, purchases and policies that break no rule, withdrawals of posts that are there,
//! and sums that fit 64 bits. Where one doesn't, it stops with status 101.
#[path = "../../expert/src/fields.rs"]
mod fields;
#[allow(dead_code)] // the yardstick of ingest has more of it
#[path = "../../expert/src/names.rs"]
mod names;
#[path = "../../expert/src/rows.rs"]
mod rows;

mod cover;
mod index;
mod policy;
mod share;
mod terms;

use index::Index;
use names::Names;
use policy::Policy;
use rows::Row;
use std::collections::{BTreeMap, HashMap};
use std::fmt;
use std::io::{self, BufRead, BufReader, BufWriter, Write};
use std::ops::Range;
use terms::{Commitment, Purchase};

const BUFFER: usize = 1 << 18;

/// All that was accepted, and what is made of it for reports.
struct Warehouse {
    entries: usize,
    rows: Vec<Row>,
    /// Where the rows of each post are, by its origin and number.
    posts: HashMap<(String, u64), Range<usize>>,
    names: Names,
    commitments: Vec<Commitment>,
    policy: Option<Policy>,
    /// None where rows or commitments came or went since it was made.
    index: Option<Index>,
}

impl Warehouse {
    fn new() -> Warehouse {
        Warehouse {
            entries: 0,
            rows: Vec::new(),
            posts: HashMap::new(),
            names: Names::new(),
            commitments: Vec::new(),
            policy: None,
            index: None,
        }
    }

    fn take(&mut self, kind: &str, origin: &str, number: &str, text: &[u8]) -> usize {
        match kind {
            "post" => {
                let first = self.rows.len();
                rows::read(text, b"USD", &mut self.names, &mut self.rows).unwrap_or_else(|fault| panic!("{fault}"));
                self.posts.insert(post_of(origin, number), first..self.rows.len());
                self.index = None;
            }
            "commit" => {
                self.commitments.push(Commitment::read(text, &mut self.names));
                self.index = None;
            }
            "add" => {
                let (id, purchase) = Purchase::read(text);
                let commitment = self.commitments.iter_mut().find(|it| it.id == id).expect("a commitment of this id");
                commitment.purchases.push(purchase);
                // It has the sum of all purchases checked.
                self.index = None;
            }
            _ => self.policy = Some(Policy::read(text)),
        }
        self.entries += 1;
        self.entries
    }

    /// Takes the rows of a post out of the list.
    fn withdraw(&mut self, origin: &str, target: &str) -> usize {
        let gone = self.posts.remove(&post_of(origin, target)).expect("a post of this number");
        self.rows.drain(gone.clone());
        for later in self.posts.values_mut().filter(|it| it.start >= gone.end) {
            *later = later.start - gone.len()..later.end - gone.len();
        }
        self.index = None;
        self.entries += 1;
        self.entries
    }

    fn report(&mut self, key: &str, from: i64, to: i64) -> String {
        let index = self.index.get_or_insert_with(|| Index::new(&self.rows, &self.commitments));
        let direct = cover::report(index, &self.commitments, &self.names, key, from, to);
        let mut charged: BTreeMap<&str, i128> = direct.iter().map(|(&group, sums)| (group, sums[1])).collect();
        if let Some(policy) = self.policy.as_ref().filter(|policy| policy.key == key) {
            policy.share(&mut charged);
        }
        let mut text = String::from("Group,BilledCost,EffectiveCost,ChargedCost\n");
        for (group, charged) in charged {
            let [billed, effective] = direct.get(group).copied().unwrap_or_default();
            let quoted = if group.contains([',', '"', '\r', '\n']) {
                format!("\"{}\"", group.replace('"', "\"\""))
            } else {
                group.to_string()
            };
            text += &format!("{quoted},{},{},{}\n", Nanos(billed), Nanos(effective), Nanos(charged));
        }
        text
    }
}

struct Nanos(i128);

impl fmt::Display for Nanos {
    fn fmt(&self, out: &mut fmt::Formatter<'_>) -> fmt::Result {
        let (sign, amount) = (if self.0 < 0 { "-" } else { "" }, self.0.unsigned_abs());
        write!(out, "{sign}{}.{:09}", amount / 1_000_000_000, amount % 1_000_000_000)
    }
}

/// The name of a post.
fn post_of(origin: &str, number: &str) -> (String, u64) {
    (origin.to_string(), number.parse().expect("a number"))
}

/// The hour of an instant, counted from 1970.
fn hour(text: &str) -> i64 {
    fields::seconds(text.as_bytes()).expect("an instant") / 3_600
}

fn main() -> io::Result<()> {
    let mut input = BufReader::with_capacity(BUFFER, io::stdin().lock());
    let mut output = BufWriter::new(io::stdout().lock());
    let mut warehouse = Warehouse::new();
    let (mut line, mut text) = (String::new(), Vec::new());
    while input.read_line(&mut line)? > 0 {
        let words: Vec<&str> = line.trim_end_matches('\n').split(' ').collect();
        match words[..] {
            ["withdraw", origin, _, target] => writeln!(output, "accepted {}", warehouse.withdraw(origin, target))?,
            [kind @ ("post" | "commit" | "add" | "policy"), origin, number, lines] => {
                text.clear();
                for _ in 0..lines.parse::<usize>().expect("a number of lines") {
                    input.read_until(b'\n', &mut text)?;
                }
                writeln!(output, "accepted {}", warehouse.take(kind, origin, number, &text))?;
            }
            ["report", ref key @ .., from, to] => {
                let text = warehouse.report(&key.join(" "), hour(from), hour(to));
                write!(output, "bytes {}\n{text}", text.len())?;
            }
            ["state"] => {
                let (rows, commitments) = (warehouse.rows.len(), warehouse.commitments.len());
                writeln!(output, "state {} {rows} {commitments} {}", warehouse.entries, usize::from(warehouse.policy.is_some()))?;
            }
            _ => writeln!(output, "bad command")?,
        }
        line.clear();
    }
    output.flush()
}
