//! The rows posted so far, and reports over them.
use crate::log::Log;
use crate::names::Names;
use crate::rows::{self, Fault, Row};
use std::collections::{BTreeMap, HashMap};
use std::io;
use std::ops::Range;

/// The most hours of a report: three years.
const MOST_HOURS: i64 = 26_304;

/// The most rows that are kept, those of withdrawn posts too.
const MOST_ROWS: usize = 4_194_304;

/// The most nanos that the absolute costs of a report's groups may sum to.
const MOST_TOTAL: u128 = 10_000_000_000_000_000_000;

pub struct Warehouse {
    currency: [u8; 3],
    entries: usize,
    /// What each origin sent, in the order of its numbers.
    origins: HashMap<Vec<u8>, Vec<Sent>>,
    rows: Vec<Row>,
    /// Where the rows of withdrawn posts are, in rising order.
    withdrawn: Vec<Range<usize>>,
    names: Names,
    log: Option<Log>,
}

/// An entry that was accepted.
enum Sent {
    /// A post, and where its rows are.
    Post(Range<usize>),
    WithdrawnPost,
    Withdrawal,
}

/// What becomes of an entry.
pub enum Verdict {
    Accepted(usize),
    Already(u64),
    Gap(u64),
    Refused(&'static str),
}

#[derive(Default)]
pub struct Sums {
    pub billed: i128,
    pub effective: i128,
}

/// Why there is no report.
pub enum NoReport {
    Range,
    TotalTooLarge,
}

impl Warehouse {
    /// An empty warehouse, which appends each entry that it accepts to the log, if there is one.
    pub fn new(currency: [u8; 3], log: Option<Log>) -> Warehouse {
        Warehouse {
            currency,
            entries: 0,
            origins: HashMap::new(),
            rows: Vec::new(),
            withdrawn: Vec::new(),
            names: Names::new(),
            log,
        }
    }

    pub fn entries(&self) -> usize {
        self.entries
    }

    /// How many rows count: those of withdrawn posts don't.
    pub fn rows(&self) -> usize {
        self.rows.len() - self.withdrawn.iter().map(Range::len).sum::<usize>()
    }

    /// Keeps the rows of a CSV text where the post is the next of its origin, or keeps none of them. The rows are read first.
    pub fn post(&mut self, origin: &[u8], number: Option<u64>, text: &[u8]) -> io::Result<Result<Verdict, Fault>> {
        let before = self.rows.len();
        if let Err(fault) = rows::read(text, &self.currency, &mut self.names, &mut self.rows) {
            self.rows.truncate(before);
            return Ok(Err(fault));
        }
        let conflict = (self.rows.len() > MOST_ROWS).then_some("J1 Full");
        let verdict = self.judge(origin, number, conflict);
        if let Verdict::Accepted(_) = verdict {
            if let Some(log) = &mut self.log {
                log.append(origin, number.unwrap_or(0), &self.rows[before..], &self.names)?;
            }
            self.keep(origin, Sent::Post(before..self.rows.len()));
        } else {
            self.rows.truncate(before);
        }
        Ok(Ok(verdict))
    }

    /// Takes the rows of the post of this number of the same origin out of what counts.
    pub fn withdraw(&mut self, origin: &[u8], number: Option<u64>, target: u64) -> io::Result<Verdict> {
        let place = usize::try_from(target - 1).unwrap_or(usize::MAX);
        let named = self.origins.get(origin).and_then(|sent| sent.get(place));
        let conflict = match named {
            Some(Sent::Post(_)) => None,
            Some(Sent::WithdrawnPost) => Some("J7 Withdrawn"),
            Some(Sent::Withdrawal) | None => Some("J6 NoSuchPost"),
        };
        let verdict = self.judge(origin, number, conflict);
        if let Verdict::Accepted(_) = verdict {
            if let Some(log) = &mut self.log {
                log.append_withdrawal(origin, number.unwrap_or(0), target)?;
            }
            let named = self.origins.get_mut(origin).and_then(|sent| sent.get_mut(place));
            if let Some(Sent::Post(rows)) = named.map(|sent| std::mem::replace(sent, Sent::WithdrawnPost)) {
                let behind = self.withdrawn.partition_point(|it| it.start < rows.start);
                self.withdrawn.insert(behind, rows);
            }
            self.keep(origin, Sent::Withdrawal);
        }
        Ok(verdict)
    }

    fn keep(&mut self, origin: &[u8], sent: Sent) {
        self.entries += 1;
        self.origins.entry(origin.to_vec()).or_default().push(sent);
    }

    /// What becomes of an entry whose content is right: a conflict counts where its number is the next one.
    fn judge(&self, origin: &[u8], number: Option<u64>, conflict: Option<&'static str>) -> Verdict {
        let may_stand = |byte: &u8| byte.is_ascii_alphanumeric() || b"-_.".contains(byte);
        if origin.is_empty() || origin.len() > 64 || !origin.iter().all(may_stand) {
            return Verdict::Refused("E1 Origin");
        }
        let Some(number) = number else {
            return Verdict::Refused("E2 Seq");
        };
        let last = self.origins.get(origin).map_or(0, Vec::len) as u64;
        if number <= last {
            Verdict::Already(last)
        } else if number > last + 1 {
            Verdict::Gap(last + 1)
        } else {
            conflict.map_or(Verdict::Accepted(self.entries + 1), Verdict::Refused)
        }
    }

    /// The rows that count, in pieces: all between one withdrawn post and the next.
    fn counting(&self) -> impl Iterator<Item = &[Row]> {
        let starts = std::iter::once(0).chain(self.withdrawn.iter().map(|it| it.end));
        let ends = self.withdrawn.iter().map(|it| it.start).chain(std::iter::once(self.rows.len()));
        starts.zip(ends).map(|(start, end)| &self.rows[start..end])
    }

    /// The sums over the rows of `from_hour <= hour < to_hour`, by their groups under a tag key.
    pub fn report(&self, key: &str, from_hour: i64, to_hour: i64) -> Result<BTreeMap<&str, Sums>, NoReport> {
        if from_hour >= to_hour || to_hour - from_hour > MOST_HOURS {
            return Err(NoReport::Range);
        }
        let range = from_hour * 3_600..to_hour * 3_600;
        let groups = self.names.groups(key);
        let mut sums: HashMap<u32, Sums> = HashMap::new();
        for rows in self.counting() {
            for row in rows.iter().filter(|row| range.contains(&row.start)) {
                let sums = sums.entry(groups[row.tags as usize]).or_default();
                sums.billed += i128::from(row.billed);
                sums.effective += i128::from(row.effective);
            }
        }
        let total: u128 = sums.values().map(|sums| sums.effective.unsigned_abs()).sum();
        if total > MOST_TOTAL {
            return Err(NoReport::TotalTooLarge);
        }
        Ok(sums.into_iter().map(|(group, sums)| (self.names.text(group), sums)).collect())
    }
}
