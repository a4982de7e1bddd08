//! Rows clustered by hour, those that a commitment may take first, and the commitments made ready for them.
use crate::rows::{Category, Row};
use crate::terms::Commitment;
use std::cmp::Ordering;
use std::collections::HashMap;

/// An hour that has rows, by the places at which its rows, its candidates and its runs begin.
pub struct Hour {
    pub hour: i64,
    pub row: usize,
    pub candidate: usize,
    pub run: usize,
}

/// The candidates of one class in one hour, counted from the hour's first.
pub struct Run {
    pub class: u32,
    pub start: u32,
    pub end: u32,
}

/// Classes whose rows a commitment takes as they were posted, and its rate for them.
pub struct Tier {
    pub ppm: u64,
    pub classes: Vec<u32>,
}

/// A commitment, by its place in the list, and its tiers in the order of their rates.
pub struct Plan {
    pub commitment: usize,
    pub tiers: Vec<Tier>,
}

/// A candidate is a row that some commitment lists. Its class is its SKU and unit.
pub struct Index {
    /// In rising order, with one more at the end.
    pub hours: Vec<Hour>,
    /// BilledCost and EffectiveCost, and the number of the list of tags; in each hour those of candidates first, by class and as posted.
    pub costs: Vec<[i64; 2]>,
    pub lists: Vec<u32>,
    /// Of the candidates alone: quantity, account, and place among the rows of the hour as posted.
    pub quantities: Vec<u64>,
    pub accounts: Vec<u32>,
    pub posted: Vec<u32>,
    pub runs: Vec<Run>,
    pub classes: usize,
    /// In the order in which they take rows.
    pub plans: Vec<Plan>,
}

const NO_CLASS: u32 = u32::MAX;

fn may_be_covered(row: &Row) -> bool {
    row.category == Category::Usage
        && row.discount == 0
        && !row.is_correction
        && row.start % 3_600 == 0
        && row.end == row.start + 3_600
        && row.quantity.is_some_and(|quantity| quantity > 0)
        && row.billed >= 0
        && row.effective >= 0
        && row.sku != 0
}

fn in_order(a: &Commitment, b: &Commitment) -> Ordering {
    (a.is_spend, a.start, &a.id).cmp(&(b.is_spend, b.start, &b.id))
}

/// The tiers of a commitment over these classes.
fn tiers(commitment: &Commitment, classes: &HashMap<(u32, u32), u32>) -> Vec<Tier> {
    let rates: HashMap<u32, u64> = commitment.skus.iter().copied().collect();
    let mut found: Vec<(u64, u32)> = Vec::new();
    for (&(sku, unit), &class) in classes {
        if let Some(&ppm) = rates.get(&sku).filter(|_| commitment.is_spend || unit == commitment.unit) {
            found.push((ppm, class));
        }
    }
    found.sort_unstable();
    found.chunk_by(|a, b| a.0 == b.0).map(|tier| Tier { ppm: tier[0].0, classes: tier.iter().map(|it| it.1).collect() }).collect()
}

impl Index {
    pub fn new(rows: &[Row], commitments: &[Commitment]) -> Index {
        let mut sum = 0u128;
        for row in rows {
            sum += u128::from(row.billed.unsigned_abs()) + u128::from(row.effective.unsigned_abs());
        }
        sum += commitments.iter().flat_map(|it| &it.purchases).map(|it| 2 * u128::from(it.billed)).sum::<u128>();
        assert!(sum <= i64::MAX as u128, "the sums of this script need more than 64 bits");

        // The classes that some commitment lists; of the others no row is a candidate.
        let mut listed = vec![false; 1 + rows.iter().map(|row| row.sku).max().unwrap_or(0) as usize];
        for &(sku, _) in commitments.iter().flat_map(|it| &it.skus) {
            if let Some(is_listed) = listed.get_mut(sku as usize) {
                *is_listed = true;
            }
        }
        let mut classes: HashMap<(u32, u32), u32> = HashMap::new();
        let (mut last, mut last_class) = ((0, 0), NO_CLASS);
        let mut class_of = |row: &Row| {
            if !listed[row.sku as usize] || !may_be_covered(row) {
                return NO_CLASS;
            }
            if last != (row.sku, row.unit) {
                let next = classes.len() as u32;
                last = (row.sku, row.unit);
                last_class = *classes.entry(last).or_insert(next);
            }
            last_class
        };

        // Rows by hour, as posted within each.
        let mut order: Vec<(i64, u32, u32)> = Vec::with_capacity(rows.len());
        order.extend(rows.iter().enumerate().map(|(place, row)| (row.start / 3_600, class_of(row), place as u32)));
        if !order.is_sorted_by_key(|it| it.0) {
            order.sort_by_key(|it| it.0);
        }
        let count = classes.len();
        let mut index = Index {
            hours: Vec::new(),
            costs: Vec::with_capacity(rows.len()),
            lists: Vec::with_capacity(rows.len()),
            quantities: Vec::new(),
            accounts: Vec::new(),
            posted: Vec::new(),
            runs: Vec::new(),
            classes: count,
            plans: Vec::new(),
        };
        let (mut starts, mut sorted) = (vec![0u32; count + 2], Vec::new());
        for hour in order.chunk_by(|a, b| a.0 == b.0) {
            index.begin(hour[0].0);
            index.add_hour(rows, hour, &mut starts, &mut sorted);
        }
        index.begin(i64::MAX);
        let mut plans: Vec<usize> = (0..commitments.len()).collect();
        plans.sort_by(|&a, &b| in_order(&commitments[a], &commitments[b]));
        index.plans = plans.into_iter().map(|commitment| Plan { commitment, tiers: tiers(&commitments[commitment], &classes) }).collect();
        index
    }

    fn begin(&mut self, hour: i64) {
        self.hours.push(Hour { hour, row: self.costs.len(), candidate: self.quantities.len(), run: self.runs.len() });
    }

    /// Adds the rows of an hour, by class: a counting sort, which keeps rows of one class as posted.
    fn add_hour(&mut self, rows: &[Row], hour: &[(i64, u32, u32)], starts: &mut [u32], sorted: &mut Vec<(u32, u32)>) {
        let none = self.classes as u32;
        starts.fill(0);
        for &(_, class, _) in hour {
            starts[class.min(none) as usize + 1] += 1;
        }
        for class in 0..=self.classes {
            starts[class + 1] += starts[class];
            let (start, end) = (starts[class], starts[class + 1]);
            if start < end && class < self.classes {
                self.runs.push(Run { class: class as u32, start, end });
            }
        }
        sorted.clear();
        sorted.resize(hour.len(), (0, 0));
        for (posted, &(_, class, place)) in hour.iter().enumerate() {
            let next = &mut starts[class.min(none) as usize];
            sorted[*next as usize] = (posted as u32, place);
            *next += 1;
        }
        // Each start has moved to the next one, so that of no class tells how many candidates there are.
        let candidates = if self.classes == 0 { 0 } else { starts[self.classes - 1] as usize };
        for (at, &(posted, place)) in sorted.iter().enumerate() {
            let row = &rows[place as usize];
            self.costs.push([row.billed, row.effective]);
            self.lists.push(row.tags);
            if at < candidates {
                self.quantities.push(row.quantity.unwrap_or(0) as u64);
                self.accounts.push(row.sub_account);
                self.posted.push(posted);
            }
        }
    }
}
