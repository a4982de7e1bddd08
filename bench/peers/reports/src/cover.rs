//! The direct costs of the groups of a range of hours.
use crate::index::{Hour, Index, Plan};
use crate::names::Names;
use crate::share::{need, part, share};
use crate::terms::Commitment;
use std::collections::{BTreeMap, HashMap};
use std::ops::Range;

/// The sums of a group, and whether it has a line.
#[derive(Clone, Copy, Default)]
struct Cell {
    costs: [i64; 2],
    lines: u64,
}

/// What a commitment gave to rows in a range, and in how many hours it left nothing unused.
#[derive(Clone, Copy, Default)]
struct Given {
    amount: u64,
    full: i64,
}

/// What is taken of the candidates of an hour.
struct Work<'a> {
    index: &'a Index,
    /// The group of each list of tags.
    groups: Vec<u32>,
    cells: Vec<Cell>,
    left: Vec<u64>,
    /// The candidates of each class in the hour, without leading ones of which nothing is left.
    runs: Vec<(u32, u32)>,
    /// The next candidate of each run of a tier: its place as posted, its place, and the end of the run.
    heads: Vec<(u32, u32, u32)>,
    /// What a commitment takes: candidates, and the weights of their shares.
    taken: Vec<u32>,
    weights: Vec<u64>,
    shares: Vec<u64>,
    ranked: Vec<(u64, u32)>,
    /// Candidates of which a part was taken.
    parts: Vec<u32>,
}

/// BilledCost and EffectiveCost of each group that has a line.
pub fn report<'a>(
    index: &'a Index,
    commitments: &'a [Commitment],
    names: &'a Names,
    key: &str,
    from: i64,
    to: i64,
) -> BTreeMap<&'a str, [i128; 2]> {
    let mut numbers: HashMap<&str, u32> = HashMap::new();
    let mut number = |group: &'a str| {
        let next = numbers.len() as u32;
        *numbers.entry(group).or_insert(next)
    };
    let mut of_text = vec![u32::MAX; names.texts().len()];
    let groups: Vec<u32> = names.groups(key).into_iter().map(|text| {
        let of_text = &mut of_text[text as usize];
        if *of_text == u32::MAX {
            *of_text = number(names.text(text));
        }
        *of_text
    }).collect();
    let own: Vec<u32> = commitments.iter().map(|it| number(it.group(key))).collect();
    let mut work = Work {
        index,
        groups,
        cells: vec![Cell::default(); numbers.len()],
        left: Vec::new(),
        runs: vec![(0, 0); index.classes],
        heads: Vec::new(),
        taken: Vec::new(),
        weights: Vec::new(),
        shares: Vec::new(),
        ranked: Vec::new(),
        parts: Vec::new(),
    };
    let mut given = vec![Given::default(); commitments.len()];
    let hours = &index.hours[..index.hours.len() - 1];
    let (first, end) = (hours.partition_point(|it| it.hour < from), hours.partition_point(|it| it.hour < to));
    for place in first..end {
        let (hour, next) = (&index.hours[place], &index.hours[place + 1]);
        work.add_as_given(hour.row..next.row);
        if hour.candidate < next.candidate && commitments.iter().any(|it| it.runs_in(hour.hour)) {
            work.cover(hour, next, commitments, &mut given);
        }
    }
    for (at, commitment) in commitments.iter().enumerate() {
        let cell = &mut work.cells[own[at] as usize];
        for purchase in commitment.purchases.iter().filter(|it| (from..to).contains(&it.hour)) {
            cell.costs[0] += purchase.billed as i64;
            cell.lines += 1;
        }
        // What rows didn't get of the hours' amounts is unused.
        let (first, end) = (from.max(commitment.start), to.min(commitment.start + commitment.hours));
        if first < end {
            cell.costs[1] += (carried(commitment, first, end) - given[at].amount) as i64;
            cell.lines += u64::from(end - first > given[at].full);
        }
    }
    let cells = work.cells;
    let of = |number: u32| cells[number as usize].costs.map(i128::from);
    numbers.into_iter().filter(|it| cells[it.1 as usize].lines > 0).map(|(group, number)| (group, of(number))).collect()
}

/// What the hours from `first` to before `end` of a term carry.
fn carried(commitment: &Commitment, first: i64, end: i64) -> u64 {
    let total: u128 = commitment.purchases.iter().map(|it| u128::from(it.billed)).sum();
    let before = |hour: i64| total * (hour - commitment.start) as u128 / commitment.hours as u128;
    (before(end) - before(first)) as u64
}

impl Work<'_> {
    #[inline(never)]
    fn add_as_given(&mut self, rows: Range<usize>) {
        let (cells, groups) = (&mut self.cells[..], &self.groups[..]);
        for (costs, &list) in self.index.costs[rows.clone()].iter().zip(&self.index.lists[rows]) {
            let cell = &mut cells[groups[list as usize] as usize];
            cell.costs[0] += costs[0];
            cell.costs[1] += costs[1];
            cell.lines += 1;
        }
    }

    /// Lets the commitments take of the rows of an hour, which were added as given.
    #[inline(never)]
    fn cover(&mut self, hour: &Hour, next: &Hour, commitments: &[Commitment], given: &mut [Given]) {
        let index = self.index;
        self.left.clear();
        self.left.extend_from_slice(&index.quantities[hour.candidate..next.candidate]);
        for run in &index.runs[hour.run..next.run] {
            self.runs[run.class as usize] = (run.start, run.end);
        }
        for plan in &index.plans {
            let commitment = &commitments[plan.commitment];
            if commitment.runs_in(hour.hour) {
                let unused = self.take(hour, plan, commitment);
                let given = &mut given[plan.commitment];
                given.full += i64::from(unused == 0);
                if !self.taken.is_empty() {
                    given.amount += self.give(hour, commitment, unused);
                }
            }
        }
        for run in &index.runs[hour.run..next.run] {
            self.runs[run.class as usize] = (0, 0);
        }
        while let Some(at) = self.parts.pop() {
            let (left, quantity) = (self.left[at as usize], index.quantities[hour.candidate + at as usize]);
            if left > 0 {
                let costs = index.costs[hour.row + at as usize];
                let cell = &mut self.cells[self.groups[index.lists[hour.row + at as usize] as usize] as usize];
                cell.costs[0] += part(costs[0] as u64, left, quantity).0 as i64;
                cell.costs[1] += part(costs[1] as u64, left, quantity).0 as i64;
            }
        }
    }

    /// Takes for a commitment what it may, tier by tier and in each as posted; tells how much of its capacity is unused.
    fn take(&mut self, hour: &Hour, plan: &Plan, commitment: &Commitment) -> u64 {
        self.taken.clear();
        self.weights.clear();
        let mut unused = commitment.capacity;
        for tier in &plan.tiers {
            self.heads.clear();
            for &class in &tier.classes {
                let run = &mut self.runs[class as usize];
                while run.0 < run.1 && self.left[run.0 as usize] == 0 {
                    run.0 += 1;
                }
                if run.0 < run.1 {
                    self.heads.push((self.index.posted[hour.candidate + run.0 as usize], run.0, run.1));
                }
            }
            while let Some(first) = (0..self.heads.len()).min_by_key(|&at| self.heads[at].0) {
                let (_, at, end) = self.heads[first];
                if at + 1 < end {
                    self.heads[first] = (self.index.posted[hour.candidate + at as usize + 1], at + 1, end);
                } else {
                    self.heads.swap_remove(first);
                }
                self.take_of(hour, commitment, tier.ppm, at, &mut unused);
                if unused == 0 {
                    return 0;
                }
            }
        }
        unused
    }

    #[inline(always)]
    fn take_of(&mut self, hour: &Hour, commitment: &Commitment, ppm: u64, at: u32, unused: &mut u64) {
        let (index, place) = (self.index, hour.candidate + at as usize);
        let (left, whole) = (self.left[at as usize], index.quantities[place]);
        if left == 0 || commitment.sub_account != 0 && index.accounts[place] != commitment.sub_account {
            return;
        }
        let (quantity, weight) = if commitment.is_spend {
            let billed = index.costs[hour.row + at as usize][0] as u64;
            let need = need(if left == whole { billed } else { part(billed, left, whole).0 }, ppm);
            if need <= *unused { (left, need) } else { (part(left, *unused, need).0, *unused) }
        } else {
            (left.min(*unused), left.min(*unused))
        };
        if quantity == 0 || weight == 0 {
            return;
        }
        if left == whole {
            // It was added as given; now its parts are added one by one.
            let [billed, effective] = index.costs[hour.row + at as usize];
            let cell = &mut self.cells[self.groups[index.lists[hour.row + at as usize] as usize] as usize];
            cell.costs[0] -= billed;
            cell.costs[1] -= effective;
            if quantity < left {
                self.parts.push(at);
            }
        }
        self.left[at as usize] -= quantity;
        *unused -= weight;
        self.taken.push(at);
        self.weights.push(weight);
    }

    /// Gives the hour's amount to what was taken and what is unused; tells what rows got.
    fn give(&mut self, hour: &Hour, commitment: &Commitment, unused: u64) -> u64 {
        if unused > 0 {
            self.weights.push(unused);
        }
        share(commitment.amount_in(hour.hour), &self.weights, commitment.capacity, &mut self.shares, &mut self.ranked);
        let mut given = 0;
        for (&at, &share) in self.taken.iter().zip(&self.shares) {
            let cell = &mut self.cells[self.groups[self.index.lists[hour.row + at as usize] as usize] as usize];
            cell.costs[1] += share as i64;
            given += share;
        }
        given
    }
}
