//! The groups of a question, and their sums.
//!
//! Texts are looked at once for each list of tags and for each code of a column; there they become numbers, 0 where a filter leaves the row
//! out. A pass over the rows finds the place of a row's group by these numbers, in a table where they are few, else by hash.
use crate::columns::Columns;
use crate::question::{Key, Question};
use std::borrow::Cow;
use std::collections::HashMap;
use std::hash::{BuildHasherDefault, Hasher};

/// As many rows are looked at together, column by column.
const BLOCK: usize = 1_024;
/// The most places of a table: 3 MB of sums.
const MOST_PLACES: u64 = 65_536;
const MOST_KEYS: usize = 4;

#[derive(Clone, Copy, Default)]
pub struct Sums {
    rows: u64,
    pub billed: i128,
    pub effective: i128,
}

impl Sums {
    fn add(&mut self, costs: &[i64; 2]) {
        self.rows += 1;
        self.billed += i128::from(costs[0]);
        self.effective += i128::from(costs[1]);
    }
}

pub struct Group<'a> {
    /// The text of each key.
    pub texts: Vec<Cow<'a, str>>,
    pub sums: Sums,
}

/// A hash for numbers, which needn't withstand anybody.
#[derive(Default)]
struct Mix(u64);

impl Hasher for Mix {
    fn write(&mut self, _: &[u8]) {
        unreachable!("only numbers are hashed");
    }

    fn write_u64(&mut self, number: u64) {
        let mixed = (self.0 ^ number).wrapping_mul(0x9e37_79b9_7f4a_7c15);
        self.0 = mixed ^ (mixed >> 32);
    }

    fn finish(&self) -> u64 {
        self.0
    }
}

type ByNumber<V> = HashMap<u64, V, BuildHasherDefault<Mix>>;

/// What a key reads as: a number from 1 for each text, 1 alone where the key makes no groups, and 0 where a filter leaves it out.
struct Numbers<'a> {
    /// Of each text that was given.
    of: Vec<u32>,
    /// The text of each number from 1.
    texts: Vec<Cow<'a, str>>,
}

impl<'a> Numbers<'a> {
    /// The numbers of these texts under a key.
    fn new(columns: &'a Columns, question: &'a Question, key: &Key, given: &[u32]) -> Numbers<'a> {
        const NOT_YET: u32 = u32::MAX;
        let makes_groups = question.keys.contains(key);
        let mut of_text = vec![NOT_YET; columns.names.texts().len()];
        let mut known: HashMap<Cow<str>, u32> = HashMap::new();
        let mut texts = Vec::new();
        let mut number_of = |text: u32| {
            let seen = question.seen(key, columns.names.text(text));
            if !question.counts(key, &seen) {
                return 0;
            }
            if !makes_groups {
                return 1;
            }
            *known.entry(seen).or_insert_with_key(|seen| {
                texts.push(seen.clone());
                texts.len() as u32
            })
        };
        let of = given.iter().map(|&text| {
            let number = &mut of_text[text as usize];
            if *number == NOT_YET {
                *number = number_of(text);
            }
            *number
        });
        Numbers { of: of.collect(), texts }
    }
}

/// The numbers that a group has, by the places of its keys in the question.
type Parts = [u32; MOST_KEYS];

/// What makes groups of rows: the code of each row, the number of each code, and what each number from 1 is made of.
struct Source<'a> {
    codes: &'a [u32],
    numbers: Vec<u32>,
    parts: Vec<Parts>,
}

impl Source<'_> {
    fn count(&self) -> u64 {
        self.parts.len() as u64 + 1
    }
}

/// The sources of a question, and the texts of each of its keys by number.
struct Made<'a> {
    columns: &'a Columns,
    question: &'a Question,
    sources: Vec<Source<'a>>,
    texts: Vec<Vec<Cow<'a, str>>>,
}

impl<'a> Made<'a> {
    fn new(columns: &'a Columns, question: &'a Question) -> Made<'a> {
        let texts = question.keys.iter().map(|_| Vec::new()).collect();
        let mut made = Made { columns, question, sources: Vec::new(), texts };
        let (tags, others): (Vec<&Key>, Vec<&Key>) = question.all_keys().into_iter().partition(|key| matches!(key, Key::Tag(_)));
        if !tags.is_empty() {
            made.add_lists(&tags);
        }
        for key in others {
            made.add_column(key);
        }
        made
    }

    /// The numbers of these texts under a key, and its place where it makes groups.
    fn numbers(&mut self, key: &Key, given: &[u32]) -> (Vec<u32>, Option<usize>) {
        let numbers = Numbers::new(self.columns, self.question, key, given);
        let place = self.question.keys.iter().position(|it| it == key);
        if let Some(place) = place {
            self.texts[place] = numbers.texts;
        }
        (numbers.of, place)
    }

    /// The lists of tags by all keys that are tags: one number for all that a list has under them, by a hash map of pairs.
    fn add_lists(&mut self, keys: &[&Key]) {
        let names = &self.columns.names;
        let mut joined = vec![1_u32; names.lists().len()];
        let mut parts = vec![Parts::default()];
        for key in keys {
            let (numbers, place) = self.numbers(key, &names.groups(key.name()));
            let Some(place) = place else {
                joined.iter_mut().zip(numbers).for_each(|(number, of)| *number *= of);
                continue;
            };
            let (mut pairs, mut longer) = (ByNumber::<u32>::default(), Vec::new());
            for (number, of) in joined.iter_mut().zip(numbers) {
                *number = if *number == 0 || of == 0 {
                    0
                } else {
                    *pairs.entry(u64::from(*number) << 32 | u64::from(of)).or_insert_with(|| {
                        let mut pair = parts[*number as usize - 1];
                        pair[place] = of;
                        longer.push(pair);
                        longer.len() as u32
                    })
                };
            }
            parts = longer;
        }
        self.sources.push(Source { codes: &self.columns.lists, numbers: joined, parts });
    }

    fn add_column(&mut self, key: &Key) {
        let column = if *key == Key::Sku { &self.columns.skus } else { &self.columns.accounts };
        let (numbers, place) = self.numbers(key, &column.texts);
        let parts = match place {
            None => vec![Parts::default()],
            Some(place) => (1..=self.texts[place].len() as u32)
                .map(|number| {
                    let mut parts = Parts::default();
                    parts[place] = number;
                    parts
                })
                .collect(),
        };
        self.sources.push(Source { codes: &column.codes, numbers, parts });
    }

    /// What a group is made of, None where a filter leaves it out.
    fn parts(&self, mut place: u64) -> Option<Parts> {
        let mut parts = Parts::default();
        for source in self.sources.iter().rev() {
            let number = place % source.count();
            place /= source.count();
            let own = &source.parts[number.checked_sub(1)? as usize];
            parts.iter_mut().zip(own).for_each(|(part, own)| *part += own);
        }
        Some(parts)
    }
}

/// The sums of each place that has rows.
fn sums_of(columns: &Columns, sources: &[Source]) -> Vec<(u64, Sums)> {
    let places: u64 = sources.iter().map(Source::count).product();
    let mut table = vec![Sums::default(); if places <= MOST_PLACES { places as usize } else { 0 }];
    let mut by_place = ByNumber::<Sums>::default();
    let mut block = [0_u64; BLOCK];
    for first in (0..columns.costs.len()).step_by(BLOCK) {
        let rows = first..columns.costs.len().min(first + BLOCK);
        let block = &mut block[..rows.len()];
        block.fill(0);
        for source in sources {
            let count = source.count();
            for (place, &code) in block.iter_mut().zip(&source.codes[rows.clone()]) {
                *place = *place * count + u64::from(source.numbers[code as usize]);
            }
        }
        let costs = block.iter().zip(&columns.costs[rows]);
        if table.is_empty() {
            costs.for_each(|(&place, costs)| by_place.entry(place).or_default().add(costs));
        } else {
            costs.for_each(|(&place, costs)| table[place as usize].add(costs));
        }
    }
    let of_table = table.into_iter().enumerate().map(|(place, sums)| (place as u64, sums));
    of_table.filter(|(_, sums)| sums.rows > 0).chain(by_place).collect()
}

/// The place of each text of a list among them in their order.
fn ranks(texts: &[Cow<str>]) -> Vec<u32> {
    let mut order: Vec<u32> = (0..texts.len() as u32).collect();
    order.sort_unstable_by_key(|&number| &texts[number as usize]);
    let mut ranks = vec![0; texts.len()];
    (0..).zip(order).for_each(|(rank, number)| ranks[number as usize] = rank);
    ranks
}

/// The groups of a question over all rows, in the order of their texts.
pub fn groups<'a>(columns: &'a Columns, question: &'a Question) -> Vec<Group<'a>> {
    let made = Made::new(columns, question);
    let ranks: Vec<Vec<u32>> = made.texts.iter().map(|texts| ranks(texts)).collect();
    let rank = |parts: &Parts| {
        let mut all = Parts::default();
        for (at, ranks) in ranks.iter().enumerate() {
            all[at] = ranks[parts[at] as usize - 1];
        }
        all
    };
    let found = sums_of(columns, &made.sources).into_iter();
    let mut found: Vec<(Parts, Parts, Sums)> =
        found.filter_map(|(place, sums)| made.parts(place).map(|parts| (rank(&parts), parts, sums))).collect();
    found.sort_unstable_by_key(|it| it.0);
    let text = |at: usize, parts: &Parts| made.texts[at][parts[at] as usize - 1].clone();
    let group =
        |(_, parts, sums): (Parts, Parts, Sums)| Group { texts: (0..question.keys.len()).map(|at| text(at, &parts)).collect(), sums };
    found.into_iter().map(group).collect()
}
