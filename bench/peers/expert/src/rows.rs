//! Rows of a CSV text, and the first rule that one breaks.
use crate::fields::{self, NoAmount};
use crate::names::Names;
use csv::{ByteRecord, ReaderBuilder};
use std::fmt;

const MOST_ROWS: usize = 4_096;
const LONGEST_TEXT: usize = 256;

/// The columns that are read; the first six must be there.
const COLUMNS: [&str; 15] = [
    "BilledCost",
    "EffectiveCost",
    "BillingCurrency",
    "ChargeCategory",
    "ChargePeriodStart",
    "ChargePeriodEnd",
    "ChargeClass",
    "CommitmentDiscountId",
    "CommitmentDiscountCategory",
    "CommitmentDiscountStatus",
    "ConsumedQuantity",
    "ConsumedUnit",
    "SkuId",
    "SubAccountId",
    "Tags",
];
const REQUIRED: usize = 6;

#[derive(Clone, Copy, PartialEq)]
pub enum Category {
    Usage,
    Purchase,
    Tax,
    Credit,
    Adjustment,
}

impl Category {
    fn read(text: &[u8]) -> Option<Category> {
        match text {
            b"Usage" => Some(Category::Usage),
            b"Purchase" => Some(Category::Purchase),
            b"Tax" => Some(Category::Tax),
            b"Credit" => Some(Category::Credit),
            b"Adjustment" => Some(Category::Adjustment),
            _ => None,
        }
    }
}

/// One charge. Costs and quantity are in nanos, times in seconds since 1970, texts and tags by their numbers.
#[allow(dead_code)] // what no report reads is kept all the same
pub struct Row {
    pub billed: i64,
    pub effective: i64,
    pub quantity: Option<i64>,
    pub start: i64,
    pub end: i64,
    pub discount: u32,
    pub unit: u32,
    pub sku: u32,
    pub sub_account: u32,
    pub tags: u32,
    pub category: Category,
    pub is_correction: bool,
    pub is_spend: bool,
    pub is_used: Option<bool>,
}

/// The rule that a record breaks, in the order in which they are checked.
#[derive(Clone, Copy)]
pub enum Rule {
    Fields,
    NotUtf8,
    Category,
    Class,
    Cost,
    Currency,
    Time,
    PeriodOrder,
    Commitment,
    Status,
    Quantity,
    BadTags,
    TooLong,
}

/// Why a CSV text isn't a list of rows.
pub enum Fault {
    MissingColumn(&'static str),
    DoubleColumn(&'static str),
    Row { rule: Rule, number: usize },
    NoRows,
    TooManyRows,
}

impl fmt::Display for Fault {
    fn fmt(&self, out: &mut fmt::Formatter<'_>) -> fmt::Result {
        match self {
            Fault::MissingColumn(column) => write!(out, "H1 MissingColumn {column}"),
            Fault::DoubleColumn(column) => write!(out, "H2 DoubleColumn {column}"),
            Fault::Row { rule, number } => write!(out, "{} {number}", rule.words()),
            Fault::NoRows => out.write_str("V14 NoRows"),
            Fault::TooManyRows => out.write_str("V15 TooManyRows"),
        }
    }
}

impl Rule {
    fn words(self) -> &'static str {
        match self {
            Rule::Fields => "V1 Fields",
            Rule::NotUtf8 => "V2 NotUtf8",
            Rule::Category => "V3 Category",
            Rule::Class => "V4 Class",
            Rule::Cost => "V5 Cost",
            Rule::Currency => "V6 Currency",
            Rule::Time => "V7 Time",
            Rule::PeriodOrder => "V8 PeriodOrder",
            Rule::Commitment => "V9 Commitment",
            Rule::Status => "V10 Status",
            Rule::Quantity => "V11 Quantity",
            Rule::BadTags => "V12 BadTags",
            Rule::TooLong => "V13 TooLong",
        }
    }
}

/// Where the columns stand in a record, in the order of `COLUMNS`; a column that isn't there stands behind every record.
struct Places([usize; 15]);

impl Places {
    fn find(header: &ByteRecord) -> Result<Places, Fault> {
        let mut places = [usize::MAX; 15];
        for (number, column) in COLUMNS.into_iter().enumerate() {
            match header.iter().position(|name| name == column.as_bytes()) {
                Some(place) => places[number] = place,
                None if number < REQUIRED => return Err(Fault::MissingColumn(column)),
                None => {}
            }
        }
        let is_double = |column: &&str| {
            header
                .iter()
                .filter(|name| *name == column.as_bytes())
                .count()
                > 1
        };
        match COLUMNS.into_iter().find(is_double) {
            Some(column) => Err(Fault::DoubleColumn(column)),
            None => Ok(Places(places)),
        }
    }

    fn row(&self, record: &ByteRecord, currency: &[u8], names: &mut Names) -> Result<Row, Rule> {
        let mut texts = [""; 15];
        for (text, place) in texts.iter_mut().zip(self.0) {
            let field = record.get(place).unwrap_or_default();
            *text = std::str::from_utf8(field).map_err(|_| Rule::NotUtf8)?;
        }
        let [billed, effective, of_currency, category, start, end, class, discount, kind, status, quantity, unit, sku, sub_account, tags] =
            texts;
        let category = Category::read(category.as_bytes()).ok_or(Rule::Category)?;
        let is_correction = match class {
            "" => false,
            "Correction" => true,
            _ => return Err(Rule::Class),
        };
        let billed = fields::nanos(billed.as_bytes()).map_err(|_| Rule::Cost)?;
        let effective = fields::nanos(effective.as_bytes()).map_err(|_| Rule::Cost)?;
        if of_currency.as_bytes() != currency {
            return Err(Rule::Currency);
        }
        let start = fields::seconds(start.as_bytes()).ok_or(Rule::Time)?;
        let end = fields::seconds(end.as_bytes()).ok_or(Rule::Time)?;
        if end < start {
            return Err(Rule::PeriodOrder);
        }
        let is_spend = match kind {
            "" if discount.is_empty() => false,
            "Usage" if !discount.is_empty() => false,
            "Spend" if !discount.is_empty() => true,
            _ => return Err(Rule::Commitment),
        };
        let is_used = match status {
            "" if discount.is_empty() || category != Category::Usage => None,
            "Used" if !discount.is_empty() => Some(true),
            "Unused" if !discount.is_empty() => Some(false),
            _ => return Err(Rule::Status),
        };
        let quantity = match quantity {
            "" => None,
            text => match fields::nanos(text.as_bytes()) {
                Ok(nanos) => Some(nanos),
                Err(NoAmount::TooGreat) => None,
                Err(NoAmount::NoNumber) => return Err(Rule::Quantity),
            },
        };
        let tags = names.tags(tags.as_bytes())?;
        if [discount, unit, sku, sub_account].iter().any(|text| text.len() > LONGEST_TEXT) {
            return Err(Rule::TooLong);
        }
        Ok(Row {
            billed,
            effective,
            quantity,
            start,
            end,
            discount: names.number(discount),
            unit: names.number(unit),
            sku: names.number(sku),
            sub_account: names.number(sub_account),
            tags,
            category,
            is_correction,
            is_spend,
            is_used,
        })
    }
}

/// Adds the rows of a CSV text to `rows`. After a fault some of them may have been added.
pub fn read(text: &[u8], currency: &[u8], names: &mut Names, rows: &mut Vec<Row>) -> Result<(), Fault> {
    let mut reader = ReaderBuilder::new()
        .has_headers(false)
        .flexible(true)
        .from_reader(text);
    let mut record = ByteRecord::new();
    // A reader over bytes in memory has no fault of its own.
    let mut next = |record: &mut ByteRecord| reader.read_byte_record(record).unwrap_or(false);
    next(&mut record);
    let places = Places::find(&record)?;
    let width = record.len();
    let mut number = 0;
    while next(&mut record) {
        number += 1;
        if number > MOST_ROWS {
            return Err(Fault::TooManyRows);
        }
        if record.len() != width {
            return Err(Fault::Row {
                rule: Rule::Fields,
                number,
            });
        }
        rows.push(
            places
                .row(&record, currency, names)
                .map_err(|rule| Fault::Row { rule, number })?,
        );
    }
    if number == 0 {
        return Err(Fault::NoRows);
    }
    Ok(())
}
