//! Commitments and purchases that are added to them, as their TOML says.
use crate::fields;
use crate::names::Names;
use toml::Value;

pub struct Purchase {
    /// Counted from 1970.
    pub hour: i64,
    pub billed: u64,
}

impl Purchase {
    fn of(table: &Value) -> Purchase {
        Purchase { hour: hour(&table["at"]), billed: nanos(&table["billed"]) }
    }

    /// A purchase that is added, and the id of its commitment.
    pub fn read(text: &[u8]) -> (String, Purchase) {
        let table: Value = toml::from_slice(text).expect("TOML");
        (table["id"].as_str().expect("an id").to_string(), Purchase::of(&table))
    }
}

pub struct Commitment {
    pub id: String,
    pub is_spend: bool,
    /// The first hour of the term, counted from 1970, and the number of its hours.
    pub start: i64,
    pub hours: i64,
    /// What each hour has: nanos of a quantity, or of a cost.
    pub capacity: u64,
    /// The numbers of texts; the empty text is number 0.
    pub unit: u32,
    pub sub_account: u32,
    /// SKUs and their rates in parts per million, 0 where the commitment is to a quantity.
    pub skus: Vec<(u32, u64)>,
    /// Keys and texts.
    pub tags: Vec<(String, String)>,
    pub purchases: Vec<Purchase>,
}

impl Commitment {
    pub fn read(text: &[u8], names: &mut Names) -> Commitment {
        let table: Value = toml::from_slice(text).expect("TOML");
        let word = |name: &str| table.get(name).and_then(Value::as_str);
        let is_spend = word("category") == Some("Spend");
        let skus = if is_spend {
            let rates = table["rates"].as_table().expect("rates");
            rates.iter().map(|(sku, rate)| (names.number(sku), rate.as_integer().expect("a rate") as u64)).collect()
        } else {
            let skus = table["skus"].as_array().expect("skus");
            skus.iter().map(|sku| (names.number(sku.as_str().expect("a SKU")), 0)).collect()
        };
        let tags = table.get("tags").and_then(Value::as_table);
        let purchases = table["purchase"].as_array().expect("purchases");
        Commitment {
            id: word("id").expect("an id").to_string(),
            is_spend,
            start: hour(&table["start"]),
            hours: table["hours"].as_integer().expect("hours"),
            capacity: nanos(&table["capacity"]),
            unit: names.number(word("unit").unwrap_or("")),
            sub_account: names.number(word("sub_account").unwrap_or("")),
            skus,
            tags: tags.into_iter().flatten().map(|(key, text)| (key.clone(), text.as_str().expect("a text").to_string())).collect(),
            purchases: purchases.iter().map(Purchase::of).collect(),
        }
    }

    /// The group of the commitment's own lines.
    pub fn group(&self, key: &str) -> &str {
        self.tags.iter().find(|tag| tag.0 == key).map_or("", |tag| &tag.1)
    }

    pub fn runs_in(&self, hour: i64) -> bool {
        (self.start..self.start + self.hours).contains(&hour)
    }

    /// What an hour of the term carries of all purchases.
    pub fn amount_in(&self, hour: i64) -> u64 {
        let total: u128 = self.purchases.iter().map(|it| u128::from(it.billed)).sum();
        let before = |k: i64| total * k as u128 / self.hours as u128;
        (before(hour - self.start + 1) - before(hour - self.start)) as u64
    }
}

fn hour(value: &Value) -> i64 {
    fields::seconds(value.as_str().expect("an instant").as_bytes()).expect("an instant") / 3_600
}

fn nanos(value: &Value) -> u64 {
    fields::nanos(value.as_str().expect("a number").as_bytes()).ok().expect("a number") as u64
}
