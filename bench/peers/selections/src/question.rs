//! What is asked: keys, filters, and what stands for the values of a key.
//!
//!     {"keys": ["team", "SkuId"], "filters": [{"key": "team", "is_one": false, "values": [""]}],
//!      "maps": {"team": {"fold": true, "empty": "nobody", "values": {"web": "apps"}}}}
use serde_json::Value;
use std::borrow::Cow;
use std::collections::{HashMap, HashSet};

#[derive(Clone, PartialEq, Eq, Hash)]
pub enum Key {
    Sku,
    Account,
    Tag(String),
}

impl Key {
    fn read(name: &str) -> Key {
        match name {
            "SkuId" => Key::Sku,
            "SubAccountId" => Key::Account,
            _ => Key::Tag(name.to_string()),
        }
    }

    pub fn name(&self) -> &str {
        match self {
            Key::Sku => "SkuId",
            Key::Account => "SubAccountId",
            Key::Tag(name) => name,
        }
    }
}

/// A row counts where the value of the key is one of these, or is none of them.
struct Filter {
    key: Key,
    is_one: bool,
    values: HashSet<String>,
}

/// What stands for the values of a key.
struct Map {
    fold: bool,
    empty: Option<String>,
    values: HashMap<String, String>,
}

pub struct Question {
    pub keys: Vec<Key>,
    filters: Vec<Filter>,
    maps: HashMap<Key, Map>,
}

fn text(value: &Value) -> String {
    value.as_str().expect("a text").to_string()
}

fn list(value: &Value) -> &[Value] {
    value.as_array().expect("a list")
}

impl Question {
    pub fn read(line: &str) -> Question {
        let said: Value = serde_json::from_str(line).expect("a question");
        let filter = |it: &Value| Filter {
            key: Key::read(&text(&it["key"])),
            is_one: it["is_one"].as_bool().expect("true or false"),
            values: list(&it["values"]).iter().map(text).collect(),
        };
        let map = |(key, it): (&String, &Value)| {
            let values = it["values"].as_object().expect("values");
            let map = Map {
                fold: it["fold"].as_bool().expect("true or false"),
                empty: it["empty"].as_str().map(str::to_string),
                values: values.iter().map(|(value, stands)| (value.clone(), text(stands))).collect(),
            };
            (Key::read(key), map)
        };
        Question {
            keys: list(&said["keys"]).iter().map(|key| Key::read(&text(key))).collect(),
            filters: list(&said["filters"]).iter().map(filter).collect(),
            maps: said["maps"].as_object().expect("maps").iter().map(map).collect(),
        }
    }

    /// The keys of groups, and behind them those of filters alone.
    pub fn all_keys(&self) -> Vec<&Key> {
        let mut keys: Vec<&Key> = self.keys.iter().collect();
        for filter in &self.filters {
            if !keys.contains(&&filter.key) {
                keys.push(&filter.key);
            }
        }
        keys
    }

    /// What stands for a text of a key.
    pub fn seen<'a>(&'a self, key: &Key, text: &'a str) -> Cow<'a, str> {
        let Some(map) = self.maps.get(key) else {
            return Cow::Borrowed(text);
        };
        if text.is_empty() {
            return Cow::Borrowed(map.empty.as_deref().unwrap_or(""));
        }
        let text = if map.fold { Cow::Owned(text.to_ascii_lowercase()) } else { Cow::Borrowed(text) };
        match map.values.get(&*text) {
            Some(stands) => Cow::Borrowed(stands),
            None => text,
        }
    }

    /// Whether the filters of a key let a text count.
    pub fn counts(&self, key: &Key, text: &str) -> bool {
        self.filters.iter().filter(|filter| filter.key == *key).all(|filter| filter.values.contains(text) == filter.is_one)
    }
}
