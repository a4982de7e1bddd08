//! Texts by number, so that each is kept once.
use crate::rows::Rule;
use serde_json::{Map, Value};
use std::collections::HashMap;

const MOST_TAGS: usize = 256;
const LONGEST_TAG: usize = 1_024;

/// The texts of the rows, and their lists of tags. The empty text is number 0, and no tags are list 0.
pub struct Names {
    texts: Vec<Box<str>>,
    numbers: HashMap<Box<str>, u32>,
    tags: Vec<Vec<(u32, u32)>>,
    /// The list of tags of each text of tags that was read.
    read: HashMap<Box<[u8]>, u32>,
}

impl Names {
    pub fn new() -> Names {
        Names {
            texts: vec!["".into()],
            numbers: HashMap::from([("".into(), 0)]),
            tags: vec![Vec::new()],
            read: HashMap::from([(Box::default(), 0)]),
        }
    }

    /// The number of a text, which is kept where it is new.
    pub fn number(&mut self, text: &str) -> u32 {
        if let Some(&number) = self.numbers.get(text) {
            return number;
        }
        let number = self.texts.len() as u32;
        self.texts.push(text.into());
        self.numbers.insert(text.into(), number);
        number
    }

    /// The number of the list of tags that a text reads as.
    pub fn tags(&mut self, text: &[u8]) -> Result<u32, Rule> {
        if let Some(&number) = self.read.get(text) {
            return Ok(number);
        }
        let members: Map<String, Value> = serde_json::from_slice(text).map_err(|_| Rule::BadTags)?;
        let mut words = Vec::with_capacity(members.len());
        for (key, value) in &members {
            let word = match value {
                Value::String(text) => text,
                Value::Bool(true) => "true",
                Value::Bool(false) => "false",
                Value::Null => "",
                _ => return Err(Rule::BadTags),
            };
            words.push((key.as_str(), word));
        }
        let is_long = |text: &str| text.len() > LONGEST_TAG;
        if words.len() > MOST_TAGS || words.iter().any(|(key, word)| is_long(key) || is_long(word)) {
            return Err(Rule::TooLong);
        }
        let list = words
            .iter()
            .map(|(key, word)| (self.number(key), self.number(word)))
            .collect();
        let number = self.tags.len() as u32;
        self.tags.push(list);
        self.read.insert(text.into(), number);
        Ok(number)
    }

    /// The group of each list of tags under a key: the number of its text.
    pub fn groups(&self, key: &str) -> Vec<u32> {
        let key = self.numbers.get(key);
        let group = |tags: &Vec<(u32, u32)>| tags.iter().find(|tag| Some(&tag.0) == key).map_or(0, |tag| tag.1);
        self.tags.iter().map(group).collect()
    }

    /// The texts, by number.
    pub fn texts(&self) -> &[Box<str>] {
        &self.texts
    }

    /// The lists of tags, by number, each with the numbers of its keys and words.
    pub fn lists(&self) -> &[Vec<(u32, u32)>] {
        &self.tags
    }

    pub fn text(&self, number: u32) -> &str {
        &self.texts[number as usize]
    }
}
