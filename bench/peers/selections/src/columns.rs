//! Rows in columns, each with codes of its own.
use crate::names::Names;
use crate::rows;
use std::collections::HashMap;

/// A column of texts: the code of each row's, and the number of the text of each code.
#[derive(Default)]
pub struct Column {
    pub codes: Vec<u32>,
    pub texts: Vec<u32>,
    known: HashMap<u32, u32>,
}

impl Column {
    fn push(&mut self, text: u32) {
        let next = self.texts.len() as u32;
        let code = *self.known.entry(text).or_insert(next);
        if code == next {
            self.texts.push(text);
        }
        self.codes.push(code);
    }
}

/// What of each row reports by keys need.
pub struct Columns {
    pub names: Names,
    /// The number of the list of tags of each row.
    pub lists: Vec<u32>,
    pub skus: Column,
    pub accounts: Column,
    /// BilledCost and EffectiveCost.
    pub costs: Vec<[i64; 2]>,
}

impl Columns {
    pub fn new() -> Columns {
        Columns { names: Names::new(), lists: Vec::new(), skus: Column::default(), accounts: Column::default(), costs: Vec::new() }
    }

    /// Adds the rows of a post.
    pub fn take(&mut self, text: &[u8]) {
        let mut read = Vec::new();
        rows::read(text, b"USD", &mut self.names, &mut read).unwrap_or_else(|fault| panic!("{fault}"));
        for row in read {
            self.lists.push(row.tags);
            self.skus.push(row.sku);
            self.accounts.push(row.sub_account);
            self.costs.push([row.billed, row.effective]);
        }
    }
}
