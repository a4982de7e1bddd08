//! Policies, and what the groups are charged.
use std::collections::{BTreeMap, BTreeSet};
use toml::Value;

enum Give {
    Fixed(BTreeMap<String, u64>),
    Proportional,
}

struct Rule {
    from: String,
    give: Give,
}

pub struct Policy {
    pub key: String,
    rules: Vec<Rule>,
}

impl Policy {
    pub fn read(text: &[u8]) -> Policy {
        let table: Value = toml::from_slice(text).expect("TOML");
        let rules = table.get("rule").and_then(Value::as_array).map_or(&[][..], Vec::as_slice);
        let rule = |rule: &Value| Rule {
            from: rule["from"].as_str().expect("a group").to_string(),
            give: match rule.get("to").and_then(Value::as_table) {
                Some(to) => Give::Fixed(to.iter().map(|(group, weight)| (group.clone(), weight.as_integer().expect("a weight") as u64)).collect()),
                None => Give::Proportional,
            },
        };
        Policy { key: table["key"].as_str().expect("a key").to_string(), rules: rules.iter().map(rule).collect() }
    }

    /// Moves the direct costs of the groups as the rules say.
    pub fn share<'a>(&'a self, costs: &mut BTreeMap<&'a str, i128>) {
        let direct = costs.clone();
        let givers: BTreeSet<&str> = self.rules.iter().map(|rule| rule.from.as_str()).collect();
        for rule in &self.rules {
            let given = direct.get(rule.from.as_str()).copied().unwrap_or_default();
            costs.entry(&rule.from).or_default();
            let weights: Vec<(&str, u128)> = match &rule.give {
                Give::Fixed(to) => to.iter().map(|(group, &weight)| (group.as_str(), u128::from(weight))).collect(),
                Give::Proportional => {
                    let takes = direct.iter().filter(|(group, &cost)| cost > 0 && !givers.contains(*group));
                    takes.map(|(&group, &cost)| (group, cost as u128)).collect()
                }
            };
            for (group, _) in &weights {
                costs.entry(group).or_default();
            }
            let whole: u128 = weights.iter().map(|it| it.1).sum();
            if whole == 0 {
                continue;
            }
            *costs.get_mut(rule.from.as_str()).unwrap() -= given;
            let total = given.unsigned_abs();
            let mut ranked: Vec<_> = weights.iter().enumerate().map(|(place, it)| (u128::MAX - total * it.1 % whole, place)).collect();
            ranked.sort_unstable();
            let mut shares: Vec<u128> = weights.iter().map(|it| total * it.1 / whole).collect();
            let over = total - shares.iter().sum::<u128>();
            for &(_, place) in &ranked[..over as usize] {
                shares[place] += 1;
            }
            for ((group, _), share) in weights.iter().zip(shares) {
                *costs.get_mut(group).unwrap() += if given < 0 { -(share as i128) } else { share as i128 };
            }
        }
    }
}
