use std::collections::BTreeMap;
use std::fmt;

/// How often each answer came up: a letter and a number for an event; layer, word and number for a fault.
#[derive(Default)]
pub struct Tally(BTreeMap<String, u64>);

impl Tally {
    pub fn count(&mut self, listing: &[u8]) {
        for line in String::from_utf8_lossy(listing).lines() {
            let words: Vec<&str> = line.split(' ').collect();
            let key = match words[..] {
                ["!", layer, _line, word, number] => format!("! {layer} {word} {number}"),
                ["s", ..] => continue,
                [letter, number, ..] => format!("{letter} {number}"),
                _ => line.into(),
            };
            *self.0.entry(key).or_default() += 1;
        }
    }

    #[cfg(test)]
    pub fn of(&self, key: &str) -> u64 {
        self.0.get(key).copied().unwrap_or(0)
    }

    #[cfg(test)]
    pub fn kinds(&self) -> usize {
        self.0.len()
    }
}

impl fmt::Display for Tally {
    fn fmt(&self, f: &mut fmt::Formatter<'_>) -> fmt::Result {
        self.0.iter().try_for_each(|(key, count)| writeln!(f, "{count:>10}  {key}"))
    }
}
