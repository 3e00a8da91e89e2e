//! How often each operation was done and how often it was refused by which number.

use std::collections::BTreeMap;

#[derive(Default)]
pub struct Tally {
    counts: BTreeMap<&'static str, BTreeMap<u32, usize>>,
}

impl Tally {
    pub fn add(&mut self, name: &'static str, number: u32) {
        let numbers = self.counts.entry(name).or_default();
        *numbers.entry(number).or_default() += 1;
    }

    pub fn lines(&self) -> Vec<String> {
        let line = |(name, numbers): (&&str, &BTreeMap<u32, usize>)| {
            let counts = numbers.iter().map(|(number, count)| match number {
                0 => format!("{count} done"),
                _ => format!("{count} refused {number}"),
            });
            format!("{name}: {}", counts.collect::<Vec<_>>().join(", "))
        };
        self.counts.iter().map(line).collect()
    }
}
