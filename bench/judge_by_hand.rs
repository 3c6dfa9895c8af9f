//! `faultyard judge` once more in plain Rust, for comparison: the same input and answers, written
//! as one would without proofs, with std's hash map. It stops at a faulty line with one word for
//! all faults.
use std::collections::HashMap;
use std::io::{Read, Write};
use std::process::ExitCode;

const LIMIT: u64 = 1 << 20;
const KEYS: [&str; 5] = ["processid", "machineid", "zoneid", "data_hall", "dcid"];

enum Policy {
    One,
    Across(usize, usize, Box<Policy>),
    And(Vec<Policy>),
}

/// Reads a policy off the front of a text, and gives what is left.
fn policy(text: &str) -> Option<(Policy, &str)> {
    if let Some(rest) = text.strip_prefix("One()") {
        return Some((Policy::One, rest));
    }
    if let Some(rest) = text.strip_prefix("Across(") {
        let (count, rest) = rest.split_once(',')?;
        let (key, rest) = rest.split_once(',')?;
        let (inner, rest) = policy(rest)?;
        let count = count
            .parse()
            .ok()
            .filter(|count| (1..=1024).contains(count))?;
        let key = KEYS.iter().position(|known| *known == key)?;
        return Some((
            Policy::Across(count, key, Box::new(inner)),
            rest.strip_prefix(')')?,
        ));
    }
    let mut rest = text.strip_prefix("And(")?;
    let mut parts = Vec::new();
    loop {
        let (part, behind) = policy(rest)?;
        parts.push(part);
        match behind.strip_prefix(',') {
            Some(more) => rest = more,
            None => return Some((Policy::And(parts), behind.strip_prefix(')')?)),
        }
    }
}

/// A set of numbers below 1024.
#[derive(Clone, Copy, Default)]
struct Set([u64; 16]);

impl Set {
    fn of(p: usize) -> Set {
        let mut set = Set::default();
        set.0[p / 64] |= 1 << (p % 64);
        set
    }

    fn zip(self, other: Set, join: impl Fn(u64, u64) -> u64) -> Set {
        let mut words = self.0;
        for (word, by) in words.iter_mut().zip(other.0) {
            *word = join(*word, by);
        }
        Set(words)
    }

    fn union(self, other: Set) -> Set {
        self.zip(other, |a, b| a | b)
    }

    fn intersection(self, other: Set) -> Set {
        self.zip(other, |a, b| a & b)
    }

    fn difference(self, other: Set) -> Set {
        self.zip(other, |a, b| a & !b)
    }

    fn least(self) -> Option<usize> {
        let place = self.0.iter().position(|word| *word != 0)?;
        Some(place * 64 + self.0[place].trailing_zeros() as usize)
    }

    fn has(self, p: usize) -> bool {
        self.0[p / 64] >> (p % 64) & 1 != 0
    }
}

#[derive(Default)]
struct Cluster<'a> {
    ids: HashMap<&'a str, usize>,
    /// For each key the group of each process, and the members of each group.
    group: [Vec<Option<usize>>; 5],
    members: [Vec<Set>; 5],
    numbers: [HashMap<&'a str, usize>; 5],
}

impl<'a> Cluster<'a> {
    /// Adds a process with these values.
    fn add(&mut self, values: [&'a str; 5]) -> Option<()> {
        let p = self.ids.len();
        if p == 1024 || self.ids.insert(values[0], p).is_some() {
            return None;
        }
        for (key, value) in values.into_iter().enumerate() {
            if key > 2 && value == "-" {
                self.group[key].push(None);
                continue;
            }
            let groups = &mut self.members[key];
            let number = *self.numbers[key].entry(value).or_insert_with(|| {
                groups.push(Set::default());
                groups.len() - 1
            });
            groups[number] = groups[number].union(Set::of(p));
            self.group[key].push(Some(number));
        }
        Some(())
    }

    fn satisfied(&self, policy: &Policy, set: Set) -> bool {
        match policy {
            Policy::One => set.least().is_some(),
            Policy::And(parts) => parts.iter().all(|part| self.satisfied(part, set)),
            Policy::Across(count, key, inner) => {
                let (mut left, mut found) = (set, 0);
                while let Some(p) = left.least() {
                    let group = match self.group[*key][p] {
                        Some(number) => left.intersection(self.members[*key][number]),
                        None => Set::of(p),
                    };
                    left = left.difference(group);
                    if self.group[*key][p].is_some() && self.satisfied(inner, group) {
                        found += 1;
                        if found == *count {
                            return true;
                        }
                    }
                }
                false
            }
        }
    }
}

/// The answers to an input, or None where a line is faulty or a policy isn't met.
fn answers(input: &str) -> Option<Vec<u8>> {
    let mut cluster = Cluster::default();
    let mut policies = Vec::new();
    let mut asks = Vec::new();
    for line in input.lines() {
        let words: Vec<&str> = line.split(' ').collect();
        match words[..] {
            ["policy", text] => policies.push(policy(text).filter(|read| read.1.is_empty())?.0),
            ["proc", id, machine, zone, hall, dc] => cluster.add([id, machine, zone, hall, dc])?,
            ["destroy", id] => asks.push((true, *cluster.ids.get(id)?)),
            ["empty", id] => asks.push((false, *cluster.ids.get(id)?)),
            _ => return None,
        }
    }
    let everyone = (0..cluster.ids.len()).fold(Set::default(), |set, p| set.union(Set::of(p)));
    if !policies
        .iter()
        .all(|policy| cluster.satisfied(policy, everyone))
    {
        return None;
    }
    let (mut destroyed, mut left) = (Set::default(), everyone);
    let mut written = Vec::new();
    for (for_good, p) in asks {
        if !left.has(p) {
            written.extend_from_slice(b"gone\n");
            continue;
        }
        let (with, without) = (destroyed.union(Set::of(p)), left.difference(Set::of(p)));
        let may = policies
            .iter()
            .all(|policy| !cluster.satisfied(policy, with))
            && (!for_good
                || policies
                    .iter()
                    .all(|policy| cluster.satisfied(policy, without)));
        if may {
            destroyed = with;
            if for_good {
                left = without;
            }
        }
        written.extend_from_slice(if may { b"yes\n" } else { b"no\n" });
    }
    Some(written)
}

fn main() -> ExitCode {
    let mut input = Vec::new();
    if std::io::stdin()
        .take(LIMIT + 1)
        .read_to_end(&mut input)
        .is_err()
    {
        return ExitCode::from(3);
    }
    let text = String::from_utf8(input)
        .ok()
        .filter(|text| text.len() as u64 <= LIMIT);
    match text.as_deref().and_then(answers) {
        None => ExitCode::from(1),
        Some(written) => match std::io::stdout().write_all(&written) {
            Ok(()) => ExitCode::SUCCESS,
            Err(_) => ExitCode::from(3),
        },
    }
}
