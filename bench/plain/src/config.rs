//! The configuration: a flat TOML document with the numbers of the hierarchy.
//!
//! It has lines `key = number`, `key = "word"`, `[level1]` and `[level2]`, empty lines and comments.

use crate::answer::need;
use crate::shape::{Level, Organisation, Shape};
use std::collections::BTreeMap;
use std::ops::RangeInclusive;

/// The value of a key.
enum Value {
    Number(u32),
    Word(String),
}

/// The entries of a configuration. A key of a level begins with `level1.` or `level2.`.
#[derive(Default)]
struct Entries {
    values: BTreeMap<String, Value>,
    /// The tables whose lines were read, as their keys begin.
    tables: Vec<&'static str>,
}

/// Reads a configuration. An error is the words that say what is wrong with it, printable and on one line.
pub fn read(text: &str) -> Result<Shape, String> {
    let mut entries = Entries::read(text)?;
    let shape = Shape {
        ports: entries.number("ports", 1..=16)?,
        banks: entries.number("banks", 1..=16)?,
        block: entries.choice("block", &[8, 16, 32, 64])?,
        tags: entries.number("tags", 1..=64)?,
        level1: entries.level("level1.")?,
        level2: entries.level("level2.")?,
        factor: if entries.has("level2.blocks") {
            entries.choice("level2.blocks", &[1, 2, 4])?
        } else {
            1
        },
    };
    match entries.values.keys().next() {
        Some(key) => Err(format!("unknown key {key}")),
        None => Ok(shape),
    }
}

impl Entries {
    fn read(text: &str) -> Result<Entries, String> {
        let mut entries = Entries::default();
        for (index, line) in text.lines().enumerate() {
            entries.add(line).map_err(|what| format!("line={} {what}", index + 1))?;
        }
        Ok(entries)
    }

    /// Adds a line. An error says what is wrong with it.
    fn add(&mut self, line: &str) -> Result<(), &'static str> {
        if line.contains(|character: char| character.is_control() && character != '\t') {
            return Err("has a control character");
        }
        let line = trimmed(line.split('#').next().unwrap_or(""));
        if line.starts_with('[') {
            return self.add_table(line);
        }
        if line.is_empty() {
            return Ok(());
        }
        let (key, value) = entry(line).ok_or("is not a key and a number or a word")?;
        let key = format!("{}{key}", self.tables.last().unwrap_or(&""));
        let before = self.values.insert(key, value);
        need(before.is_none(), "has a key that was there before")
    }

    fn add_table(&mut self, line: &str) -> Result<(), &'static str> {
        let table = prefix(line).ok_or("is not [level1] or [level2]")?;
        need(!self.tables.contains(&table), "has a table that was there before")?;
        self.tables.push(table);
        Ok(())
    }

    fn has(&self, key: &str) -> bool {
        self.values.contains_key(key)
    }

    fn number(&mut self, key: &str, range: RangeInclusive<u32>) -> Result<u32, String> {
        match self.values.remove(key) {
            None => Err(format!("missing key {key}")),
            Some(Value::Number(number)) if range.contains(&number) => Ok(number),
            Some(_) => {
                let (least, most) = range.into_inner();
                Err(format!("{key} is not a number from {least} to {most}"))
            }
        }
    }

    fn choice(&mut self, key: &str, choices: &[u32]) -> Result<u32, String> {
        let number = self.number(key, 1..=64)?;
        if choices.contains(&number) {
            Ok(number)
        } else {
            Err(format!("{key} is not one of {choices:?}"))
        }
    }

    /// A number that may be absent.
    fn optional(&mut self, key: &str, range: RangeInclusive<u32>) -> Result<Option<u32>, String> {
        if self.has(key) {
            self.number(key, range).map(Some)
        } else {
            Ok(None)
        }
    }

    fn level(&mut self, table: &str) -> Result<Level, String> {
        Ok(Level {
            sets: self.number(&format!("{table}sets"), 1..=4096)?,
            ways: self.number(&format!("{table}ways"), 1..=16)?,
            organisation: self.organisation(table)?,
        })
    }

    fn organisation(&mut self, table: &str) -> Result<Organisation, String> {
        let registers = self.optional(&format!("{table}registers"), 1..=64)?;
        let entries = self.optional(&format!("{table}entries"), 1..=8)?;
        let word = match self.values.remove(&format!("{table}organisation")) {
            Some(Value::Word(word)) => word,
            _ => return Err(format!("{table}organisation is missing or not a word")),
        };
        match (word.as_str(), registers, entries) {
            ("implicit", Some(registers), _) => Ok(Organisation::Implicit { registers }),
            ("explicit", Some(registers), Some(entries)) => Ok(Organisation::Explicit { registers, entries }),
            ("inverted", _, _) => Ok(Organisation::Inverted),
            ("implicit" | "explicit", _, _) => Err(format!("{table}registers or {table}entries is missing")),
            _ => Err(format!("{table}organisation is not implicit, explicit or inverted")),
        }
    }
}

fn trimmed(text: &str) -> &str {
    text.trim_matches([' ', '\t'])
}

/// What the keys after the line of a table begin with.
fn prefix(line: &str) -> Option<&'static str> {
    match trimmed(line.strip_prefix('[')?.strip_suffix(']')?) {
        "level1" => Some("level1."),
        "level2" => Some("level2."),
        _ => None,
    }
}

fn entry(line: &str) -> Option<(&str, Value)> {
    let (key, value) = line.split_once('=')?;
    let key = trimmed(key);
    let is_plain = |byte: u8| byte.is_ascii_alphanumeric() || byte == b'_' || byte == b'-';
    if key.is_empty() || !key.bytes().all(is_plain) {
        return None;
    }
    Some((key, parse_value(trimmed(value))?))
}

/// A decimal number without sign or leading zeros, or letters in double quotes.
fn parse_value(text: &str) -> Option<Value> {
    if let Some(quoted) = text.strip_prefix('"') {
        let word = quoted.strip_suffix('"')?;
        let is_plain = word.bytes().all(|byte| byte.is_ascii_alphabetic());
        return is_plain.then(|| Value::Word(word.to_string()));
    }
    let has_leading_zero = text.len() > 1 && text.starts_with('0');
    if has_leading_zero || !text.bytes().all(|byte| byte.is_ascii_digit()) {
        return None;
    }
    text.parse().ok().map(Value::Number)
}

#[cfg(test)]
mod tests {
    use super::*;

    const TEXT: &str = "ports = 2\nbanks = 4 # so many\nblock = 32\ntags = 8\n\n[level1]\nsets = 4\nways = 2\n\
        organisation = \"explicit\"\nregisters = 3\nentries = 2\n[ level2 ]\nsets = 16\nways = 4\n\
        organisation = \"inverted\"\nblocks = 2\n";

    #[test]
    fn a_shape_is_read() {
        let shape = read(TEXT).unwrap();
        assert_eq!(
            (shape.ports, shape.banks, shape.block, shape.tags, shape.factor),
            (2, 4, 32, 8, 2)
        );
        assert_eq!(
            shape.level1.organisation,
            Organisation::Explicit {
                registers: 3,
                entries: 2
            }
        );
        assert_eq!((shape.level2.sets, shape.level2.ways, shape.registers2()), (16, 4, 3));
    }

    #[test]
    fn what_is_not_known_is_refused() {
        for (from, to) in [
            ("32", "33"),
            ("ways = 2", ""),
            ("tags", "tag"),
            ("[ level2 ]", "[level1]"),
            ("4 #", "04 #"),
        ] {
            assert!(read(&TEXT.replace(from, to)).is_err(), "{to}");
        }
    }
}
