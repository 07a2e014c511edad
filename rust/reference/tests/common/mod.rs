//! Reading of the repository's vector files, shared by the tests.
//!
//! A record is a run of `name = value` lines that a blank line ends; `#` starts a comment. Byte strings are hexadecimal, `-`
//! for the empty one.
#![allow(dead_code)]

use std::collections::HashMap;
use std::path::Path;

use pevghazo_reference::xoodoo::{State, from_bytes};

/// One record of a vector file.
pub struct Record {
    fields: HashMap<String, String>,
    /// Where it starts, for messages.
    pub line: usize,
}

impl Record {
    /// A field's value as it is written.
    pub fn text(&self, name: &str) -> &str {
        self.fields.get(name).unwrap_or_else(|| panic!("the record at line {} has no field {name}", self.line))
    }

    /// Whether the record has this field.
    pub fn has(&self, name: &str) -> bool {
        self.fields.contains_key(name)
    }

    /// A number.
    pub fn number(&self, name: &str) -> usize {
        self.text(name).parse().expect("a number")
    }

    /// A byte string.
    pub fn bytes(&self, name: &str) -> Vec<u8> {
        hex(self.text(name))
    }

    /// A state of 48 bytes.
    pub fn state(&self, name: &str) -> State {
        from_bytes(&self.bytes(name).try_into().expect("48 bytes"))
    }

    /// A string of bits, written 0 and 1.
    pub fn bits(&self, name: &str) -> Vec<bool> {
        match self.text(name) {
            "-" => Vec::new(),
            text => text.chars().map(|c| c == '1').collect(),
        }
    }
}

/// The bytes of a hexadecimal string, spaces left out.
pub fn hex(text: &str) -> Vec<u8> {
    if text == "-" {
        return Vec::new();
    }
    let digits: Vec<u8> = text.chars().map(|c| c.to_digit(16).expect("a hexadecimal digit") as u8).collect();
    assert_eq!(digits.len() % 2, 0);
    digits.chunks(2).map(|pair| 16 * pair[0] + pair[1]).collect()
}

/// All records of a file in the repository's folder of vectors.
pub fn records(file: &str) -> Vec<Record> {
    let path = Path::new(env!("CARGO_MANIFEST_DIR")).join("../../vectors").join(file);
    let text = std::fs::read_to_string(&path).unwrap_or_else(|error| panic!("{}: {error}", path.display()));
    let mut records = Vec::new();
    let mut fields = HashMap::new();
    let mut start = 0;
    for (i, line) in text.lines().enumerate() {
        if line.starts_with('#') {
            continue;
        }
        if line.trim().is_empty() {
            if !fields.is_empty() {
                records.push(Record { fields: std::mem::take(&mut fields), line: start });
            }
            continue;
        }
        if fields.is_empty() {
            start = i + 1;
        }
        let (name, value) = line.split_once(" = ").unwrap_or_else(|| panic!("{file}, line {}: no field", i + 1));
        let old = fields.insert(name.to_string(), value.to_string());
        assert!(old.is_none(), "{file}, line {}: {name} twice", i + 1);
    }
    if !fields.is_empty() {
        records.push(Record { fields, line: start });
    }
    assert!(!records.is_empty(), "{file} has no record");
    records
}
