//! The records of a file of vectors.

/// A record, as it stands in the file.
pub struct Vector(pub &'static str);

impl Vector {
    /// All records of a file.
    pub fn all(text: &'static str) -> impl Iterator<Item = Vector> {
        text.split("\n\n").filter(|record| record.starts_with("op = ")).map(Vector)
    }

    /// The word of a field.
    pub fn word(&self, name: &str) -> &'static str {
        let start = format!("{name} = ");
        self.0.lines().find_map(|line| line.strip_prefix(&start)).unwrap_or_else(|| panic!("{name}: {}", self.0))
    }

    /// The bytes of a field; none are a hyphen.
    pub fn bytes(&self, name: &str) -> Vec<u8> {
        let byte = |digits: &[u8]| u8::from_str_radix(std::str::from_utf8(digits).unwrap(), 16).unwrap();
        if self.word(name) == "-" { Vec::new() } else { self.word(name).as_bytes().chunks(2).map(byte).collect() }
    }

    /// The envelope of metadata, cryptogram and tag, with this letter and group 5.
    pub fn envelope(&self, letter: char) -> Vec<u8> {
        let [a, c, t] = ["A", "C", "T"].map(|name| self.bytes(name));
        [format!("{letter},5,{},{},", a.len(), c.len()).as_bytes(), &a, &c, &t].concat()
    }
}
