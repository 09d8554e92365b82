//! The oracle's stream of cases (oracle/README.md).

/// A case: its name, the tray's file, what `pack` is to print for it, and where that comes from.
pub struct Case<'a> {
    pub name: &'a str,
    pub file: &'a [u8],
    pub expected: &'a str,
    pub kind: &'a str,
}

/// The cases of a stream, one after another.
pub struct Cases<'a> {
    pub rest: &'a [u8],
}

impl<'a> Iterator for Cases<'a> {
    type Item = Case<'a>;

    fn next(&mut self) -> Option<Case<'a>> {
        let end = self.rest.iter().position(|&byte| byte == b'\n')?;
        let fields: Vec<&str> = text(&self.rest[..end]).split('\t').collect();
        let (file, others) = self.rest[end + 1..].split_at(fields[2].parse().unwrap());
        let (expected, rest) = others.split_at(fields[3].parse().unwrap());
        self.rest = rest;
        Some(Case { name: fields[1], file, expected: text(expected), kind: fields[4] })
    }
}

fn text(bytes: &[u8]) -> &str {
    std::str::from_utf8(bytes).unwrap()
}
