//! Structured log lines, parsed without a copy: what can be borrowed from the input is.
//!
//! ```text
//! {"level":"warn","at":1718000000,"target":"api::orders","message":"slow","fields":{"ms":"1200"},"span":{"id":"7f"}}
//! ```

#![forbid(unsafe_code)]
#![cfg_attr(docsrs, feature(doc_cfg))]

use std::{borrow::Cow, collections::BTreeMap, fmt, marker::PhantomData, ops::Deref};

use serde::{de::DeserializeOwned, Deserialize, Deserializer, Serialize};

/// How urgent a line is.
#[derive(Clone, Copy, Debug, PartialEq, Eq, PartialOrd, Ord, Hash, Serialize, Deserialize)]
#[serde(rename_all = "lowercase")]
pub enum Level {
    Trace,
    Debug,
    Info,
    Warn,
    Error,
}

/// A line of a log.
#[derive(Clone, Debug, PartialEq, Serialize, Deserialize)]
#[serde(deny_unknown_fields)]
pub struct Line<'a> {
    pub level: Level,
    /// Seconds since the epoch.
    pub at: u64,
    /// The module that wrote the line.
    #[serde(borrow)]
    pub target: &'a str,
    /// Borrowed, unless it has an escape.
    #[serde(borrow)]
    pub message: Cow<'a, str>,
    #[serde(borrow, default, skip_serializing_if = "BTreeMap::is_empty")]
    pub fields: BTreeMap<Cow<'a, str>, Cow<'a, str>>,
    #[serde(borrow, skip_serializing_if = "Option::is_none")]
    pub span: Option<SpanRef<'a, 'a>>,
    #[serde(skip)]
    raw: &'a [u8],
}

/// The span in which a line was written.
#[derive(Clone, Debug, PartialEq, Eq, Serialize, Deserialize)]
#[serde(bound(deserialize = "'de: 'id + 'name"))]
pub struct SpanRef<'id, 'name: 'id>
where
    'name: 'id,
{
    #[serde(borrow)]
    pub id: Id<'id>,
    #[serde(borrow, default)]
    pub name: Option<&'name str>,
}

/// An identifier in hexadecimal digits.
#[derive(Clone, Copy, Debug, PartialEq, Eq, Hash, Serialize, Deserialize)]
#[serde(transparent)]
pub struct Id<'a>(#[serde(borrow)] pub &'a str)
where
    Self: Sized;

impl<'a> Deref for Id<'a> {
    type Target = str;

    fn deref(&self) -> &Self::Target {
        self.0
    }
}

/// What a reader of a stream gets.
#[derive(Debug, Serialize, Deserialize)]
#[serde(tag = "type", content = "data", rename_all = "snake_case")]
pub enum Event<'a>
where
    Line<'a>: Clone,
{
    /// A line that was read whole.
    Line(#[serde(borrow)] Box<Line<'a>>),
    /// Text between lines.
    Garbage {
        #[serde(borrow)]
        text: &'a str,
        offset: u64,
    },
    Lagged(u32),
    End,
}

/// What a stream is asked for.
#[derive(Debug, Default, Serialize, Deserialize)]
#[serde(rename_all = "camelCase", default)]
pub struct Query<'q> {
    #[serde(borrow)]
    pub target_prefix: Option<&'q str>,
    pub min_level: Option<Level>,
    #[serde(borrow)]
    pub has_fields: Vec<&'q str>,
    pub after_span: Option<Id<'q>>,
}

/// Lines as they stand in the input.
pub struct Lines<'a, T: ?Sized = str, const N: usize = 4096> {
    rest: &'a [u8],
    seen: usize,
    of: PhantomData<fn() -> &'a T>,
}

impl<'a, T: ?Sized, const N: usize> Lines<'a, T, N>
where
    T: AsRef<str> + 'a,
{
    pub fn new(input: &'a [u8]) -> Self {
        Self { rest: input, seen: 0, of: PhantomData }
    }
}

impl<'a, T: ?Sized, const N: usize> Iterator for Lines<'a, T, N> {
    type Item = Result<Event<'a>, Error<'a>>;

    fn next(&mut self) -> Option<Self::Item> {
        let end = self.rest.iter().position(|&b| b == b'\n').unwrap_or(self.rest.len());
        if end == 0 {
            return None;
        }
        let (line, rest) = self.rest.split_at(end);
        (self.rest, self.seen) = (rest.get(1..).unwrap_or_default(), self.seen + end + 1);
        Some(serde_json::from_slice(line).map_err(|source| Error { line, source }))
    }
}

#[derive(Debug)]
pub struct Error<'a> {
    line: &'a [u8],
    source: serde_json::Error,
}

impl fmt::Display for Error<'_> {
    fn fmt(&self, f: &mut fmt::Formatter<'_>) -> fmt::Result {
        write!(f, "'{}': {}", String::from_utf8_lossy(self.line), self.source)
    }
}

fn owned<'de, D, T>(deserializer: D) -> Result<T, D::Error>
where
    D: Deserializer<'de>,
    T: DeserializeOwned,
    for<'x> &'x T: PartialEq,
{
    T::deserialize(deserializer)
}

#[cfg(test)]
mod tests {
    use super::*;

    #[derive(Deserialize)]
    struct Pair<'a, T>(&'a str, T);

    #[test]
    fn borrows() {
        let Pair(one, two): Pair<'_, u8> = serde_json::from_str(r#"["a", 1]"#).unwrap();
        assert_eq!((one, two), ("a", 1));
    }
}
