//! Prints a line of JSON for each value of a type that has a stand-in: of which stand-in file and of which type it is, what serde does
//! with it and what the schema owes it, and the value. What serde does is shown here: a line is printed only where it is so.

mod crates;
mod geometry;
mod standard;
mod wires;

use serde::de::DeserializeOwned;
use serde::Serialize;
use std::fmt::Debug;
use std::marker::PhantomData;

/// A type, with the file of its stand-in.
pub struct Row<T: ?Sized> {
    file: &'static str,
    name: &'static str,
    marker: PhantomData<T>,
}

/// A row of the type, for the file of that name.
#[macro_export]
macro_rules! row {
    ($file:literal, $type:ty) => {
        $crate::Row::<$type>::new($file, stringify!($type))
    };
}

impl<T: ?Sized> Row<T> {
    pub fn new(file: &'static str, name: &'static str) -> Self {
        Row { file, name, marker: PhantomData }
    }

    fn print(&self, how: &str, text: &str) {
        let name = self.name.replace('\n', " ");
        println!(r#"{{"file":"{}","type":"{name}","how":"{how}","value":{text}}}"#, self.file);
    }
}

impl<T: Serialize + ?Sized> Row<T> {
    /// Prints a value that serde writes, and perhaps does not read.
    pub fn writes_alone(self, value: &T) -> Self {
        let text = serde_json::to_string(value).unwrap_or_else(|why| panic!("no {} is written: {why}", self.name));
        self.print("writes", &text);
        self
    }
}

impl<T: Serialize + DeserializeOwned> Row<T> {
    /// Prints values that serde writes and reads again.
    pub fn writes(self, values: impl IntoIterator<Item = T>) -> Self {
        let mut it = self;
        for value in values {
            let text = serde_json::to_string(&value).unwrap_or_else(|why| panic!("no {} is written: {why}", it.name));
            it.read(&text);
            it = it.writes_alone(&value);
        }
        it
    }
}

impl<T: DeserializeOwned> Row<T> {
    fn read(&self, text: &str) {
        if let Err(why) = serde_json::from_str::<T>(text) {
            panic!("no {} is read from {text}: {why}", self.name);
        }
    }

    fn each(self, how: &str, texts: &[&str], reads: bool) -> Self {
        for text in texts {
            if reads {
                self.read(text);
            } else if serde_json::from_str::<T>(text).is_ok() {
                panic!("a {} is read from {text}", self.name);
            }
            self.print(how, text);
        }
        self
    }

    /// Prints values that serde reads; the schema accepts them.
    pub fn reads(self, texts: &[&str]) -> Self {
        self.each("reads", texts, true)
    }

    /// Prints values that serde does not read; the schema refuses them.
    pub fn refuses(self, texts: &[&str]) -> Self {
        self.each("refuses", texts, false)
    }

    /// Prints values that serde reads and does not write; the schema refuses them.
    pub fn narrower(self, texts: &[&str]) -> Self {
        self.each("narrower", texts, true)
    }

    /// Prints values that serde does not read; the schema accepts them.
    pub fn wider(self, texts: &[&str]) -> Self {
        self.each("wider", texts, false)
    }
}

/// Reads a value from its text, as `FromStr` does.
pub fn parsed<T>(text: &str) -> T
where
    T: std::str::FromStr,
    T::Err: Debug,
{
    text.parse().unwrap_or_else(|why| panic!("{text}: {why:?}"))
}

fn main() {
    standard::print();
    crates::print();
    geometry::print();
    wires::print();
}
