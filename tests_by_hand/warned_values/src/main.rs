//! Prints a line of JSON for each type of types.rs: a value that serde writes, further ones that it reads, and when a warning is owed.

extern crate self as serde_with;

mod functions;
#[allow(dead_code)]
mod types;

use serde::de::DeserializeOwned;
use serde::Serialize;
use std::any::type_name;
use types::*;

/// Stands for the crate `serde_with`.
pub mod rust {
    pub use crate::functions::double_option;
}

/// When a type is owed a warning.
#[derive(Clone, Copy)]
enum Owed {
    /// Always: the tables say of its attribute or of its type that the JSON is another.
    Always,
    /// Where its component rejects a value.
    Rejected,
    /// Never: the tables say of every type of its form what is rejected.
    Never,
}
use Owed::*;

fn print(name: &str, owed: Owed, value: Option<String>, reads: &[&str]) {
    let owed = match owed {
        Always => "always",
        Rejected => "rejected",
        Never => "never",
    };
    let value = value.map_or(String::new(), |value| format!(r#","value":{value}"#));
    let reads = reads.join(",");
    println!(r#"{{"type":"{name}","owed":"{owed}"{value},"reads":[{reads}]}}"#);
}

/// Prints the line of a type, of which serde writes the value and reads the texts.
fn row<T: Serialize + DeserializeOwned>(owed: Owed, value: T, reads: &[&str]) {
    let name = type_name::<T>().rsplit("::").next().unwrap();
    for text in reads {
        if let Err(why) = serde_json::from_str::<T>(text) {
            panic!("serde reads no {name} from {text}: {why}");
        }
    }
    let value = serde_json::to_string(&value).unwrap_or_else(|why| panic!("serde writes no {name}: {why}"));
    print(name, owed, Some(value), reads);
}

/// Prints the line of a type that serde does not compile before it is newer.
#[cfg(not(feature = "newer"))]
fn without_values(name: &str) {
    print(name, Always, None, &[]);
}

fn names() {
    row(Always, RenameSerialize { a: 1 }, &[r#"{"a":1}"#]);
    row(Always, RenameDeserialize { a: 1 }, &[r#"{"in":1}"#]);
    row(Always, RenameSerializeVariant::A, &[r#""A""#]);
    row(Always, RenameDeserializeVariant::A(1), &[r#"{"in":1}"#]);
    row(Always, RenameAllSerialize { full_name: 1 }, &[r#"{"full_name":1}"#]);
    row(Always, RenameAllDeserialize { full_name: 1 }, &[r#"{"fullName":1}"#]);
    row(Always, RenameAllSerializeEnum::PickUp, &[r#""PickUp""#]);
    row(Always, RenameAllDeserializeEnum::PickUp(1), &[r#"{"pickUp":1}"#]);
    row(Always, RenameAllSerializeVariant::A { full_name: 1 }, &[r#"{"A":{"full_name":1}}"#]);
    row(Always, EmptyRename { a: 1 }, &[r#"{"":1}"#]);
    row(Always, EmptyRenameVariant::A, &[r#""""#]);
    row(Always, AliasOnField { a: 1 }, &[r#"{"b":1}"#]);
    row(Always, AliasOnDeniedField { a: Some(1) }, &[r#"{"b":1}"#]);
    row(Always, AliasOnFieldOfVariant::A { b: 1 }, &[r#"{"A":{"c":1}}"#]);
    row(Always, AliasOnVariant::A, &[r#""B""#]);
    row(Always, AliasOnVariantWithFields::A(1), &[r#"{"B":1}"#]);
}

fn variants() {
    row(Always, OtherVariant::A, &[r#""Rest""#, r#""Z""#]);
    row(Always, OtherVariantWithTag::Rest, &[r#"{"t":"Z"}"#, r#"{"t":"A","x":1}"#]);
    row(Always, DenyOnEnumWithContent::A(1), &[]);
    row(Always, DenyOnEnum::A { x: 1 }, &[]);
    row(Always, DenyOnEnumWithTag::A { x: 1 }, &[]);
    row(Always, DenyOnUntaggedEnum::A { x: 1 }, &[]);
}

fn other_json() {
    row(Always, Transparent { a: 1 }, &["2"]);
    row(Always, TransparentBesideSkipped(false, 1), &["2"]);
    row(Rejected, TransparentBesidePhantom(1, std::marker::PhantomData), &["2"]);
    row(Always, FromNumber { a: 1 }, &["2"]);
    row(Always, TryFromNumber { a: 1 }, &["2"]);
    row(Always, IntoNumber { a: 1 }, &[r#"{"a":1}"#]);
    row(Always, FromAndIntoOnEnum::Yes, &["false"]);
    row(Always, TryFromAndIntoOnTuple(1), &[r#""2""#]);
    row(Always, With { a: 1 }, &[r#"{"a":"2"}"#]);
    row(Always, SerializeWith { a: 1 }, &[r#"{"a":2}"#]);
    row(Always, DeserializeWith { a: 1 }, &[r#"{"a":"2"}"#]);
    row(Always, WithOnVariant::A(1), &[r#"{"A":"2"}"#]);
    row(Always, SerializeWithOnVariant::A { x: 1 }, &[r#"{"A":{"x":2}}"#]);
    row(Always, DeserializeWithOnVariant::A(1), &[r#"{"A":"2"}"#]);
    row(Always, TagOnStruct { a: 1 }, &[r#"{"a":1}"#]);
    row(Always, TagOnDenyingStruct { a: 1 }, &[r#"{"a":1}"#]);
}

fn conditions() {
    row(Always, CfgAttrOnStruct { full_name: 1 }, &[]);
    row(Always, CfgAttrOnEnum::A, &[]);
    row(Always, CfgAttrOnField { a: 1 }, &[]);
    row(Always, NestedCfgAttr { a: 1 }, &[]);
    row(Always, CfgAttrOnUnnamedField(false, 1), &[]);
    row(Always, CfgAttrOnVariant::A, &[]);
    row(Always, CfgAttrOnFieldOfVariant::A { x: 1 }, &[]);
    row(Always, CfgAttrWithFlatten { inner: Plain { a: 1 } }, &[]);
    row(Rejected, CfgAttrOfDerives { a: 1 }, &[]);
}

fn unnamed_fields() {
    row(Always, SkipUnnamed(false, 1), &["[2]"]);
    row(Always, SkipSerializingUnnamed(false, 1), &["[true,2]"]);
    row(Always, SkipDeserializingUnnamed(false, 1), &["[2]"]);
    row(Always, SkipSerializingIfUnnamed(None, 1), &["[true,2]"]);
    row(Always, WithOnUnnamed(1), &[r#""2""#]);
    row(Always, DefaultOnUnnamed(1, true), &["[2]"]);
    row(Always, SkipUnnamedOfVariant::A(false, 1), &[r#"{"A":[2]}"#]);
    row(Always, SkipOnlyFieldOfVariant::A(1), &[]);
    row(Always, WithOnUnnamedOfVariant::A(1), &[r#"{"A":"2"}"#]);
}

fn by_hand() {
    row(Always, SerializeByHand { a: 1 }, &[r#"{"a":2}"#]);
    row(Always, DeserializeByHand(1), &[r#""2""#]);
    row(Always, BothByHand::Yes, &["false"]);
}

fn reading_and_writing() {
    row(Rejected, SkipSerializing { a: 1 }, &[r#"{"a":1}"#]);
    row(Always, SkipSerializingDenied { a: 1 }, &[r#"{"a":1}"#]);
    row(Always, SkipSerializingVariant::B, &[r#""A""#]);
    row(Rejected, SkipDeserializing { a: 1 }, &["{}"]);
    row(Always, SkipDeserializingDenied { a: 1 }, &["{}"]);
    row(Always, SkipDeserializingVariant::A(1), &[r#""B""#]);
    row(Always, SkipSerializingIf { a: String::new() }, &[r#"{"a":""}"#]);
    row(Always, WithOnOption { a: None }, &[r#"{"a":"1"}"#]);
    row(Always, DeserializeWithOnOption { a: None }, &[r#"{"a":"1"}"#]);
    row(Rejected, OptionOfOption { a: Some(None) }, &["{}", r#"{"a":1}"#]);
    row(Always, DoubleOption { a: Some(None) }, &["{}", r#"{"a":1}"#]);
    row(Always, BoxOfOption { a: None.into() }, &["{}"]);
    row(Always, RcOfOption { a: None.into() }, &["{}"]);
    row(Always, ArcOfOption { a: None.into() }, &["{}"]);
    row(Always, CowOfOption { a: std::borrow::Cow::Owned(None) }, &["{}"]);
    row(Always, RefCellOfOption::A { x: None.into() }, &[r#"{"A":{}}"#]);
    row(Rejected, BoxOfBoxOfOption { a: Box::new(None.into()) }, &["{}"]);
    row(Rejected, OptionInside(None), &["1"]);
    row(Rejected, MemberWithOptionInside { a: OptionInside(None) }, &["{}"]);
}

fn keys() {
    row(Always, NumbersAsKeys { a: [(1, true)].into() }, &[]);
    row(Always, NumbersAsKeysInside(vec![([(-1, true)].into(), 1)]), &[]);
    row(Always, NumbersAsKeysOfVariant::A([(1, true)].into()), &[]);
    row(Rejected, Id(1), &[]);
    row(Rejected, KeysOfOneNumber { a: [(Id(1), true)].into() }, &[]);
    row(Rejected, BoxedNumbersAsKeys { a: [(1.into(), true)].into() }, &[]);
    row(Rejected, GenericNumbersAsKeys { a: Keyed { a: [(1, true)].into() } }, &[]);
    row(Rejected, CharactersAsKeys { a: [('a', true)].into() }, &[]);
}

fn other_types() {
    row(Rejected, WholeNumbers { a: i128::MIN, b: u64::MAX, c: -1 }, &[]);
    row(Never, Float { a: f64::NAN }, &[r#"{"a":1}"#]);
    row(Rejected, Character { a: 'a' }, &[]);
    row(Rejected, Tuple { a: (1, true) }, &[]);
    row(Rejected, Array { a: [1, 2] }, &[]);
    row(Never, Set { a: [1, 2].into() }, &[r#"{"a":[1,1]}"#]);
    row(Rejected, Unit { a: () }, &[]);
    row(Rejected, UnitStruct, &[]);
    row(Never, Plain { a: 1 }, &["[1]"]);
    row(Never, NamedVariants::A, &[r#"{"A":null}"#, r#"{"B":1}"#, r#"{"C":{"x":1}}"#, r#"{"C":[1]}"#]);
    row(Never, TaggedVariants::A, &[r#"["A"]"#, r#"["B",1]"#, r#"{"t":"B","x":1}"#]);
    row(Never, VariantsWithContent::A, &[r#"["A",null]"#, r#"{"t":"B"}"#, r#"{"t":"C"}"#, r#"{"c":1,"t":"C"}"#]);
    row(Never, UntaggedVariants::B { x: TaggedVariants::A }, &[r#"{"x":{"t":0}}"#, "1"]);
}

/// What serde compiles and writes only where it is newer.
#[cfg(feature = "newer")]
fn newer() {
    row(Always, RenameAllFields::A { full_name: 1 }, &[]);
    row(Always, UntaggedVariant::B { x: 1 }, &[r#"{"A":1}"#]);
    row(Always, DefaultOnTuple(1, true), &["[2]", "[]"]);
    row(Always, TruthValuesAsKeys { a: [(true, 1)].into() }, &[]);
}

#[cfg(not(feature = "newer"))]
fn newer() {
    for name in ["RenameAllFields", "UntaggedVariant", "DefaultOnTuple", "TruthValuesAsKeys"] {
        without_values(name);
    }
}

fn main() {
    names();
    variants();
    other_json();
    conditions();
    unnamed_fields();
    by_hand();
    reading_and_writing();
    keys();
    other_types();
    newer();
}
