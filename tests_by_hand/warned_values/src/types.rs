//! A type for each line of the tables of docs/SERDE.md: "What is read over, where the JSON is another", "Reading and writing" and
//! "Types". A declaration is a paragraph, without an empty line in it, and with what is implemented for it by hand. `schema_gen_file`
//! reports the first hundred warnings; there must be no more.
//!
//! Left out: `serde_as(..)` and another derive of `Serialize` and `Deserialize`, which are tools beside serde; and `default`,
//! `deny_unknown_fields`, `tag` and `content` on a variant, which serde does not compile. What is under `newer` has no values where
//! serde is older.

use crate::functions::{as_text, as_text_or_null};
use serde::de::{Deserializer, Error};
use serde::ser::Serializer;
use serde::{Deserialize, Serialize};
use std::borrow::Cow;
use std::cell::RefCell;
use std::collections::{BTreeMap, BTreeSet, HashMap};
use std::rc::Rc;
use std::sync::Arc;

// ---- names

#[derive(Serialize, Deserialize)]
pub struct RenameSerialize {
    #[serde(rename(serialize = "out"))]
    pub a: u8,
}

#[derive(Serialize, Deserialize)]
pub struct RenameDeserialize {
    #[serde(rename(deserialize = "in"))]
    pub a: u8,
}

#[derive(Serialize, Deserialize)]
pub enum RenameSerializeVariant {
    #[serde(rename(serialize = "out"))]
    A,
}

#[derive(Serialize, Deserialize)]
pub enum RenameDeserializeVariant {
    #[serde(rename(deserialize = "in"))]
    A(u8),
}

#[derive(Serialize, Deserialize)]
#[serde(rename_all(serialize = "camelCase"))]
pub struct RenameAllSerialize {
    pub full_name: u8,
}

#[derive(Serialize, Deserialize)]
#[serde(rename_all(deserialize = "camelCase"))]
pub struct RenameAllDeserialize {
    pub full_name: u8,
}

#[derive(Serialize, Deserialize)]
#[serde(rename_all(serialize = "camelCase"))]
pub enum RenameAllSerializeEnum {
    PickUp,
}

#[derive(Serialize, Deserialize)]
#[serde(rename_all(deserialize = "camelCase"))]
pub enum RenameAllDeserializeEnum {
    PickUp(u8),
}

#[derive(Serialize, Deserialize)]
pub enum RenameAllSerializeVariant {
    #[serde(rename_all(serialize = "camelCase"))]
    A { full_name: u8 },
}

#[cfg(feature = "newer")]
#[derive(Serialize, Deserialize)]
#[serde(rename_all_fields = "camelCase")]
pub enum RenameAllFields {
    A { full_name: u8 },
}

#[derive(Serialize, Deserialize)]
pub struct EmptyRename {
    #[serde(rename = "")]
    pub a: u8,
}

#[derive(Serialize, Deserialize)]
pub enum EmptyRenameVariant {
    #[serde(rename = "")]
    A,
}

#[derive(Serialize, Deserialize)]
pub struct AliasOnField {
    #[serde(alias = "b")]
    pub a: u8,
}

#[derive(Serialize, Deserialize)]
#[serde(deny_unknown_fields)]
pub struct AliasOnDeniedField {
    #[serde(alias = "b")]
    pub a: Option<u8>,
}

#[derive(Serialize, Deserialize)]
pub enum AliasOnFieldOfVariant {
    A {
        #[serde(alias = "c")]
        b: u8,
    },
}

#[derive(Serialize, Deserialize)]
pub enum AliasOnVariant {
    #[serde(alias = "B")]
    A,
}

#[derive(Serialize, Deserialize)]
pub enum AliasOnVariantWithFields {
    #[serde(alias = "B")]
    A(u8),
}

// ---- variants

#[derive(Serialize, Deserialize)]
pub enum OtherVariant {
    A,
    #[serde(other)]
    Rest,
}

#[derive(Serialize, Deserialize)]
#[serde(tag = "t")]
pub enum OtherVariantWithTag {
    A { x: u8 },
    #[serde(other)]
    Rest,
}

#[cfg(feature = "newer")]
#[derive(Serialize, Deserialize)]
pub enum UntaggedVariant {
    A(u8),
    #[serde(untagged)]
    B { x: u8 },
}

#[derive(Serialize, Deserialize)]
#[serde(tag = "t", content = "c", deny_unknown_fields)]
pub enum DenyOnEnumWithContent {
    A(u8),
}

#[derive(Serialize, Deserialize)]
#[serde(deny_unknown_fields)]
pub enum DenyOnEnum {
    A { x: u8 },
}

#[derive(Serialize, Deserialize)]
#[serde(tag = "t", deny_unknown_fields)]
pub enum DenyOnEnumWithTag {
    A { x: u8 },
}

#[derive(Serialize, Deserialize)]
#[serde(untagged, deny_unknown_fields)]
pub enum DenyOnUntaggedEnum {
    A { x: u8 },
}

// ---- the JSON of another type

#[derive(Serialize, Deserialize)]
#[serde(transparent)]
pub struct Transparent {
    pub a: u8,
}

#[derive(Serialize, Deserialize)]
#[serde(transparent)]
pub struct TransparentBesideSkipped(#[serde(skip)] pub bool, pub u8);

// `PhantomData` is std's, and this is what a reader of a document may say of it. It is unknown otherwise.
#[cfg(any())]
pub struct PhantomData(Option<bool>);

#[derive(Serialize, Deserialize)]
#[serde(transparent)]
pub struct TransparentBesidePhantom(pub u8, pub std::marker::PhantomData<bool>);

#[derive(Serialize, Deserialize)]
#[serde(from = "u8")]
pub struct FromNumber {
    pub a: u8,
}
impl From<u8> for FromNumber {
    fn from(a: u8) -> Self {
        FromNumber { a }
    }
}

#[derive(Serialize, Deserialize)]
#[serde(try_from = "u8")]
pub struct TryFromNumber {
    pub a: u8,
}
impl TryFrom<u8> for TryFromNumber {
    type Error = String;
    fn try_from(a: u8) -> Result<Self, String> {
        Ok(TryFromNumber { a })
    }
}

#[derive(Clone, Serialize, Deserialize)]
#[serde(into = "u8")]
pub struct IntoNumber {
    pub a: u8,
}
impl From<IntoNumber> for u8 {
    fn from(it: IntoNumber) -> u8 {
        it.a
    }
}

#[derive(Clone, Serialize, Deserialize)]
#[serde(from = "bool", into = "bool")]
pub enum FromAndIntoOnEnum {
    No,
    Yes,
}
impl From<bool> for FromAndIntoOnEnum {
    fn from(it: bool) -> Self {
        if it { FromAndIntoOnEnum::Yes } else { FromAndIntoOnEnum::No }
    }
}
impl From<FromAndIntoOnEnum> for bool {
    fn from(it: FromAndIntoOnEnum) -> bool {
        matches!(it, FromAndIntoOnEnum::Yes)
    }
}

#[derive(Clone, Serialize, Deserialize)]
#[serde(try_from = "String", into = "String")]
pub struct TryFromAndIntoOnTuple(pub u8);
impl TryFrom<String> for TryFromAndIntoOnTuple {
    type Error = std::num::ParseIntError;
    fn try_from(it: String) -> Result<Self, Self::Error> {
        it.parse().map(TryFromAndIntoOnTuple)
    }
}
impl From<TryFromAndIntoOnTuple> for String {
    fn from(it: TryFromAndIntoOnTuple) -> String {
        it.0.to_string()
    }
}

// ---- other functions

#[derive(Serialize, Deserialize)]
pub struct With {
    #[serde(with = "as_text")]
    pub a: u8,
}

#[derive(Serialize, Deserialize)]
pub struct SerializeWith {
    #[serde(serialize_with = "as_text::serialize")]
    pub a: u8,
}

#[derive(Serialize, Deserialize)]
pub struct DeserializeWith {
    #[serde(deserialize_with = "as_text::deserialize")]
    pub a: u8,
}

#[derive(Serialize, Deserialize)]
pub enum WithOnVariant {
    #[serde(with = "as_text")]
    A(u8),
}

#[derive(Serialize, Deserialize)]
pub enum SerializeWithOnVariant {
    #[serde(serialize_with = "as_text::serialize")]
    A { x: u8 },
}

#[derive(Serialize, Deserialize)]
pub enum DeserializeWithOnVariant {
    #[serde(deserialize_with = "as_text::deserialize")]
    A(u8),
}

// ---- the struct's name

#[derive(Serialize, Deserialize)]
#[serde(tag = "t")]
pub struct TagOnStruct {
    pub a: u8,
}

#[derive(Serialize, Deserialize)]
#[serde(tag = "t", deny_unknown_fields)]
pub struct TagOnDenyingStruct {
    pub a: u8,
}

// ---- under a condition

#[derive(Serialize, Deserialize)]
#[cfg_attr(feature = "json", serde(rename_all = "camelCase"))]
pub struct CfgAttrOnStruct {
    pub full_name: u8,
}

#[cfg_attr(feature = "json", derive(Serialize, Deserialize), serde(tag = "t"))]
pub enum CfgAttrOnEnum {
    A,
}

#[derive(Serialize, Deserialize)]
pub struct CfgAttrOnField {
    #[cfg_attr(feature = "json", serde(rename = "b"))]
    pub a: u8,
}

#[derive(Serialize, Deserialize)]
pub struct NestedCfgAttr {
    #[cfg_attr(feature = "json", cfg_attr(feature = "json", serde(rename = "b")))]
    pub a: u8,
}

#[derive(Serialize, Deserialize)]
pub struct CfgAttrOnUnnamedField(#[cfg_attr(feature = "json", serde(skip))] pub bool, pub u8);

#[derive(Serialize, Deserialize)]
pub enum CfgAttrOnVariant {
    #[cfg_attr(feature = "json", serde(rename = "a"))]
    A,
}

#[derive(Serialize, Deserialize)]
pub enum CfgAttrOnFieldOfVariant {
    A {
        #[cfg_attr(feature = "json", serde(rename = "y"))]
        x: u8,
    },
}

#[derive(Serialize, Deserialize)]
pub struct CfgAttrWithFlatten {
    #[cfg_attr(feature = "json", serde(flatten))]
    pub inner: Plain,
}

#[cfg_attr(feature = "json", derive(Serialize, Deserialize))]
pub struct CfgAttrOfDerives {
    pub a: u8,
}

// ---- tuple structs and unnamed fields

#[derive(Serialize, Deserialize)]
pub struct SkipUnnamed(#[serde(skip)] pub bool, pub u8);

#[derive(Serialize, Deserialize)]
pub struct SkipSerializingUnnamed(#[serde(skip_serializing)] pub bool, pub u8);

#[derive(Serialize, Deserialize)]
pub struct SkipDeserializingUnnamed(#[serde(skip_deserializing)] pub bool, pub u8);

#[derive(Serialize, Deserialize)]
pub struct SkipSerializingIfUnnamed(#[serde(skip_serializing_if = "Option::is_none")] pub Option<bool>, pub u8);

#[derive(Serialize, Deserialize)]
pub struct WithOnUnnamed(#[serde(with = "as_text")] pub u8);

#[derive(Serialize, Deserialize)]
pub struct DefaultOnUnnamed(pub u8, #[serde(default)] pub bool);

#[cfg(feature = "newer")]
#[derive(Default, Serialize, Deserialize)]
#[serde(default)]
pub struct DefaultOnTuple(pub u8, pub bool);

#[derive(Serialize, Deserialize)]
pub enum SkipUnnamedOfVariant {
    A(#[serde(skip)] bool, u8),
}

#[derive(Serialize, Deserialize)]
pub enum SkipOnlyFieldOfVariant {
    A(#[serde(skip)] u8),
}

#[derive(Serialize, Deserialize)]
pub enum WithOnUnnamedOfVariant {
    A(#[serde(with = "as_text")] u8),
}

// ---- by hand

#[derive(Deserialize)]
pub struct SerializeByHand {
    pub a: u8,
}
impl Serialize for SerializeByHand {
    fn serialize<S: Serializer>(&self, to: S) -> Result<S::Ok, S::Error> {
        to.serialize_u8(self.a)
    }
}

#[derive(Serialize)]
pub struct DeserializeByHand(pub u8);
impl<'de> serde::Deserialize<'de> for DeserializeByHand {
    fn deserialize<D: Deserializer<'de>>(from: D) -> Result<Self, D::Error> {
        String::deserialize(from)?.parse().map(DeserializeByHand).map_err(D::Error::custom)
    }
}

pub enum BothByHand {
    No,
    Yes,
}
impl serde::ser::Serialize for BothByHand {
    fn serialize<S: Serializer>(&self, to: S) -> Result<S::Ok, S::Error> {
        to.serialize_bool(matches!(self, BothByHand::Yes))
    }
}
impl<'de> Deserialize<'de> for BothByHand {
    fn deserialize<D: Deserializer<'de>>(from: D) -> Result<Self, D::Error> {
        Ok(if bool::deserialize(from)? { BothByHand::Yes } else { BothByHand::No })
    }
}

// ---- reading and writing

#[derive(Serialize, Deserialize)]
pub struct SkipSerializing {
    #[serde(skip_serializing)]
    pub a: u8,
}

#[derive(Serialize, Deserialize)]
#[serde(deny_unknown_fields)]
pub struct SkipSerializingDenied {
    #[serde(skip_serializing)]
    pub a: u8,
}

#[derive(Serialize, Deserialize)]
pub enum SkipSerializingVariant {
    #[serde(skip_serializing)]
    A,
    B,
}

#[derive(Serialize, Deserialize)]
pub struct SkipDeserializing {
    #[serde(skip_deserializing)]
    pub a: u8,
}

#[derive(Serialize, Deserialize)]
#[serde(deny_unknown_fields)]
pub struct SkipDeserializingDenied {
    #[serde(skip_deserializing)]
    pub a: u8,
}

#[derive(Serialize, Deserialize)]
pub enum SkipDeserializingVariant {
    #[serde(skip_deserializing)]
    A(u8),
    B,
}

#[derive(Serialize, Deserialize)]
pub struct SkipSerializingIf {
    #[serde(skip_serializing_if = "String::is_empty")]
    pub a: String,
}

#[derive(Serialize, Deserialize)]
pub struct WithOnOption {
    #[serde(with = "as_text_or_null")]
    pub a: Option<u8>,
}

#[derive(Serialize, Deserialize)]
pub struct DeserializeWithOnOption {
    #[serde(deserialize_with = "as_text_or_null::deserialize")]
    pub a: Option<u8>,
}

#[derive(Serialize, Deserialize)]
pub struct OptionOfOption {
    pub a: Option<Option<u8>>,
}

#[derive(Serialize, Deserialize)]
pub struct DoubleOption {
    #[serde(default, skip_serializing_if = "Option::is_none", with = "::serde_with::rust::double_option")]
    pub a: Option<Option<u8>>,
}

#[derive(Serialize, Deserialize)]
pub struct BoxOfOption {
    pub a: Box<Option<u8>>,
}

#[derive(Serialize, Deserialize)]
pub struct RcOfOption {
    pub a: Rc<Option<u8>>,
}

#[derive(Serialize, Deserialize)]
pub struct ArcOfOption {
    pub a: Arc<Option<u8>>,
}

#[derive(Serialize, Deserialize)]
pub struct CowOfOption {
    pub a: Cow<'static, Option<u8>>,
}

#[derive(Serialize, Deserialize)]
pub enum RefCellOfOption {
    A { x: RefCell<Option<u8>> },
}

#[derive(Serialize, Deserialize)]
pub struct BoxOfBoxOfOption {
    pub a: Box<Box<Option<u8>>>,
}

#[derive(Serialize, Deserialize)]
#[serde(transparent)]
pub struct OptionInside(pub Option<u8>);

#[derive(Serialize, Deserialize)]
pub struct MemberWithOptionInside {
    pub a: OptionInside,
}

// ---- types

#[derive(Serialize, Deserialize)]
pub struct NumbersAsKeys {
    pub a: HashMap<u32, bool>,
}

#[derive(Serialize, Deserialize)]
pub struct NumbersAsKeysInside(pub Vec<(BTreeMap<i64, bool>, u8)>);

#[derive(Serialize, Deserialize)]
pub enum NumbersAsKeysOfVariant {
    A(HashMap<u8, bool>),
}

#[derive(Serialize, Deserialize)]
pub struct TruthValuesAsKeys {
    pub a: BTreeMap<bool, u8>,
}

#[derive(Serialize, Deserialize, PartialEq, Eq, PartialOrd, Ord)]
pub struct Id(pub u32);

#[derive(Serialize, Deserialize)]
pub struct KeysOfOneNumber {
    pub a: BTreeMap<Id, bool>,
}

#[derive(Serialize, Deserialize)]
pub struct BoxedNumbersAsKeys {
    pub a: BTreeMap<Box<u32>, bool>,
}

#[derive(Serialize, Deserialize)]
pub struct GenericNumbersAsKeys {
    pub a: Keyed<u32>,
}
#[derive(Serialize, Deserialize)]
pub struct Keyed<K: Ord> {
    pub a: BTreeMap<K, bool>,
}

#[derive(Serialize, Deserialize)]
pub struct CharactersAsKeys {
    pub a: BTreeMap<char, bool>,
}

#[derive(Serialize, Deserialize)]
pub struct WholeNumbers {
    pub a: i128,
    pub b: u64,
    pub c: i8,
}

#[derive(Serialize, Deserialize)]
pub struct Float {
    pub a: f64,
}

#[derive(Serialize, Deserialize)]
pub struct Character {
    pub a: char,
}

#[derive(Serialize, Deserialize)]
pub struct Tuple {
    pub a: (u8, bool),
}

#[derive(Serialize, Deserialize)]
pub struct Array {
    pub a: [u8; 2],
}

#[derive(Serialize, Deserialize)]
pub struct Set {
    pub a: BTreeSet<u8>,
}

#[derive(Serialize, Deserialize)]
pub struct Unit {
    pub a: (),
}

#[derive(Serialize, Deserialize)]
pub struct UnitStruct;

#[derive(Serialize, Deserialize)]
pub struct Plain {
    pub a: u8,
}

#[derive(Serialize, Deserialize)]
pub enum NamedVariants {
    A,
    B(u8),
    C { x: u8 },
}

#[derive(Serialize, Deserialize)]
#[serde(tag = "t")]
pub enum TaggedVariants {
    A,
    B { x: u8 },
}

#[derive(Serialize, Deserialize)]
#[serde(tag = "t", content = "c")]
pub enum VariantsWithContent {
    A,
    B(Option<u8>),
    C(Box<Option<u8>>),
}

#[derive(Serialize, Deserialize)]
#[serde(untagged)]
pub enum UntaggedVariants {
    A(u8),
    B { x: TaggedVariants },
}
