//! Stand-ins for types of the crate `zvariant`, versions 2. Compared with zvariant 2.10.0.
//!
//! `zvariant::Value` is the built-in `Value`, by its name: any value. Left out: `Array`, `Dict`, `Structure` and `Maybe`, which serde does
//! not read by themselves; `SerializeValue`, which it does not read, and `DeserializeValue`, which it does not write; and `Optional`,
//! which is written as another type where there is none, by its argument's trait.

/// A path of an object of D-Bus, such as `/org/freedesktop/DBus`.
pub struct ObjectPath<'a>(&'a str);
/// A path of an object of D-Bus, such as `/org/freedesktop/DBus`.
pub struct OwnedObjectPath(String);
/// A signature of D-Bus, such as `a{sv}`.
pub struct Signature<'a>(&'a str);
/// A signature of D-Bus, such as `a{sv}`.
pub struct OwnedSignature(String);
pub struct Str<'a>(&'a str);
/// The number of an open file.
pub struct Fd(i32);
/// The number of an open file.
pub struct OwnedFd(i32);
// Of which form the value is, the signature says, and the schema does not. serde does not read all that it writes: no list of `u8`, no
// dictionary, and no value in a value, at which it panics. It reads a pair as well, and members of any names in this order.
/// A value with its signature.
#[serde(deny_unknown_fields)]
pub struct OwnedValue {
    /// The signature, such as `s` of a text.
    #[serde(rename = "zvariant::Value::Signature")]
    pub signature: String,
    /// The value. A structure is a list, and a dictionary a list of its entries.
    #[serde(rename = "zvariant::Value::Value")]
    pub value: Value,
}
