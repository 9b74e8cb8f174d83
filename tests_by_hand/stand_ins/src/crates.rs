//! Values of the types of other crates.

use crate::{parsed, row};
use enum_map::{Enum, EnumMap};
use enumflags2::BitFlags;
use enumset::{EnumSet, EnumSetType};
use serde::{Deserialize, Serialize};
use std::collections::HashMap;
use std::sync::Arc;

pub fn print() {
    calendar();
    clocks();
    identifiers();
    numbers();
    bytes();
    texts();
    networks();
    collections();
    holders();
    json();
}

fn calendar() {
    use chrono::{DateTime, FixedOffset, Local, Month, NaiveDate, NaiveDateTime, NaiveTime, TimeZone, Utc, Weekday};
    let no = ["1", "null", "[2024,60]", r#"{"secs":1}"#];
    let early = NaiveDate::MIN.and_hms_opt(0, 0, 0).unwrap();
    let late = NaiveDate::from_ymd_opt(10_000, 1, 1).unwrap().and_hms_nano_opt(23, 59, 59, 1_999_999_999).unwrap();
    row!("chrono", DateTime<Utc>)
        .writes([Utc.timestamp_opt(0, 0).unwrap(), Utc.timestamp_opt(-1, 5).unwrap(), Utc.from_utc_datetime(&late)])
        .refuses(&no)
        .wider(&[r#""2024-02-30T00:00:00Z""#]);
    row!("chrono", DateTime<Utc>).writes_alone(&Utc.from_utc_datetime(&early));
    let zone = FixedOffset::west_opt(86_340).unwrap();
    row!("chrono", DateTime<FixedOffset>).writes([zone.from_utc_datetime(&late)]).refuses(&no);
    row!("chrono", DateTime<Local>).writes([Local.from_utc_datetime(&late)]).refuses(&no);
    row!("chrono", HashMap<DateTime<Utc>, u8>).writes([HashMap::from([(Utc.timestamp_opt(0, 0).unwrap(), 1)])]).refuses(&["[]"]);
    row!("chrono", NaiveDate).writes([NaiveDate::MIN, NaiveDate::MAX, late.date()]).refuses(&no);
    row!("chrono", NaiveTime).writes([NaiveTime::default(), late.time()]).refuses(&no);
    row!("chrono", NaiveDateTime).writes([early, late, NaiveDate::MAX.and_time(late.time())]).refuses(&no);
    let days = [Weekday::Mon, Weekday::Tue, Weekday::Wed, Weekday::Thu, Weekday::Fri, Weekday::Sat, Weekday::Sun];
    row!("chrono", Weekday).writes(days).refuses(&["1", "null", r#""Mo""#, r#""""#]).narrower(&[r#""Monday""#, r#""mon""#]);
    row!("chrono", HashMap<Weekday, u8>).writes_alone(&HashMap::from([(Weekday::Mon, 1)]));
    row!("chrono", Month).writes((1..=12).map(month)).refuses(&["1", "null", r#""Ja""#]).narrower(&[r#""Jan""#, r#""january""#]);
    row!("chrono_tz", chrono_tz::Tz).writes([chrono_tz::UTC, chrono_tz::Europe::Berlin]).refuses(&["1", "null"]).wider(&[r#""a""#]);
    row!("chrono_tz", chrono_tz::Tz).writes(chrono_tz::TZ_VARIANTS.iter().copied());

    fn month(at: u8) -> Month {
        let names = "January February March April May June July August September October November December";
        parsed(names.split(' ').nth(usize::from(at) - 1).unwrap())
    }
}

fn clocks() {
    use time::macros::{date, datetime, offset, time};
    use time::{Date, Duration, Month, OffsetDateTime, PrimitiveDateTime, Time, UtcOffset, Weekday};
    let no = ["null", r#"{"a":1}"#, "true"];
    row!("time", Date).writes([Date::MIN, Date::MAX, date!(2024 - 02 - 29)]).refuses(&no).refuses(&["1", "[2024]", r#"["a",1]"#]);
    row!("time", Time).writes([Time::MIDNIGHT, time!(23:59:59.999_999_999), time!(1:2:3.5)]).refuses(&no).refuses(&["1", "[-1,0,0,0]"]);
    row!("time", PrimitiveDateTime)
        .writes([PrimitiveDateTime::MIN, PrimitiveDateTime::MAX, datetime!(2024-02-29 1:2:3)])
        .refuses(&no)
        .refuses(&["[2024,1,0,0,0]", "1"]);
    row!("time", OffsetDateTime)
        .writes([OffsetDateTime::UNIX_EPOCH, datetime!(-9999-01-01 0:00 -23:59:59), datetime!(9999-12-31 23:59:59.999_999_999 +23:59)])
        .refuses(&no)
        .refuses(&["[2024,1,0,0,0,0]", "1"]);
    row!("time", UtcOffset).writes([UtcOffset::UTC, offset!(-23:59:59), offset!(+23:59:59)]).refuses(&no).refuses(&["1"]);
    row!("time", Duration)
        .writes([Duration::ZERO, Duration::MIN, Duration::MAX, Duration::new(-1, -500_000_000)])
        .refuses(&no)
        .refuses(&["1", "[1,2,3]"]);
    let days = [Weekday::Monday, Weekday::Tuesday, Weekday::Wednesday, Weekday::Thursday, Weekday::Friday, Weekday::Saturday];
    // (time 0.3.9 does not read the numbers that it writes)
    for day in days.into_iter().chain([Weekday::Sunday]) {
        row!("time", Weekday).writes_alone(&day);
    }
    row!("time", Weekday).reads(&[r#""Monday""#]).refuses(&no).refuses(&["-1", "[1]"]).wider(&["0", "8"]);
    for at in 1..=12 {
        row!("time", Month).writes_alone(&Month::try_from(at).unwrap());
    }
    row!("time", Month).reads(&[r#""January""#]).refuses(&no).refuses(&["-1", "[1]"]).wider(&["0", "13"]);
}

fn identifiers() {
    use uuid::fmt::{Braced, Hyphenated, Simple, Urn};
    use uuid::Uuid;
    let one = Uuid::from_u128(u128::MAX / 3);
    let all = [Uuid::nil(), Uuid::from_u128(u128::MAX), one];
    row!("uuid", Uuid)
        .writes(all)
        .reads(&[r#""urn:uuid:67e55044-10b1-426f-9247-bb680e5fe0c8""#, r#""67E5504410B1426F9247BB680E5FE0C8""#])
        .refuses(&["1", "null", "{}", "[0]"])
        .wider(&[r#""a""#]);
    row!("uuid", Option<Uuid>).writes([None, Some(one)]).refuses(&["1"]);
    row!("uuid", HashMap<Uuid, u8>).writes([HashMap::from([(one, 1)])]).refuses(&[r#"{"67e55044-10b1-426f-9247-bb680e5fe0c8":-1}"#]);
    row!("uuid", Hyphenated).writes_alone(one.as_hyphenated());
    row!("uuid", Simple).writes_alone(one.as_simple());
    row!("uuid", Urn).writes_alone(one.as_urn());
    row!("uuid", Braced).writes_alone(one.as_braced());

    use url::{Host, Url};
    row!("url", Url)
        .writes(["http://a/", "https://u:p@[::1]:1/a%20b?c#d", "mailto:a@b", "data:,"].map(parsed::<Url>))
        .refuses(&["1", "null", "{}"])
        .wider(&[r#""/a""#]);
    row!("url", Host).writes(["a.b", "127.0.0.1", "[::1]"].map(|text| Host::parse(text).unwrap())).refuses(&[
        r#""a""#,
        r#"{"Domain":1}"#,
        r#"{"domain":"a"}"#,
        "{}",
        "null",
    ]);

    use semver::{Comparator, Version, VersionReq};
    row!("semver", Version)
        .writes(["0.0.0", "18446744073709551615.1.2-rc.1+a.b"].map(parsed::<Version>))
        .refuses(&["1", "null", "[1,2,3]"]);
    row!("semver", VersionReq).writes(["*", ">=1.2, <2", "^1.2.3-a"].map(parsed::<VersionReq>)).refuses(&["1", "null"]);
    row!("semver", Comparator).writes(["1.*", "~1.2"].map(parsed::<Comparator>)).refuses(&["1", "null"]);
    row!("cargo_platform", cargo_platform::Platform)
        .writes(["x86_64-unknown-linux-gnu", r#"cfg(all(unix, target_os = "linux"))"#].map(parsed::<cargo_platform::Platform>))
        .refuses(&["1", "null", "{}"])
        .wider(&[r#""cfg(""#]);

    use slotmap::{DefaultKey, Key, KeyData, SlotMap};
    let mut map = SlotMap::new();
    let key: DefaultKey = map.insert(1);
    row!("slotmap", DefaultKey).writes([key, DefaultKey::null()]).refuses(&["1", r#"{"idx":1}"#, r#"{"idx":-1,"version":1}"#, "null"]);
    row!("slotmap", KeyData).writes([key.data(), KeyData::default()]).refuses(&["1", r#"{"version":1}"#, "null"]);
}

#[allow(deprecated)]
fn numbers() {
    use rust_decimal::Decimal;
    row!("rust_decimal", Decimal)
        .writes([Decimal::MIN, Decimal::MAX, Decimal::ZERO, parsed("-0.0000000000000000000000000001"), parsed("1.50")])
        .refuses(&["null", "[]", "true"])
        .narrower(&["1", "-1", "1.5"]);

    use bigdecimal::BigDecimal;
    row!("bigdecimal", BigDecimal)
        .writes(["0", "-1.50", "1e400", "1e-400"].map(parsed::<BigDecimal>))
        .refuses(&["null", "[]", "true"])
        .narrower(&["1", "1.5"]);

    use num_bigint::{BigInt, BigUint, Sign};
    let large: BigUint = parsed(&"9".repeat(100));
    row!("num_bigint", BigUint).writes([0u8.into(), 1u8.into(), u64::MAX.into(), large.clone()]).refuses(&["1", r#""1""#, "[-1]", "null"]);
    row!("num_bigint", BigInt)
        .writes([0.into(), 1.into(), (-1).into(), i128::MIN.into(), BigInt::from_biguint(Sign::Minus, large)])
        .refuses(&["1", r#""1""#, "[1]", "[[1],1]", "[1,[1],1]", "[1,[-1]]", "null"])
        .wider(&["[2,[1]]"]);
    row!("num_bigint", Sign).writes([Sign::Minus, Sign::NoSign, Sign::Plus]).refuses(&[r#""Plus""#, "null"]).wider(&["2"]);

    use num_rational::{Ratio, Rational32, Rational64};
    let no = ["1", "[1]", "[1,2,3]", r#"{"numer":1,"denom":2}"#, "null"];
    row!("num_rational", Ratio<u8>).writes([Ratio::new(2, 4), Ratio::new(255, 1)]).refuses(&no).wider(&["[1,0]"]);
    row!("num_rational", Rational32).writes([Rational32::new(-1, 2)]).refuses(&no);
    row!("num_rational", num_rational::Rational).writes([Ratio::from(isize::MIN)]).refuses(&no);
    let large = |text: &str| text.repeat(30).parse::<BigInt>().unwrap();
    row!("num_rational", num_rational::BigRational).writes([Ratio::new(-large("1"), large("9"))]).refuses(&no).refuses(&["[1,[1]]"]);
    row!("num_rational", Rational64).writes([Rational64::new(i64::MIN, 1)]).refuses(&no);

    use num_complex::{Complex, Complex32, Complex64};
    row!("num_complex", Complex<i8>).writes([Complex::new(-1, 127)]).refuses(&no);
    row!("num_complex", Complex32).writes([Complex32::new(f32::MAX, -0.0)]).refuses(&no);
    row!("num_complex", Complex64).writes([Complex64::new(f64::MIN_POSITIVE, 1.0)]).refuses(&no);
    row!("num_complex", Complex<f64>).writes([Complex::new(0.5, 1.0)]).refuses(&no);

    use ordered_float::{NotNan, OrderedFloat};
    row!("ordered_float", OrderedFloat<f64>).writes([0.5, f64::MAX, -0.0].map(OrderedFloat)).refuses(&["null", r#""NaN""#, "[1]"]);
    row!("ordered_float", NotNan<f32>).writes([0.5, f32::MIN].map(|it| NotNan::new(it).unwrap())).refuses(&["null", r#""1""#]);
    assert_eq!(serde_json::to_string(&OrderedFloat(f64::NAN)).unwrap(), "null");

    use half::{bf16, f16};
    row!("half", f16).writes([f16::MAX, f16::NAN, f16::NEG_INFINITY, f16::ZERO]).refuses(&["-1", "1.5", "null"]);
    row!("half", bf16).writes([bf16::MAX, bf16::NAN]).refuses(&["-1", "1.5", "null"]);

    use bytesize::ByteSize;
    row!("bytesize", ByteSize).writes([ByteSize(0), ByteSize(u64::MAX)]).refuses(&["-1", "null"]);

    row!("enumset", EnumSet<Color>)
        .writes([EnumSet::empty(), EnumSet::all(), EnumSet::only(Color::Blue)])
        .refuses(&["[]", r#""Red""#, "-1"]);
    let rights = [BitFlags::empty(), BitFlags::all(), BitFlags::from(Right::Write)];
    row!("enumflags2", BitFlags<Right>).writes(rights).refuses(&["[]", r#""Read""#, "-1"]).wider(&["2"]);
}

#[derive(EnumSetType, Debug)]
pub enum Color {
    Red,
    Green,
    Blue,
}

#[derive(BitFlags, Clone, Copy, Debug, Enum, Serialize, Deserialize, PartialEq)]
#[repr(u8)]
pub enum Right {
    Read = 1,
    Write = 128,
}

fn bytes() {
    let all: Vec<u8> = (0..=255).collect();
    let no = ["1", "[-1]", "[1.5]", "null", "{}"];
    row!("bytes", bytes::Bytes).writes([bytes::Bytes::new(), all.clone().into()]).refuses(&no).narrower(&[r#""a""#]);
    row!("bytes", bytes::BytesMut).writes([bytes::BytesMut::from(&all[..])]).refuses(&no).narrower(&[r#""a""#]);
    row!("serde_bytes", serde_bytes::ByteBuf).writes([serde_bytes::ByteBuf::from(all.clone())]).refuses(&no).narrower(&[r#""a""#]);
    row!("serde_bytes", serde_bytes::Bytes).writes_alone(serde_bytes::Bytes::new(&all));
    row!("bstr", bstr::BString).writes([bstr::BString::from(all)]).refuses(&no).narrower(&[r#""a""#]);
    row!("bstr", bstr::BStr).writes_alone(<&bstr::BStr>::from(&b"a\xff"[..]));
}

fn texts() {
    let no = ["1", "null", "[]", r#"{"a":1}"#];
    row!("kstring", kstring::KString).writes(["", "a", &"é".repeat(100)].map(kstring::KString::from_ref)).refuses(&no);
    row!("kstring", kstring::KStringRef<'static>).writes_alone(&kstring::KStringRef::from_static("a"));
    row!("kstring", kstring::KStringCow<'static>).writes_alone(&kstring::KStringCow::from_static("a"));
    row!("string_cache", string_cache::DefaultAtom).writes(["", "a", "a longer text"].map(string_cache::DefaultAtom::from)).refuses(&no);
    use string_cache::{Atom, EmptyStaticAtomSet};
    row!("string_cache", Atom<EmptyStaticAtomSet>).writes(["a"].map(Atom::from)).refuses(&no);
    use camino::{Utf8Path, Utf8PathBuf};
    row!("camino", Utf8PathBuf).writes(["", "/a/é"].map(Utf8PathBuf::from)).refuses(&no);
    row!("camino", Utf8Path).writes_alone(Utf8Path::new("/a"));
    row!("camino", Box<Utf8Path>).writes_alone(&Utf8PathBuf::from("/a").into_boxed_path());
    use language_tags::LanguageTag;
    row!("language_tags", LanguageTag).writes(["de", "zh-cmn-Hans-CN-x-a"].map(parsed::<LanguageTag>)).refuses(&no).wider(&[r#""""#]);
    use unic_langid::LanguageIdentifier;
    row!("unic_langid", LanguageIdentifier).writes(["und", "sr-Cyrl-RS"].map(parsed::<LanguageIdentifier>)).refuses(&no);
    use encoding_rs::Encoding;
    row!("encoding_rs", &'static Encoding).writes([encoding_rs::UTF_8, encoding_rs::X_USER_DEFINED]).refuses(&no).wider(&[r#""a""#]);
    use arrayvec::{ArrayString, ArrayVec};
    row!("arrayvec", ArrayString<8>)
        .writes(["", "12345678"].map(|text| ArrayString::from(text).unwrap()))
        .refuses(&no)
        .wider(&[r#""123456789""#]);
    row!("arrayvec", ArrayVec<u8, 2>).writes([ArrayVec::new(), ArrayVec::from([1, 1])]).refuses(&["1", "[-1]", "null"]).wider(&["[1,2,3]"]);
}

fn networks() {
    let no = ["1", "null", "[]", r#"{"V4":"10.0.0.0/8"}"#];
    use ipnet::{IpNet, Ipv4Net, Ipv6Net};
    row!("ipnet", IpNet).writes(["10.0.0.1/0", "fd00::/128"].map(parsed::<IpNet>)).refuses(&no).wider(&[r#""10.0.0.0/33""#]);
    row!("ipnet", Ipv4Net).writes(["10.0.0.0/32"].map(parsed::<Ipv4Net>)).refuses(&no);
    row!("ipnet", Ipv6Net).writes(["::/0"].map(parsed::<Ipv6Net>)).refuses(&no);
    use ipnetwork::{IpNetwork, Ipv4Network, Ipv6Network};
    row!("ipnetwork", IpNetwork).writes(["10.0.0.1/0", "fd00::/128"].map(parsed::<IpNetwork>)).refuses(&no);
    row!("ipnetwork", Ipv4Network).writes(["10.0.0.0/32"].map(parsed::<Ipv4Network>)).refuses(&no);
    row!("ipnetwork", Ipv6Network).writes(["::/0"].map(parsed::<Ipv6Network>)).refuses(&no);
    use eui48::MacAddress;
    row!("eui48", MacAddress).writes([MacAddress::nil(), MacAddress::broadcast()]).refuses(&no).wider(&[r#""a""#]);
}

fn collections() {
    use indexmap::IndexSet;
    row!("indexmap", IndexSet<u8>).writes([IndexSet::new(), IndexSet::from([2, 1])]).refuses(&["{}", "[-1]", "null"]).narrower(&["[1,1]"]);
    use hashlink::{LinkedHashMap, LinkedHashSet};
    let maps = [LinkedHashMap::new(), [("b".to_string(), 1u8), ("a".to_string(), 2)].into_iter().collect()];
    row!("hashlink", LinkedHashMap<String, u8>).writes(maps).refuses(&["[]", r#"{"a":-1}"#, "null"]);
    row!("hashlink", LinkedHashSet<u8>).writes([[2, 1].into_iter().collect()]).refuses(&["{}", "[-1]"]).narrower(&["[1,1]"]);
    let map = [("b".to_string(), 1u8), ("a".to_string(), 2)].into_iter().collect();
    row!("linked_hash_map", linked_hash_map::LinkedHashMap<String, u8>).writes([map]).refuses(&["[]", r#"{"a":-1}"#, "null"]);
    use dashmap::{DashMap, DashSet};
    row!("dashmap", DashMap<String, u8>)
        .writes([DashMap::new(), [("a".to_string(), 1)].into_iter().collect()])
        .refuses(&["[]", r#"{"a":-1}"#]);
    row!("dashmap", DashSet<u8>).writes([[1, 2].into_iter().collect()]).refuses(&["{}", "[-1]"]).narrower(&["[1,1]"]);
    let pairs = || [("a".to_string(), 1u8), (String::new(), 255)];
    let no = ["[]", r#"{"a":-1}"#, "null"];
    row!("fnv", fnv::FnvHashMap<String, u8>).writes([pairs().into_iter().collect()]).refuses(&no);
    row!("fnv", fnv::FnvHashSet<u8>).writes([[1, 2].into_iter().collect()]).refuses(&["{}", "[-1]"]).narrower(&["[1,1]"]);
    row!("rustc_hash", rustc_hash::FxHashMap<String, u8>).writes([pairs().into_iter().collect()]).refuses(&no);
    row!("rustc_hash", rustc_hash::FxHashSet<u8>).writes([[1, 2].into_iter().collect()]).refuses(&["{}", "[-1]"]);
    row!("fxhash", fxhash::FxHashMap<String, u8>).writes([pairs().into_iter().collect()]).refuses(&no);
    row!("fxhash", fxhash::FxHashSet<u8>).writes([[1, 2].into_iter().collect()]).refuses(&["{}", "[-1]"]);
    row!("ahash", ahash::AHashMap<String, u8>).writes([pairs().into_iter().collect()]).refuses(&no);
    row!("ahash", ahash::AHashSet<u8>).writes([[1, 2].into_iter().collect()]).refuses(&["{}", "[-1]"]);
    let map = enum_map::enum_map! { Right::Read => 1, Right::Write => 2 };
    row!("enum_map", EnumMap<Right, u8>).writes([map]).refuses(&["[1,2]", r#"{"Read":1,"Write":-1}"#, "null"]).wider(&[r#"{"Read":1}"#]);
    use slab::Slab;
    let slab: Slab<bool> = [(0, true), (1_000, false)].into_iter().collect();
    row!("slab", Slab<bool>).writes([Slab::new(), slab]).refuses(&["[true]", r#"{"1":1}"#, "null"]).wider(&[r#"{"a":true}"#]);
    use either::Either;
    row!("either", Either<u8, String>).writes([Either::Left(1), Either::Right("a".into())]).refuses(&[
        "1",
        r#""a""#,
        r#"{"Left":"a"}"#,
        r#"{"left":1}"#,
        "{}",
        "null",
    ]);
}

/// A secret that may be written.
#[derive(Serialize, Deserialize, Clone)]
struct Pin(u16);
impl zeroize::Zeroize for Pin {
    fn zeroize(&mut self) {
        self.0 = 0;
    }
}
impl secrecy::SerializableSecret for Pin {}

fn holders() {
    use parking_lot::{FairMutex, Mutex, ReentrantMutex, RwLock};
    row!("parking_lot", Mutex<u8>).writes([Mutex::new(7)]).refuses(&["[1]", "-1", "null"]);
    row!("parking_lot", FairMutex<u8>).writes([FairMutex::new(7)]).refuses(&["[1]", "-1", "null"]);
    row!("parking_lot", ReentrantMutex<u8>).writes([ReentrantMutex::new(7)]).refuses(&["[1]", "-1", "null"]);
    row!("parking_lot", RwLock<Option<u8>>).writes([RwLock::new(None), RwLock::new(Some(7))]).refuses(&["[1]", "-1"]);
    use arc_swap::{ArcSwap, ArcSwapAny, ArcSwapOption};
    row!("arc_swap", ArcSwap<u8>).writes([ArcSwap::from_pointee(7)]).refuses(&["[1]", "-1", "null"]);
    row!("arc_swap", ArcSwapOption<u8>).writes([ArcSwapOption::empty(), ArcSwapOption::from_pointee(7)]).refuses(&["[1]", "-1"]);
    row!("arc_swap", ArcSwapAny<Arc<u8>>).writes([ArcSwapAny::new(Arc::new(7))]).refuses(&["[1]", "-1", "null"]);
    use zeroize::Zeroizing;
    row!("zeroize", Zeroizing<String>).writes([Zeroizing::new("a".to_string())]).refuses(&["1", "null"]);
    use secrecy::{Secret, SecretString, SecretVec};
    row!("secrecy", SecretString).reads(&[r#""a""#]).refuses(&["1", "null"]);
    row!("secrecy", SecretVec<u8>).reads(&["[1]"]).refuses(&["1", "[-1]", "null"]);
    row!("secrecy", Secret<u16>).reads(&["1"]).refuses(&["-1", "null"]);
    let pin = Secret::new(Pin(7));
    assert_eq!(serde_json::to_string(&pin).unwrap(), "7");
}

fn json() {
    use serde_json::value::RawValue;
    use serde_json::Number;
    let numbers = [Number::from(u64::MAX), Number::from(i64::MIN), Number::from_f64(-1.5e300).unwrap()];
    row!("serde_json", Number).writes(numbers).refuses(&["null", r#""1""#, "[1]"]);
    for text in ["null", "1", r#"{"a":[1]}"#] {
        row!("serde_json", Box<RawValue>).writes([RawValue::from_string(text.to_string()).unwrap()]);
    }
    use toml::value::{Datetime, Table};
    row!("toml", Datetime).writes(["1979-05-27T07:32:00.5-07:00", "1979-05-27", "07:32:00"].map(parsed::<Datetime>)).refuses(&[
        r#""1979-05-27""#,
        "1",
        "{}",
        "null",
    ]);
    row!("toml", Table).writes([Table::new(), toml::from_str("a = [1, 2.5]\nb = 1979-05-27").unwrap()]).refuses(&["[]", "1"]);
    row!("toml", toml::Value).writes([toml::from_str("a = 1").unwrap(), toml::Value::Datetime(parsed("1979-05-27"))]);
}
