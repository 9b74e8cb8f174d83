//! Values of the standard library's types.

use crate::{parsed, row};
use std::cell::Cell;
use std::cmp::Reverse;
use std::collections::{BinaryHeap, VecDeque};
use std::ffi::{CStr, CString, OsStr, OsString};
use std::marker::PhantomData;
use std::net::{IpAddr, Ipv4Addr, Ipv6Addr, SocketAddr, SocketAddrV4, SocketAddrV6};
use std::num::*;
use std::ops::{Bound, Range, RangeInclusive};
use std::path::{Path, PathBuf};
use std::sync::atomic::*;
use std::sync::{Arc, Mutex, RwLock, Weak};
use std::time::{Duration, SystemTime};

pub fn print() {
    texts();
    times();
    addresses();
    numbers();
    atomics();
    holders();
    ranges();
    collections();
}

fn texts() {
    row!("std", PathBuf).writes(["", "/", "/etc/passwd", "a b/é"].map(PathBuf::from)).refuses(&["1", "null", "[]"]);
    let broken = <OsStr as std::os::unix::ffi::OsStrExt>::from_bytes(b"\xff");
    assert!(serde_json::to_string(Path::new(broken)).is_err());
    row!("std", Path).writes_alone(Path::new("/a/b"));
    row!("std", OsString)
        .writes(["", "a", "é"].map(OsString::from))
        .refuses(&[r#""a""#, r#"{"Unix":"a"}"#, r#"{"Unix":[-1]}"#, "{}", "null"])
        .wider(&[r#"{"Windows":[97]}"#, r#"{"Unix":[256]}"#]);
    row!("std", OsStr).writes_alone(OsStr::new("a")).writes_alone(broken);
    row!("std", CString).writes([CString::default(), CString::new("aé").unwrap()]).refuses(&["1", "null", r#"{"a":1}"#]).wider(&["[0]"]);
    row!("std", CString).narrower(&[r#""a""#]);
    row!("std", CStr).writes_alone(CStr::from_bytes_with_nul(b"ab\0").unwrap());
}

fn times() {
    row!("std", Duration)
        .writes([Duration::ZERO, Duration::MAX, Duration::from_nanos(1), Duration::from_millis(1_500)])
        .refuses(&["1", r#""1s""#, r#"{"secs":1}"#, r#"{"nanos":1}"#, r#"{"secs":-1,"nanos":0}"#, r#"{"secs":1,"nanos":0,"a":0}"#])
        .narrower(&["[1,0]"])
        .wider(&[r#"{"secs":18446744073709551615,"nanos":1000000000}"#, r#"{"secs":18446744073709551616,"nanos":0}"#]);
    row!("std", SystemTime)
        .writes([SystemTime::UNIX_EPOCH, SystemTime::UNIX_EPOCH + Duration::new(253_402_300_800, 999_999_999)])
        .refuses(&["1", r#"{"secs":1,"nanos":0}"#, r#"{"secs_since_epoch":1}"#, r#"{"secs_since_epoch":1,"nanos_since_epoch":0,"a":0}"#]);
    let early = SystemTime::UNIX_EPOCH - Duration::new(1, 0);
    assert!(serde_json::to_string(&early).is_err());
}

fn addresses() {
    let no = ["1", "null", "[127,0,0,1]", r#"{"V4":[127,0,0,1]}"#];
    row!("std", IpAddr).writes(["127.0.0.1", "::1", "::ffff:1.2.3.4"].map(parsed)).refuses(&no).wider(&[r#""a""#]);
    row!("std", Ipv4Addr).writes([Ipv4Addr::BROADCAST, Ipv4Addr::UNSPECIFIED]).refuses(&no);
    row!("std", Ipv6Addr).writes([Ipv6Addr::LOCALHOST, Ipv6Addr::from([0xffff; 8])]).refuses(&no);
    row!("std", SocketAddr).writes(["127.0.0.1:0", "[::1]:65535", "[fe80::1%4294967295]:1"].map(parsed)).refuses(&no);
    row!("std", SocketAddrV4).writes([SocketAddrV4::new(Ipv4Addr::LOCALHOST, 80)]).refuses(&no);
    row!("std", SocketAddrV6).writes([SocketAddrV6::new(Ipv6Addr::LOCALHOST, 80, 0, 3), parsed("[::]:0")]).refuses(&no);
}

macro_rules! non_zero {
    ($($type:ident $negative:literal),*) => {
        $(
            row!("std", $type)
                .writes([$type::MIN, $type::MAX, $type::new(1).unwrap()])
                .refuses(&[r#""1""#, "null", "1.5"])
                .wider(&["0"]);
            if !$negative {
                row!("std", $type).refuses(&["-1"]);
            }
        )*
    };
}

fn numbers() {
    non_zero!(
        NonZeroU8 false, NonZeroU16 false, NonZeroU32 false, NonZeroU64 false, NonZeroU128 false, NonZeroUsize false, NonZeroI8 true,
        NonZeroI16 true, NonZeroI32 true, NonZeroI64 true, NonZeroI128 true, NonZeroIsize true
    );
    row!("std", Wrapping<i8>).writes([Wrapping(i8::MIN), Wrapping(i8::MAX)]).refuses(&["[1]", "null", r#"{"a":1}"#]);
    row!("std", std::os::fd::RawFd).writes([-1, i32::MAX]).refuses(&["null", "1.5"]);
    row!("std", Wrapping<u64>).writes([Wrapping(u64::MAX)]).refuses(&["-1"]);
}

macro_rules! atomics {
    ($($type:ident $content:ident),*) => {
        $(row!("std", $type).writes([$type::new($content::MIN), $type::new($content::MAX)]).refuses(&["true", "null", "[1]"]);)*
    };
}

fn atomics() {
    atomics!(
        AtomicU8 u8, AtomicU16 u16, AtomicU32 u32, AtomicU64 u64, AtomicUsize usize, AtomicI8 i8, AtomicI16 i16, AtomicI32 i32,
        AtomicI64 i64, AtomicIsize isize
    );
    row!("std", AtomicBool).writes([AtomicBool::new(true), AtomicBool::new(false)]).refuses(&["1", "null", r#""true""#]);
}

fn holders() {
    row!("std", Mutex<u8>).writes([Mutex::new(7)]).refuses(&["-1", "null", "[1]"]);
    row!("std", Mutex<Vec<String>>).writes([Mutex::new(vec![]), Mutex::new(vec!["a".into()])]).refuses(&[r#""a""#]);
    row!("std", RwLock<Option<bool>>).writes([RwLock::new(None), RwLock::new(Some(true))]).refuses(&["1"]);
    row!("std", Arc<Mutex<Duration>>).writes([Arc::new(Mutex::new(Duration::MAX))]).refuses(&["1"]);
    row!("std", Cell<char>).writes([Cell::new('\u{10ffff}')]).refuses(&["1"]);
    row!("std", Reverse<u8>).writes([Reverse(1)]).refuses(&["[1]"]);
    let held = Arc::new(7u8);
    row!("std", Weak<u8>).writes([Weak::new(), Arc::downgrade(&held)]).refuses(&["-1", r#""a""#, "[]"]);
    row!("std", std::rc::Weak<u8>).writes([std::rc::Weak::new()]);
    row!("std", PhantomData<u8>).writes([PhantomData]).refuses(&["0", "[]", "{}", r#""a""#]);
    row!("std", Result<u8, String>).writes([Ok(1), Err("a".into())]).refuses(&[
        "1",
        r#"{"ok":1}"#,
        r#"{"Ok":"a"}"#,
        r#"{"Err":1}"#,
        "{}",
        "null",
        r#""Ok""#,
        r#"{"Ok":1,"Err":"a"}"#,
    ]);
}

fn ranges() {
    row!("std", Range<i8>)
        .writes([0..1, i8::MAX..i8::MIN])
        .refuses(&[r#"{"start":1}"#, r#"{"end":1}"#, r#"{"start":1,"end":2,"a":3}"#, r#""1..2""#])
        .narrower(&["[1,2]"]);
    row!("std", RangeInclusive<char>).writes(['a'..='z']).refuses(&[
        r#"{"start":"a"}"#,
        r#"{"start":"a","end":"b","exhausted":false}"#,
        r#""a""#,
    ]);
    row!("std", Bound<u8>)
        .writes([Bound::Unbounded, Bound::Included(0), Bound::Excluded(255)])
        .refuses(&["null", "1", r#""Included""#, r#"{"Included":-1}"#, r#"{"Unknown":1}"#])
        .narrower(&[r#"{"Unbounded":null}"#]);
}

fn collections() {
    row!("std", VecDeque<u8>).writes([VecDeque::new(), VecDeque::from([1, 1])]).refuses(&["{}", "[-1]", "null"]);
    row!("std", BinaryHeap<u8>).writes([BinaryHeap::new(), BinaryHeap::from([1, 3, 3])]).refuses(&["{}", "[-1]", "null"]);
    row!("std", VecDeque<Option<Duration>>).writes([VecDeque::from([None, Some(Duration::ZERO)])]).refuses(&["[1]"]);
}
