//! Stand-ins for types of the standard library (crates `std`, `core` and `alloc`), whose JSON serde itself has.
//!
//! serde 1 with its default features and, for `Weak`, with `rc`. `RangeFrom`, `RangeTo`, `Saturating` and `NonZero` need a newer serde
//! than 1.0.152. Compared with serde 1.0.152 and serde_json 1.0.87, but for these four.
//!
//! Left out: what has no JSON (`Instant`, `Ordering`, `Infallible`, `OnceCell`, `LazyLock`), and `fmt::Arguments`, which is written alone.

// Paths and texts of the system. serde does not write a path that is no UTF-8.

/// A path of a file.
pub struct PathBuf(String);
/// A path of a file.
pub struct Path(String);
// Unix is written on Unix, Windows on Windows.
/// A text of the operating system: its bytes, or its UTF-16 code units.
pub enum OsString {
    Unix(Vec<u8>),
    Windows(Vec<u16>),
}
/// A text of the operating system: its bytes, or its UTF-16 code units.
pub enum OsStr {
    Unix(Vec<u8>),
    Windows(Vec<u16>),
}
/// The bytes of a text of C, without the 0 at its end.
pub struct CString(Vec<u8>);
/// The bytes of a text of C, without the 0 at its end.
pub struct CStr(Vec<u8>);

// Time. serde does not write a time before 1970.

/// A span of time.
#[serde(deny_unknown_fields)]
pub struct Duration {
    /// Whole seconds.
    pub secs: u64,
    /// Nanoseconds beside them.
    pub nanos: u32,
}
/// A point in time.
#[serde(deny_unknown_fields)]
pub struct SystemTime {
    /// Whole seconds since 1970-01-01 00:00:00 UTC.
    pub secs_since_epoch: u64,
    /// Nanoseconds beside them.
    pub nanos_since_epoch: u32,
}

// Addresses.

/// An IPv4 or IPv6 address, such as `127.0.0.1` or `::1`.
pub struct IpAddr(String);
/// An IPv4 address, such as `127.0.0.1`.
pub struct Ipv4Addr(String);
/// An IPv6 address, such as `::1`.
pub struct Ipv6Addr(String);
/// An address with a port, such as `127.0.0.1:80` or `[::1]:80`.
pub struct SocketAddr(String);
/// An IPv4 address with a port, such as `127.0.0.1:80`.
pub struct SocketAddrV4(String);
/// An IPv6 address with a port, such as `[::1]:80`.
pub struct SocketAddrV6(String);

// Numbers. serde reads no 0 as a `NonZero`, which the schemas do not say.

pub struct NonZeroU8(u8);
pub struct NonZeroU16(u16);
pub struct NonZeroU32(u32);
pub struct NonZeroU64(u64);
pub struct NonZeroU128(u128);
pub struct NonZeroUsize(usize);
pub struct NonZeroI8(i8);
pub struct NonZeroI16(i16);
pub struct NonZeroI32(i32);
pub struct NonZeroI64(i64);
pub struct NonZeroI128(i128);
pub struct NonZeroIsize(isize);
pub struct NonZero<T>(T);
pub struct Wrapping<T>(T);
pub struct Saturating<T>(T);
pub struct AtomicU8(u8);
pub struct AtomicU16(u16);
pub struct AtomicU32(u32);
pub struct AtomicU64(u64);
pub struct AtomicUsize(usize);
pub struct AtomicI8(i8);
pub struct AtomicI16(i16);
pub struct AtomicI32(i32);
pub struct AtomicI64(i64);
pub struct AtomicIsize(isize);
pub struct AtomicBool(bool);
/// The number of an open file.
pub struct RawFd(i32);

// What holds another value.

pub struct Mutex<T>(T);
pub struct RwLock<T>(T);
pub struct Cell<T>(T);
pub struct Reverse<T>(T);
// Null where the value is gone. serde reads it as one that is gone, also where the member is missing, which the schema refuses.
pub struct Weak<T>(Option<T>);
// Null alone.
#[serde(untagged)]
pub enum PhantomData {
    Null,
}
pub enum Result<T, E> {
    Ok(T),
    Err(E),
}

// Ranges.

#[serde(deny_unknown_fields)]
pub struct Range<T> {
    pub start: T,
    /// Beyond the last.
    pub end: T,
}
#[serde(deny_unknown_fields)]
pub struct RangeInclusive<T> {
    pub start: T,
    /// The last.
    pub end: T,
}
#[serde(deny_unknown_fields)]
pub struct RangeFrom<T> {
    pub start: T,
}
#[serde(deny_unknown_fields)]
pub struct RangeTo<T> {
    /// Beyond the last.
    pub end: T,
}
pub enum Bound<T> {
    Unbounded,
    Included(T),
    Excluded(T),
}

// Collections.

pub struct VecDeque<T>(Vec<T>);
// In any order.
pub struct BinaryHeap<T>(Vec<T>);
