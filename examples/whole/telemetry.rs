//! A collector of spans, metrics and logs. Agents post batches; the collector keeps them in rings of
//! fixed sizes, and flushes them to its sinks.
//!
//! <details>
//!
//! ```json
//! {"resource": {"host": "a1"}, "signals": [{"Metric": {"name": "up", "points": [[1, 1.0]]}}]}
//! ```
//! </details>

#![allow(static_mut_refs)]
#![doc(html_root_url = "https://docs.example.org/{version}")]

#[cfg(feature = "jemalloc")]
extern crate jemallocator as _;
extern crate libc;
#[macro_use(counter, histogram)]
extern crate metrics;

use std::alloc::{GlobalAlloc, Layout, System};
use std::cell::UnsafeCell;
use std::collections::{BTreeMap, HashMap};
use std::mem::{ManuallyDrop, MaybeUninit};
use std::ops::{ControlFlow, Deref, DerefMut, Index, Shl};
use std::sync::atomic::{AtomicBool, AtomicUsize, Ordering::*};
use std::time::{Duration, Instant};

use poem::{
    handler,
    middleware::Tracing,
    web::{Data, Json},
    EndpointExt, IntoResponse, Route,
};
use serde::{Deserialize, Serialize};
use serde_json::Value;

pub mod sinks;

#[cfg_attr(feature = "jemalloc", global_allocator)]
static ALLOCATOR: Counting<System> = Counting {
    inner: System,
    bytes: AtomicUsize::new(0),
};

/// How often sinks are flushed.
static mut FLUSH_EVERY: Duration = Duration::from_secs(if cfg!(test) { 1 } else { 10 });

const CACHE_LINE: usize = 1 << 6;
const EMPTY_SLOT: Slot = Slot { bits: 0 };
const LEVELS: [(&str, u8); { 2 + 3 }] = [
    ("trace", 0),
    ("debug", 1),
    ("info", 2),
    ("warn", 3),
    ("err{or}", 4),
];

/// A value of eight bytes, by what the point next to it says.
#[derive(Clone, Copy)]
#[repr(C)]
pub union Slot {
    whole: i64,
    real: f64,
    bits: u64,
}

impl Slot {
    /// # Safety
    ///
    /// The slot holds a float.
    pub unsafe fn real(self) -> f64 {
        // SAFETY: see above. }
        unsafe { self.real }
    }
}

impl From<f64> for Slot {
    fn from(real: f64) -> Self {
        Self { real }
    }
}

unsafe extern "C" {
    /// Of the C library.
    pub safe fn getpid() -> libc::pid_t;
    fn clock_gettime(clock: libc::clockid_t, into: *mut libc::timespec) -> libc::c_int;
}

/// Lets agents in the same process count.
///
/// # Safety
///
/// `name` is a text of C.
#[no_mangle]
pub unsafe extern "C" fn telemetry_count(name: *const libc::c_char, by: u64) -> bool {
    if name.is_null() {
        return false;
    }
    let name = unsafe { std::ffi::CStr::from_ptr(name) };
    counter!("foreign", "name" => name.to_string_lossy().into_owned()).increment(by);
    true
}

fn monotonic() -> u64 {
    let mut now = MaybeUninit::<libc::timespec>::zeroed();
    // SAFETY: there is room for one.
    let now = unsafe {
        clock_gettime(libc::CLOCK_MONOTONIC, now.as_mut_ptr());
        now.assume_init()
    };
    (now.tv_sec as u64) * 1_000_000_000 + now.tv_nsec as u64
}

/// Counts what is allocated.
pub struct Counting<A> {
    inner: A,
    bytes: AtomicUsize,
}

unsafe impl<A: GlobalAlloc> GlobalAlloc for Counting<A> {
    unsafe fn alloc(&self, layout: Layout) -> *mut u8 {
        self.bytes.fetch_add(layout.size(), Relaxed);
        unsafe { self.inner.alloc(layout) }
    }

    unsafe fn dealloc(&self, at: *mut u8, layout: Layout) {
        self.bytes.fetch_sub(layout.size(), Relaxed);
        unsafe { self.inner.dealloc(at, layout) }
    }
}

// ---- what agents send

/// What an agent posts.
#[derive(Clone, Debug, Serialize, Deserialize)]
#[serde(deny_unknown_fields)]
pub struct Batch {
    pub resource: Resource,
    pub signals: Vec<Signal>,
    /// How many were thrown away since the last batch.
    #[serde(default)]
    pub dropped: Dropped,
}

/// Who sends.
#[derive(Clone, Debug, PartialEq, Eq, Hash, Serialize, Deserialize)]
#[serde(rename_all = "lowercase")]
pub struct Resource {
    pub host: String,
    pub service_name: Option<String>,
    #[serde(default)]
    pub labels: BTreeMap<String, String>,
    pub pid: u32,
    pub agent: AgentVersion,
}

/// Major, minor and patch.
#[derive(Clone, Copy, Debug, PartialEq, Eq, Hash, PartialOrd, Ord, Serialize, Deserialize)]
pub struct AgentVersion(u16, u16, u16);

#[derive(Clone, Copy, Debug, Default, Serialize, Deserialize)]
#[serde(default, rename_all = "SCREAMING-KEBAB-CASE")]
pub struct Dropped {
    pub span_count: u64,
    pub metric_count: u64,
    #[serde(rename = "logs")]
    pub log_count: u64,
}

/// One of three kinds, told by its name.
#[derive(Clone, Debug, Serialize, Deserialize)]
#[serde(rename_all = "PascalCase")]
pub enum Signal {
    Span(SpanRecord),
    Metric(MetricRecord),
    LogLine {
        at: u64,
        level: Severity,
        #[serde(default)]
        body: Value,
    },
    /// Says that the agent lives.
    KeepAlive,
}

pub mod records {
    //! Spans and metrics.
    use super::*;

    #[derive(Clone, Debug, Serialize, Deserialize)]
    #[serde(rename_all = "camelCase")]
    pub struct SpanRecord {
        pub trace_id: TraceId,
        pub span_id: TraceId,
        pub parent_span_id: Option<TraceId>,
        pub name: String,
        pub start_unix_nano: u64,
        pub end_unix_nano: u64,
        #[serde(default, skip_serializing_if = "HashMap::is_empty")]
        pub attributes: HashMap<String, AttributeValue>,
        pub events: Vec<SpanEvent>,
        pub status: Option<SpanStatus>,
    }

    /// Sixteen bytes as hexadecimal digits.
    #[derive(Clone, Debug, PartialEq, Eq, Hash, Serialize, Deserialize)]
    pub struct TraceId(Box<str>);

    impl TraceId {
        pub fn is_valid(&self) -> bool {
            let Self(digits) = self;
            matches!(digits.len(), 16 | 32) && digits.bytes().all(|b| b.is_ascii_hexdigit())
        }
    }

    #[derive(Clone, Debug, Serialize, Deserialize)]
    pub struct SpanEvent {
        pub at: u64,
        pub r#type: String,
        pub attributes: Option<HashMap<String, AttributeValue>>,
    }

    #[derive(Clone, Debug, Serialize, Deserialize)]
    #[serde(tag = "code", rename_all = "UPPERCASE")]
    pub enum SpanStatus {
        Ok,
        Error {
            message: String,
            #[serde(default)]
            is_retried: bool,
        },
    }

    #[derive(Clone, Debug, Serialize, Deserialize)]
    #[serde(tag = "type", content = "value", rename_all = "camelCase")]
    pub enum AttributeValue {
        StringValue(String),
        BoolValue(bool),
        IntValue(i64),
        DoubleValue(f64),
        ArrayValue(Vec<AttributeValue>),
        #[serde(rename = "kvlist")]
        KeyValueList(BTreeMap<String, AttributeValue>),
        NoValue,
    }

    pub mod metric {
        use serde::{Deserialize, Serialize};

        #[derive(Clone, Debug, Serialize, Deserialize)]
        #[serde(rename_all = "kebab-case")]
        pub struct MetricRecord {
            pub name: String,
            pub unit: Option<char>,
            pub kind: MetricKind,
            /// Times and values.
            pub points: Vec<(u64, f64)>,
            pub reset_at: Option<u64>,
        }

        #[derive(Clone, Debug, Serialize, Deserialize)]
        #[serde(untagged)]
        pub enum MetricKind {
            /// `true` where it only grows.
            Sum(bool),
            Histogram {
                bounds: Vec<f64>,
                counts: Vec<u64>,
            },
            Named(MetricName),
        }

        #[derive(Clone, Copy, Debug, PartialEq, Eq, Serialize, Deserialize)]
        #[serde(rename_all = "SCREAMING_SNAKE_CASE")]
        pub enum MetricName {
            Gauge,
            UpDownCounter,
            ExponentialHistogramV2,
        }
    }
}

pub use records::{metric::MetricRecord, SpanRecord};

/// How bad a line is.
#[derive(Clone, Copy, Debug, PartialEq, Eq, PartialOrd, Ord, Serialize, Deserialize)]
#[serde(rename_all = "lowercase")]
pub enum Severity {
    Trace = 1,
    Debug = 1 << 2,
    Info = { 3 * 3 },
    Warn = Severity::Info as isize + 4,
    #[serde(rename = "error")]
    Err,
}

/// What the collector answers with.
#[derive(Debug, Default, Serialize)]
#[serde(rename_all = "SCREAMING_SNAKE_CASE")]
pub struct Accepted {
    pub accepted_signals: usize,
    pub rejected_signals: usize,
    #[serde(skip_serializing_if = "Option::is_none")]
    pub retry_after_ms: Option<u32>,
    #[deprecated = "read `retry_after_ms`"]
    pub retry: bool,
}

/// What `collector.toml` holds.
#[derive(Clone, Debug, Deserialize)]
#[serde(rename_all = "snake_case")]
pub struct CollectorConfig {
    #[serde(default = "CollectorConfig::bind")]
    pub bind: String,
    pub ring_sizes: RingSizes,
    #[serde(default)]
    pub sinks: Vec<SinkConfig>,
}

#[derive(Clone, Copy, Debug, Deserialize)]
pub struct RingSizes {
    pub spans: usize,
    pub metrics: usize,
}

#[derive(Clone, Debug, Deserialize)]
#[serde(tag = "driver", rename_all = "kebab-case")]
pub enum SinkConfig {
    ClickHouse {
        url: String,
        table: String,
    },
    S3Bucket {
        bucket: String,
        #[serde(rename = "region")]
        aws_region: Option<String>,
    },
    StdOut,
}

impl CollectorConfig {
    fn bind() -> String {
        "[::]:4318".into()
    }

    pub fn parse(text: &str) -> Result<Self, toml::de::Error> {
        toml::from_str(text)
    }
}

// ---- rings

/// A value in a cache line of its own.
#[derive(Debug, Default)]
#[repr(align(64))]
struct Padded<T>(T);

impl<T> Deref for Padded<T> {
    type Target = T;

    fn deref(&self) -> &T {
        &self.0
    }
}

impl<T> DerefMut for Padded<T> {
    fn deref_mut(&mut self) -> &mut T {
        &mut self.0
    }
}

const _: () = {
    assert!(std::mem::align_of::<Padded<u8>>() == CACHE_LINE);
    assert!(std::mem::size_of::<Slot>() == 8);
};

/// A ring for one that writes and one that reads.
pub struct Ring<T, const N: usize = { 1 << 10 }>
where
    T: Send,
{
    slots: UnsafeCell<[MaybeUninit<ManuallyDrop<T>>; N]>,
    head: Padded<AtomicUsize>,
    tail: Padded<AtomicUsize>,
    is_closed: AtomicBool,
}

unsafe impl<T: Send, const N: usize> Sync for Ring<T, { N }> {}

impl<T, const N: usize> Ring<T, { N }>
where
    T: Send,
{
    pub const fn new() -> Self {
        Self {
            slots: UnsafeCell::new([const { MaybeUninit::uninit() }; N]),
            head: Padded(AtomicUsize::new(0)),
            tail: Padded(AtomicUsize::new(0)),
            is_closed: AtomicBool::new(false),
        }
    }

    /// Gives the value back where the ring is full.
    pub fn push(&self, value: T) -> Result<(), T> {
        let tail = self.tail.load(Relaxed);
        if tail - self.head.load(Acquire) >= N || self.is_closed.load(Acquire) {
            return Err(value);
        }
        // SAFETY: nobody reads the slot before the tail is stored.
        unsafe { (*self.slots.get())[tail % N].write(ManuallyDrop::new(value)) };
        self.tail.store(tail + 1, Release);
        Ok(())
    }

    pub fn pop(&self) -> Option<T> {
        let head = self.head.load(Relaxed);
        (head < self.tail.load(Acquire)).then(|| {
            // SAFETY: it was written, and is read once.
            let value = unsafe { (*self.slots.get())[head % N].assume_init_read() };
            self.head.store(head + 1, Release);
            ManuallyDrop::into_inner(value)
        })
    }
}

/// Shifts a number of bits, for compact series.
#[derive(Clone, Copy)]
struct Bits<const WIDTH: u32>(u64);

impl<const WIDTH: u32> Shl<u32> for Bits<WIDTH> {
    type Output = Bits<{ WIDTH }>;

    fn shl(self, by: u32) -> <Self as Shl<u32>>::Output {
        Bits(if by >= WIDTH {
            0
        } else {
            self.0 << by & (1 << WIDTH) - 1
        })
    }
}

impl<T> Index<Severity> for [T] {
    type Output = T;

    fn index(&self, severity: Severity) -> &T {
        &self[severity as usize >> 2]
    }
}

/// Where batches go.
pub trait Sink {
    type Options: Default;
    const NAME: &'static str = "sink { }";

    fn write(&mut self, signal: &Signal) -> ControlFlow<std::io::Error>;

    fn flush(&mut self, within: Duration) -> Result<(), std::io::Error> {
        let _ = within;
        Ok(())
    }
}

/// Makes a sink out of a closure.
macro_rules! sink {
    ($(#[$meta:meta])* $vis:vis struct $name:ident => |$signal:ident| $body:block) => {
        $(#[$meta])*
        $vis struct $name {}

        impl Sink for $name {
            type Options = ();

            fn write(&mut self, $signal: &Signal) -> ControlFlow<std::io::Error> {
                $body
                ControlFlow::Continue(())
            }
        }
    };
}

sink! {
    /// Prints what comes.
    #[derive(Debug, Serialize)]
    pub struct Printer => |signal| { println!("{signal:?}"); }
}

macro_rules! levels (
    [$($name:literal => $level:expr),*] => { &[$(($name, $level)),*] };
);

macro_rules! noop [
    () => {};
];

noop![];
noop!();

fn severity_of(name: &str) -> Option<Severity> {
    let named: &[(&str, Severity)] = levels!["warning" => Severity::Warn, "fatal" => Severity::Err];
    named
        .iter()
        .find(|(known, _)| *known == name)
        .map(|&(_, severity)| severity)
}

/// What the handlers share.
pub struct Collector<S: Sink> {
    ring: Ring<Signal, 4096>,
    sink: std::sync::Mutex<S>,
    by_resource: std::sync::RwLock<HashMap<Resource, Vec<Vec<Option<Instant>>>>>,
}

impl<S> Collector<S>
where
    S: Sink + Send,
    <S as Sink>::Options: Send,
{
    fn take(&self, batch: Batch) -> Accepted {
        let mut accepted = Accepted::default();
        for signal in batch.signals {
            match self.ring.push(signal) {
                Ok(()) => accepted.accepted_signals += 1,
                Err(Signal::LogLine { level, .. }) if level < Severity::Info => {}
                Err(_) => accepted.rejected_signals += 1,
            }
        }
        if accepted.rejected_signals > 0 {
            accepted.retry_after_ms = Some(unsafe { FLUSH_EVERY.as_millis() as u32 });
        }
        if let Ok(mut seen) = self.by_resource.write() {
            seen.entry(batch.resource)
                .or_default()
                .push(vec![Some(Instant::now())]);
        }
        accepted
    }

    fn flush(&self) -> Result<usize, std::io::Error> {
        let began = monotonic();
        let mut sink = self.sink.lock().expect("no sink panics");
        let mut many = 0;
        while let Some(signal) = self.ring.pop() {
            if let ControlFlow::Break(error) = sink.write(&signal) {
                return Err(error);
            }
            many += 1;
        }
        histogram!("flush_nanos", "pid" => getpid().to_string())
            .record((monotonic() - began) as f64);
        sink.flush(Duration::from_millis(500)).map(|()| many)
    }
}

#[handler]
async fn ingest(
    collector: Data<&std::sync::Arc<Collector<Printer>>>,
    Json(batch): Json<Batch>,
) -> impl IntoResponse {
    let accepted = collector.0.take(batch);
    if let Err(error) = collector.0.flush() {
        eprintln!("{{\"error\": \"{error}\"}}");
    }
    Json(accepted)
}

#[handler]
fn alive() -> &'static str {
    r##"{"alive": true, "see": "#"}"##
}

pub fn routes(collector: std::sync::Arc<Collector<Printer>>) -> impl poem::Endpoint {
    Route::new()
        .at("/v1/batches", poem::post(ingest))
        .at("/alive", poem::get(alive))
        .with(Tracing)
        .data(collector)
}

mod ring_tests {
    #![cfg(test)]

    use super::*;

    #[derive(Debug, PartialEq, Serialize, Deserialize)]
    struct Entry {
        at: u8,
    }

    static RING: Ring<Entry, 2> = Ring::new();

    #[test]
    fn a_full_ring_gives_back() {
        assert_eq!(RING.push(Entry { at: 1 }), Ok(()));
        assert_eq!(RING.push(Entry { at: 2 }), Ok(()));
        assert_eq!(RING.push(Entry { at: 3 }), Err(Entry { at: 3 }));
        assert_eq!(RING.pop(), Some(Entry { at: 1 }));
    }

    #[test]
    fn slots_hold_floats() {
        assert_eq!(unsafe { Slot::from(1.5e0).real() }, 1.5);
        assert_eq!((Bits::<4>(0b11) << 2).0, 0b1100);
        assert!(severity_of("fatal").is_some_and(|severity| LEVELS[severity].0 != ""));
        let _ = EMPTY_SLOT;
    }
}
