//! Sources and sinks of bytes.

use crate::parts::{bytes_at, counts_at};
use crate::texts::shown;
use anyhow::bail;
use rows::given::{count_at, items_at, text_of};
use serde_json::Value;
use std::alloc::Global;
use std::io;
use streams::{
    Failed, HonestSink, HonestSource, MemorySink, MemorySource, Sink, Source, StdSink, StdSource,
    read_all, write_all,
};

/// What the call of the crate `streams` answers.
pub(crate) fn told(alloc: Global, call: &str, given: &Value) -> anyhow::Result<String> {
    match call {
        "read all" => match memory_source(alloc, given)? {
            Some(mut source) => all_text(alloc, &mut source, given),
            None => all_text(alloc, &mut honest_source(alloc, given)?, given),
        },
        "read all from std" => {
            let bytes = bytes_at(alloc, given, "bytes")?;
            let reader = Interrupted::new(bytes.as_slice(), given)?;
            all_text(alloc, &mut StdSource::new(reader), given)
        }
        "read" => match memory_source(alloc, given)? {
            Some(mut source) => reads_text(alloc, &mut source, given),
            None => reads_text(alloc, &mut honest_source(alloc, given)?, given),
        },
        "read from what fails once" => {
            let reader = FailsOnce { failed: false };
            reads_text(alloc, &mut StdSource::new(reader), given)
        }
        "write all" => written(alloc, given),
        "write all to std" => written_to_std(alloc, given),
        other => bail!("no call {other}"),
    }
}

/// A reader whose first read fails, and which is at its end from then on.
#[derive(Drop)]
struct FailsOnce {
    failed: bool,
}

impl io::Read for FailsOnce {
    fn read(&mut self, _buffer: &mut [u8]) -> io::Result<usize> {
        if self.failed {
            return Ok(0);
        }
        self.failed = true;
        Err(io::Error::from(io::ErrorKind::TimedOut))
    }
}

/// A reader or a writer of which so many calls are interrupted before each that is not.
#[derive(Drop)]
struct Interrupted<T> {
    inner: T,
    times: usize,
    left: usize,
}

impl<T> Interrupted<T> {
    /// Interrupted as often as the row says, or never.
    fn new(inner: T, given: &Value) -> anyhow::Result<Interrupted<T>>
    where
        T: Drop,
    {
        let times = match given.get("interrupts") {
            Some(_) => count_at(given, "interrupts")?,
            None => 0,
        };
        Ok(Interrupted {
            inner,
            times,
            left: times,
        })
    }

    fn call(&mut self) -> io::Result<()> {
        if self.left == 0 {
            self.left = self.times;
            return Ok(());
        }
        self.left -= 1;
        Err(io::Error::from(io::ErrorKind::Interrupted))
    }
}

impl<R: io::Read> io::Read for Interrupted<R> {
    fn read(&mut self, buffer: &mut [u8]) -> io::Result<usize> {
        self.call()?;
        self.inner.read(buffer)
    }
}

impl<W: io::Write> io::Write for Interrupted<W> {
    fn write(&mut self, piece: &[u8]) -> io::Result<usize> {
        self.call()?;
        self.inner.write(piece)
    }

    fn flush(&mut self) -> io::Result<()> {
        self.call()?;
        self.inner.flush()
    }
}

/// The source of the bytes in pieces, where the row says of which length.
fn memory_source(alloc: Global, given: &Value) -> anyhow::Result<Option<MemorySource>> {
    if given.get("piece").is_none() {
        return Ok(None);
    }
    let (bytes, fails) = (
        bytes_at(alloc, given, "bytes")?,
        counts_at(alloc, given, "fails")?,
    );
    let piece = count_at(given, "piece")?;
    if piece == 0 {
        bail!("pieces of no bytes");
    }
    Ok(Some(MemorySource::new(bytes, piece, fails)))
}

fn honest_source(alloc: Global, given: &Value) -> anyhow::Result<HonestSource> {
    Ok(HonestSource::new(bytes_at(alloc, given, "bytes")?))
}

/// All that the source gives, or why not.
fn all_text<S: Source>(alloc: Global, source: &mut S, given: &Value) -> anyhow::Result<String> {
    let most = count_at(given, "most")?;
    if most == usize::MAX {
        bail!("no bound on the bytes");
    }
    match read_all(alloc, source, most) {
        Ok(bytes) => Ok(format!(in alloc; "all of {}", shown(&bytes)?)?),
        Err(error) => Ok(format!(in alloc; "{error:?}")?),
    }
}

/// What each read into the buffer, dots at first, answers, and the buffer behind all of them.
fn reads_text<S: Source>(alloc: Global, source: &mut S, given: &Value) -> anyhow::Result<String> {
    let mut buffer = vec![in alloc; b'.'; count_at(given, "buffer")?]?;
    let mut text = String::new(alloc);
    for _ in 0..count_at(given, "times")? {
        if !text.is_empty() {
            text.push_str(" ")?;
        }
        match source.read(buffer.as_mut_slice()) {
            Ok(count) => text.push_str(format!(in alloc; "{count}")?.as_str())?,
            Err(Failed) => text.push_str("Failed")?,
        }
    }
    text.push_str(", ")?;
    text.push_str(shown(&buffer)?)?;
    Ok(text)
}

fn outcome(answer: Result<(), Failed>) -> &'static str {
    match answer {
        Ok(()) => "done",
        Err(Failed) => "Failed",
    }
}

/// How writing each piece ended, and how flushing did.
fn writes_text<K: Sink>(alloc: Global, sink: &mut K, given: &Value) -> anyhow::Result<String> {
    let mut text = String::new(alloc);
    for piece in items_at(given, "pieces")? {
        if !text.is_empty() {
            text.push_str(" ")?;
        }
        text.push_str(outcome(write_all(sink, text_of(piece)?.as_bytes())))?;
    }
    text.push_str(", flush ")?;
    text.push_str(outcome(sink.flush()))?;
    Ok(text)
}

/// How the calls ended, and what is written.
fn with_bytes(alloc: Global, calls: &str, bytes: &[u8]) -> anyhow::Result<String> {
    Ok(format!(in alloc; "{calls}: {}", shown(bytes)?)?)
}

fn written(alloc: Global, given: &Value) -> anyhow::Result<String> {
    let room = count_at(given, "room")?;
    if given.get("piece").is_none() {
        let mut sink = HonestSink::new(alloc, room)?;
        let calls = writes_text(alloc, &mut sink, given)?;
        return with_bytes(alloc, calls.as_str(), sink.as_slice());
    }
    let (piece, fails) = (count_at(given, "piece")?, counts_at(alloc, given, "fails")?);
    if piece == 0 {
        bail!("pieces of no bytes");
    }
    let mut sink = MemorySink::new(alloc, room, piece, fails)?;
    let calls = writes_text(alloc, &mut sink, given)?;
    with_bytes(alloc, calls.as_str(), sink.as_slice())
}

/// The same over a writer of std into a slice, dots at first.
fn written_to_std(alloc: Global, given: &Value) -> anyhow::Result<String> {
    let mut bytes = vec![in alloc; b'.'; count_at(given, "room")?]?;
    let mut room = bytes.as_mut_slice();
    let writer = Interrupted::new(&mut room, given)?;
    let calls = writes_text(alloc, &mut StdSink::new(writer), given)?;
    with_bytes(alloc, calls.as_str(), &bytes)
}
