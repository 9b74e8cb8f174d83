//! Whole files.

use crate::parts::{bytes_of, counts_at};
use crate::texts::shown;
use anyhow::bail;
use files::{Files, HonestFiles, MemoryFiles, StdFiles};
use rows::given::{count_of, items_at, pair_of, text_of};
use serde_json::Value;
use std::alloc::Global;
use std::rt::Files as FileSystem;

/// What the call of the crate `files` answers.
pub(crate) fn told<R: AllocGlobal + FileSystem>(
    rt: &R,
    call: &str,
    given: &Value,
) -> anyhow::Result<String> {
    let alloc = rt.alloc();
    match call {
        "read" if given.get("fails").is_some() => {
            let fails = counts_at(alloc, given, "fails")?;
            let mut files = MemoryFiles::new(files_of(alloc, given)?, fails);
            reads_text(alloc, &mut files, given)
        }
        "read" => {
            let mut files = HonestFiles::new(files_of(alloc, given)?);
            reads_text(alloc, &mut files, given)
        }
        "read from the system" => reads_text(alloc, &mut StdFiles::new(rt), given),
        other => bail!("no call {other}"),
    }
}

/// The files of their paths and texts.
fn files_of(alloc: Global, given: &Value) -> anyhow::Result<Vec<(String, Vec<u8>)>> {
    let mut files = Vec::new(alloc);
    for file in items_at(given, "files")? {
        let (path, text) = pair_of(file)?;
        let path = String::from_str(alloc, text_of(path)?)?;
        files.push((path, bytes_of(alloc, text)?))?;
    }
    Ok(files)
}

/// The text of the file at the path in quotes, where it has at most so many bytes, or why not.
fn read_text<F: Files>(
    alloc: Global,
    files: &mut F,
    path: &str,
    most: usize,
) -> anyhow::Result<String> {
    if most == usize::MAX {
        bail!("no bound on the bytes");
    }
    match files.read_file(alloc, path, most) {
        Ok(bytes) => Ok(format!(in alloc; "{:?}", shown(bytes.as_slice())?)?),
        Err(answer) => Ok(format!(in alloc; "{answer:?}")?),
    }
}

/// What each read answers.
fn reads_text<F: Files>(alloc: Global, files: &mut F, given: &Value) -> anyhow::Result<String> {
    let mut text = String::new(alloc);
    for read in items_at(given, "reads")? {
        if !text.is_empty() {
            text.push_str(", ")?;
        }
        let (path, most) = pair_of(read)?;
        let answer = read_text(alloc, files, text_of(path)?, count_of(most)?)?;
        text.push_str(answer.as_str())?;
    }
    Ok(text)
}
