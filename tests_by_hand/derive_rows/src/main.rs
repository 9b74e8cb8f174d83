//! Rows of the calls from a source to its document, and of those below them: what each is given, and what it must answer.
//! A row's call is the name of a crate and what of it is called.
#![tactic(auto)]

mod composed;
mod configured;
mod grown;
mod held;
mod laws;
mod moved;
mod parts;
mod refusals;
mod renamed;
mod reported;
mod ruled;
mod texts;
mod whole;

use anyhow::{Context, bail};
use rows::{Row, run};
use std::rt::Files;

/// What the call of the row answers.
fn told<R: AllocGlobal + Files>(rt: &R, row: &Row) -> anyhow::Result<String> {
    let (of, call) = row
        .call
        .as_str()
        .split_once(' ')
        .context("a crate's name and a call")?;
    let (alloc, given) = (rt.alloc(), &row.given);
    match of {
        "diag" => reported::told(alloc, call, given),
        "configuration" => configured::told(alloc, call, given),
        "serde_rules" => ruled::told(alloc, call, given),
        "streams" => moved::told(alloc, call, given),
        "files" => held::told(rt, call, given),
        "compose" => composed::told(alloc, call, given),
        "laws" => laws::called(alloc),
        other => bail!("no crate {other}"),
    }
}

fn main(rt: HostRuntime) -> anyhow::Result<()> {
    run(&rt, |rt, row| told(rt, row))
}
