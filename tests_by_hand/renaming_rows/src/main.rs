//! Rows of what serde makes of names: what each is given, and what it must answer.
#![tactic(auto)]

mod named;

use anyhow::bail;
use rows::{Row, run};
use std::alloc::Global;

/// What the call of the row answers.
fn told(alloc: Global, row: &Row) -> anyhow::Result<String> {
    let given = &row.given;
    match row.call.as_str() {
        "renamed" => named::named(alloc, given),
        other => bail!("no call {other}"),
    }
}

fn main(rt: HostRuntime) -> anyhow::Result<()> {
    run(&rt, |rt, row| told(rt.alloc(), row))
}
