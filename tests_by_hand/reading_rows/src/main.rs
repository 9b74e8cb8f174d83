//! Rows of the calls that read a source: what each is given, and what it must answer.
#![tactic(auto)]

mod answers;
mod attribute_lists;
mod calls;
mod declared;
mod inputs;
mod literal_texts;
mod readers;
mod token_values;
mod trees;
mod types;

use rows::run;

fn main(rt: HostRuntime) -> anyhow::Result<()> {
    run(&rt, |rt, row| calls::told(rt.alloc(), row))
}
