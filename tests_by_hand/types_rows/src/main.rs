//! Rows of the calls that say what a written type is and what it stands for: what each is given, and what it must answer.
#![tactic(auto)]

mod formats;
mod names;
mod parameters;
mod parts;
mod places;
mod resolved;
mod samples;
mod schema_types;
mod shapes;
mod texts;

use anyhow::bail;
use rows::{Row, run};
use std::alloc::Global;

/// What the call of the row answers.
fn told(alloc: Global, row: &Row) -> anyhow::Result<String> {
    let given = &row.given;
    match row.call.as_str() {
        "leaf" => names::leaf(alloc, given),
        "container" => names::container(alloc, given),
        "copy" => parameters::copied(alloc, given),
        "substitute" => parameters::substituted(alloc, given),
        "declared" => parameters::declared(alloc, given),
        "same" => parameters::same(alloc, given),
        "resolve_type" => resolved::by_places(alloc, given),
        "resolve_tuple" => resolved::tuple(alloc, given),
        "resolve" => resolved::in_scope(alloc, given),
        "declared_places" => places::declared(alloc, given),
        "places_of" => places::of_items(alloc, given),
        "type_text" => texts::of_type(alloc, given),
        "tree" => shapes::tree(alloc, given),
        "tree_copy" => shapes::tree_copy(alloc, given),
        "is" => shapes::mentions(alloc, given),
        "trees_equal" => shapes::equal(alloc, given),
        "schema_type" => schema_types::tests(alloc, given),
        "primitive" => schema_types::primitive(alloc, given),
        "format" => formats::of_path(alloc, given),
        "parse_format" => formats::parsed(alloc, given),
        other => bail!("no call {other}"),
    }
}

fn main(rt: HostRuntime) -> anyhow::Result<()> {
    run(&rt, |rt, row| told(rt.alloc(), row))
}
