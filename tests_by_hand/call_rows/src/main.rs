//! Rows of the public calls that no run of the program makes: what each is given, and what it must answer.
#![tactic(auto)]

mod accepted;
mod aliases;
mod answers;
mod arguments;
mod composed;
mod flattened;
mod parts;
mod reported;
mod single_words;
mod term_rows;
mod trees;
mod whole;
mod whole_files;
mod written;

use anyhow::bail;
use rows::{Row, run};
use std::alloc::Global;

/// What the call of the row answers.
fn told(alloc: Global, row: &Row) -> anyhow::Result<String> {
    let given = &row.given;
    match row.call.as_str() {
        "accepts" => accepted::accepted(alloc, given),
        "report" => reported::report(alloc, given),
        "first" => reported::first(alloc, given),
        "parse_type" => written::parsed(alloc, given),
        "copy" => written::copied(alloc, given),
        "lifetime_at" => single_words::lifetime(alloc, given),
        "token_tree" => single_words::count(alloc, given),
        "SerdeEnumRepr::copy" => single_words::representation(alloc, given),
        "Config::collect" => single_words::collected(alloc),
        "to_value" => single_words::document(alloc, given),
        "tree" => trees::tree(alloc, given),
        "path_generics" => trees::generics(alloc, given),
        "rewrite_path" => aliases::path(alloc, given),
        "get_alias_type" => aliases::alias(alloc, given),
        "schema_type" => trees::tests(alloc, given),
        "format" => trees::format(alloc, given),
        "parse_format" => trees::format_value(alloc, given),
        "type_text" => arguments::text(alloc, given),
        "numbers" => arguments::numbers(alloc),
        "instances" => composed::of_source(alloc, given),
        "files" => whole_files::document(alloc, given),
        "flattened" => flattened::declaration(alloc, given),
        "terms" | "parts" | "place" => term_rows::of_source(alloc, row.call.as_str(), given),
        other => bail!("no call {other}"),
    }
}

fn main(rt: HostRuntime) -> anyhow::Result<()> {
    run(&rt, |rt, row| told(rt.alloc(), row))
}
