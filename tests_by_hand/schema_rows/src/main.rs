//! Rows of the calls that make schemas and say what they accept: what each is given, and what it must answer.
#![tactic(auto)]

mod components;
mod declared;
mod filled;
mod forms;
mod judged;
mod annotations;
mod places;
mod place_annotations;
mod resolved;
mod sources;
mod targets;
mod term_rows;
mod values;
mod whole;
mod written;

use crate::components::{OfComponents, of_components};
use crate::declared::OfDeclaration;
use crate::forms::{OfSchema, of_schema};
use crate::places::OfPlace;
use crate::sources::{OfFirst, of_source};
use anyhow::bail;
use rows::run;
use serde_json::Value;
use std::alloc::Global;

/// What the call answers.
fn told(alloc: Global, call: &str, given: &Value) -> anyhow::Result<String> {
    match call {
        "accepts" => judged::schema_accepts(alloc, given),
        "component_accepts" => judged::component_accepts(alloc, given),
        "json" => Ok(values::json(alloc, given)?),
        "bound" => values::bound(alloc, given),
        "bound_zero" => Ok(values::zero(alloc)?),
        "form" => forms::form(alloc, given),
        "filled" => of_schema(alloc, OfSchema::Filled, given),
        "copied" => of_schema(alloc, OfSchema::Copied, given),
        "copy_schema" => of_schema(alloc, OfSchema::Copy, given),
        "insert" => of_components(alloc, None, given),
        "get" => of_components(alloc, Some(OfComponents::Found), given),
        "names" => of_components(alloc, Some(OfComponents::Names), given),
        "to_value" => of_components(alloc, Some(OfComponents::Document), given),
        "to_text" => of_components(alloc, Some(OfComponents::DocumentText), given),
        "document_accepts" => of_components(alloc, Some(OfComponents::Accepted), given),
        "inline_order" => targets::order(alloc, given),
        "are_more_copies" => targets::copies(alloc, given),
        "place_term" => Ok(place_annotations::argument_form(alloc, given)?),
        "description" => Ok(place_annotations::description(alloc, given)?),
        "annotated" => Ok(place_annotations::annotated_form(alloc, given)?),
        "null_default" => Ok(place_annotations::null_form(alloc, given)?),
        "resolved_declarations" => of_source(alloc, None, given),
        _ => of_source(alloc, Some(question(call)?), given),
    }
}

/// What the call asks of a source's first declaration.
fn question(call: &str) -> anyhow::Result<OfFirst> {
    match call {
        "place" => Ok(OfFirst::Place(OfPlace::Schema)),
        "references" => Ok(OfFirst::Place(OfPlace::References)),
        "copy_term" => Ok(OfFirst::Place(OfPlace::CopiedTerm)),
        "place_types" => Ok(OfFirst::Declaration(OfDeclaration::PlaceTypes)),
        "resolve" => Ok(OfFirst::Declaration(OfDeclaration::Resolved)),
        "resolved_term" => Ok(OfFirst::Declaration(OfDeclaration::ResolvedTerm)),
        "body" => Ok(OfFirst::Declaration(OfDeclaration::Body)),
        other => bail!("no call {other}"),
    }
}

fn main(rt: HostRuntime) -> anyhow::Result<()> {
    run(
        &rt,
        |rt, row| told(rt.alloc(), row.call.as_str(), &row.given),
    )
}
