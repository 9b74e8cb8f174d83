//! Types over parameters, and arguments in their places.

use crate::parts::push_after;
use crate::resolved::{closed, read_in};
use crate::samples::{DECLARED, Sample, read_sample};
use anyhow::{bail, ensure};
use open_types::{ClosedType, same_types_are_equal, substitute};
use rows::given::{count_of, list_of, text_of};
use serde_json::Value;
use std::alloc::Global;
use texts::List;

/// The copy of the type in full.
pub(crate) fn copied(alloc: Global, given: &Value) -> anyhow::Result<String> {
    let sample = read_sample(alloc, text_of(given)?)?;
    let copy = sample.as_open().copy(alloc)?;
    Ok(format!(in alloc; "{copy:?}")?)
}

/// The type without parameters that the row writes.
fn argument(alloc: Global, given: &Value) -> anyhow::Result<ClosedType> {
    let ty = read_in(alloc, DECLARED, text_of(given)?)?;
    Ok(closed(alloc, &ty)?)
}

/// The copy of the type in full that has the second and the third of the list in the places of `T` and `U`.
pub(crate) fn substituted(alloc: Global, given: &Value) -> anyhow::Result<String> {
    let [ty, first, second] = list_of(given)? else {
        bail!("a list of a type and two arguments");
    };
    let sample = read_sample(alloc, text_of(ty)?)?;
    let arguments = [argument(alloc, first)?, argument(alloc, second)?];
    let closed = substitute(alloc, sample.as_open(), arguments.as_slice())?.copy(alloc)?;
    Ok(format!(in alloc; "{:?}", closed.as_open())?)
}

/// The declaration at the place in full, with no arguments put into it.
pub(crate) fn declared(alloc: Global, given: &Value) -> anyhow::Result<String> {
    let declared = ClosedType::declared(alloc, count_of(given)?);
    let again = substitute(alloc, declared.as_open(), &[])?;
    Ok(format!(in alloc; "{:?}", again.as_open())?)
}

/// The places of the types that are the same as the one, with `+` between them.
fn same_as(alloc: Global, samples: &[Sample], sample: &Sample) -> anyhow::Result<String> {
    let ty = sample.as_open();
    let mut places = String::new(alloc);
    for (place, other) in samples.iter().enumerate() {
        let is_same = ty.is_same(other.as_open());
        ensure!(is_same == (ty == other.as_open()), "not so by `==`");
        if is_same {
            push_after(&mut places, "+", place.to_string(alloc)?.as_str())?;
        }
    }
    Ok(places)
}

/// For each type of the list the places of those that are the same, from 0 on.
pub(crate) fn same(alloc: Global, given: &Value) -> anyhow::Result<String> {
    let mut samples = List::new(alloc);
    for written in list_of(given)? {
        samples.push(read_sample(alloc, text_of(written)?)?)?;
    }
    let mut places = String::new(alloc);
    for sample in samples.as_slice() {
        let same = same_as(alloc, samples.as_slice(), sample)?;
        push_after(&mut places, ", ", same.as_str())?;
    }
    same_types_are_equal();
    Ok(places)
}
