//! Texts and lists.

use anyhow::bail;
use rows::given::{count_of, list_of, pair_of, text_of};
use serde_json::Value;
use std::alloc::{AllocError, Global};
use texts::{List, Text};

/// The texts, one pushed behind the other, in a copy.
pub(crate) fn text(alloc: Global, given: &Value) -> anyhow::Result<String> {
    let mut text = Text::new(alloc, "")?;
    for piece in list_of(given)? {
        text.push(text_of(piece)?)?;
    }
    Ok(String::from_str(alloc, text.copy(alloc)?.as_str())?)
}

/// How the first of two texts compares with the other, and whether they are equal.
pub(crate) fn texts(alloc: Global, given: &Value) -> anyhow::Result<String> {
    let (one, other) = pair_of(given)?;
    let one = Text::new(alloc, text_of(one)?)?;
    let other = Text::new(alloc, text_of(other)?)?;
    let equality = if one == other { "equal" } else { "unequal" };
    Ok(format!(in alloc; "{:?}, {equality}", one.cmp(&other))?)
}

/// The list of the numbers.
fn numbers(alloc: Global, given: &Value) -> anyhow::Result<List<usize>> {
    let mut list = List::new(alloc);
    for number in list_of(given)? {
        list.push(count_of(number)?)?;
    }
    Ok(list)
}

fn insert(list: &mut List<usize>, at: usize, item: usize) -> anyhow::Result<()> {
    if at > list.len() {
        bail!("no place {at}");
    }
    Ok(list.insert(at, item)?)
}

fn remove(list: &mut List<usize>, at: usize) -> anyhow::Result<()> {
    if at >= list.len() {
        bail!("no item {at}");
    }
    let _item = list.remove(at);
    Ok(())
}

/// Changes the list as the step says.
fn step(alloc: Global, list: &mut List<usize>, given: &Value) -> anyhow::Result<()> {
    if let Some(item) = given.get("push") {
        list.push(count_of(item)?)?;
    } else if let Some(place) = given.get("insert") {
        let (at, item) = pair_of(place)?;
        insert(list, count_of(at)?, count_of(item)?)?;
    } else if let Some(items) = given.get("append") {
        list.append(numbers(alloc, items)?)?;
    } else if let Some(at) = given.get("remove") {
        remove(list, count_of(at)?)?;
    } else {
        bail!("no step {given}");
    }
    Ok(())
}

fn items_text(alloc: Global, list: &List<usize>) -> Result<String, AllocError> {
    if list.is_empty() {
        return String::from_str(alloc, "0 items");
    }
    let mut text = format!(in alloc; "{} items:", list.len())?;
    for item in list.as_slice() {
        text.push_str(format!(in alloc; " {item}")?.as_str())?;
    }
    Ok(text)
}

/// How many items the list has behind all steps, and the items.
pub(crate) fn list(alloc: Global, given: &Value) -> anyhow::Result<String> {
    let mut list = List::new(alloc);
    for given in list_of(given)? {
        step(alloc, &mut list, given)?;
    }
    Ok(items_text(alloc, &list)?)
}

/// Whether the two lists are equal.
pub(crate) fn lists(alloc: Global, given: &Value) -> anyhow::Result<String> {
    let (one, other) = pair_of(given)?;
    let equal = numbers(alloc, one)? == numbers(alloc, other)?;
    Ok(format!(in alloc; "{equal}")?)
}
