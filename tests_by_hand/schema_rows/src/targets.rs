//! Declarations whose schemas stand in those of others.

ghost use Rattle.std.specs.Prelude.{◌<◌, ℕ, IfOk};
ghost use Rattle.inlining.specs.Inlining.{AreTargets, IsAmong};

use anyhow::bail;
use inlining::{Depth, are_more_copies, inline_order};
use rows::given::{count_at, count_of, list_at, list_of};
use serde_json::Value;
use std::alloc::Global;
use texts::List;

/// The targets of one of `count` declarations, each as often as it is to stand there.
fn row_of(alloc: Global, given: &Value, times: usize, count: usize) -> anyhow::Result<List<usize>>
    ensures { IfOk result (λ of. (t : ℕ) → IsAmong t of → t < count) }
{
    let mut of = List::new(alloc);
    for target in list_of(given)? {
        let place = count_of(target)?;
        if place >= count {
            bail!("{place} is no place of {count}");
        }
        for _ in 0..times {
            of.push(place)?;
        }
    }
    Ok(of)
}

/// The targets of each declaration.
fn targets(alloc: Global, given: &Value, times: usize) -> anyhow::Result<List<List<usize>>>
    ensures { IfOk result (λ targets. AreTargets targets) }
{
    let rows = list_at(given, "targets")?;
    let mut targets = List::new(alloc);
    for row in rows {
        targets.push(row_of(alloc, row, times, rows.len())?)?;
    }
    Ok(targets)
}

/// An order of the declarations, or a path that is too long.
pub(crate) fn order(alloc: Global, given: &Value) -> anyhow::Result<String> {
    let targets = targets(alloc, given, 1)?;
    let most = count_at(given, "most")?;
    let told = match inline_order(alloc, targets.as_slice(), most)? {
        Depth::Within(order) => format!(in alloc; "within {:?}", order.as_slice())?,
        Depth::Beyond(path) => format!(in alloc; "beyond {:?}", path.as_slice())?,
    };
    Ok(told)
}

/// Whether there are more copies than the limit.
pub(crate) fn copies(alloc: Global, given: &Value) -> anyhow::Result<String> {
    let times = count_at(given, "times").unwrap_or(1);
    let lists = targets(alloc, given, times)?;
    let targets = lists.as_slice();
    let limit = count_at(given, "limit")?;
    if limit == usize::MAX {
        bail!("{limit} is no limit");
    }
    let Depth::Within(order) = inline_order(alloc, targets, 33)? else {
        bail!("too deep");
    };
    let order = order.as_slice();
    let told = if are_more_copies(alloc, targets, order, order, 33, limit)? {
        "more"
    } else {
        "no more"
    };
    Ok(String::from_str(alloc, told)?)
}
