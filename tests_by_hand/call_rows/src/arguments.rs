//! Types without parameters: how they read, and their numbers in a table.

ghost use Rattle.std.specs.Prelude.{◌≡◌, ◌<◌, length, IfOk};
ghost use Rattle.open_types.specs.Open.{open_view, items, leaf, named, no_types, more_types, param};
ghost use Rattle.open_types.specs.declared.open_type.ListHead.TheVariants.{Vec as AnyVec};

use anyhow::ensure;
use open_types::{ClosedType, Leaf, ListHead, OpenType, substitute};
use rows::given::text_of;
use scopes::type_text;
use serde_json::Value;
use std::alloc::{AllocError, Global};
use syntax::{Declarations, parse_declarations};
use texts::List;
use type_tree::{TypeId, Types};

/// A `Vec` of the type.
fn list_of(alloc: Global, item: OpenType) -> Result<OpenType, AllocError>
    ensures { IfOk result (λ t. open_view t ≡ items AnyVec (open_view item)) }
{
    Ok(OpenType::Items(ListHead::Vec, Box::new(alloc, item)?))
}

/// The first declaration with a `Vec` of the first parameter as its argument.
fn first_of_parameter(alloc: Global) -> Result<OpenType, AllocError>
    ensures { IfOk result
        (λ t. open_view t ≡ named 0 (more_types (items AnyVec (param 0)) no_types)) }
{
    let item = list_of(alloc, OpenType::Param(0))?;
    let mut arguments = List::new(alloc);
    arguments.push(item)?;
    Ok(OpenType::Named(0, arguments))
}

/// The first declaration with a `Vec` of the second as its argument.
fn first_of_seconds(alloc: Global) -> Result<ClosedType, AllocError>
    ensures { IfOk result
        (λ t. open_view t ≡ named 0 (more_types (items AnyVec (named 1 no_types)) no_types)) }
{
    let arguments = [ClosedType::declared(alloc, 1)];
    let ty = substitute(alloc, &first_of_parameter(alloc)?, arguments.as_slice())?;
    ty.copy(alloc)
}

/// How the type reads, where it is the same as itself.
fn type_words(
    alloc: Global,
    declarations: &Declarations,
    ty: &ClosedType,
) -> anyhow::Result<String> {
    ensure!(ty.as_open().is_same(ty.as_open()), "not the same");
    let text = type_text(alloc, declarations, ty)?;
    Ok(String::from_str(alloc, text.as_str())?)
}

/// How the first of the declarations reads with a `Vec` of the second as its argument.
fn first_text(alloc: Global, declarations: &Declarations) -> anyhow::Result<String> {
    ensure!(declarations.items.len() > 1, "fewer than two declarations");
    let ty = first_of_seconds(alloc)?;
    type_words(alloc, declarations, &ty)
}

/// How the source's first declaration reads with a `Vec` of the second as its argument.
pub(crate) fn text(alloc: Global, given: &Value) -> anyhow::Result<String> {
    let declarations = parse_declarations(alloc, text_of(given)?)?;
    first_text(alloc, &declarations)
}

/// The `Vec` of a built-in name.
fn leaves(alloc: Global, of: Leaf) -> Result<ClosedType, AllocError>
    ensures { IfOk result (λ t. open_view t ≡ items AnyVec (leaf of)) }
{
    Ok(ClosedType::new(list_of(alloc, OpenType::Leaf(of))?))
}

/// The number of the `Vec` of a built-in name.
fn list_number(alloc: Global, types: &mut Types, of: Leaf) -> Result<usize, AllocError> {
    let list = leaves(alloc, of)?;
    Ok(types.intern(&list)?.number())
}

/// The number of `Vec<T>` at `bool`.
fn substituted(alloc: Global, types: &mut Types) -> Result<TypeId, AllocError>
    ensures { IfOk result (λ id. id < length types.new) }
{
    let open = list_of(alloc, OpenType::Param(0))?;
    let item = types.intern(&ClosedType::new(OpenType::Leaf(Leaf::Bool)))?;
    types.substitute(&open, &[item])
}

/// Whether the type of the number is `Vec<bool>`.
fn is_list(alloc: Global, types: &Types, id: TypeId) -> Result<bool, AllocError>
    requires { id < length types.now }
{
    let list = leaves(alloc, Leaf::Bool)?;
    let back = types.type_of(alloc, id)?;
    Ok(back.as_open().is_same(list.as_open()))
}

/// The numbers of `Vec<bool>`, of it again, of `Vec<u8>` and of `Vec<T>` at `bool`, of how many types, and whether the last
/// is the first again.
fn told(alloc: Global, types: &mut Types) -> anyhow::Result<String> {
    let first = list_number(alloc, types, Leaf::Bool)?;
    let again = list_number(alloc, types, Leaf::Bool)?;
    let other = list_number(alloc, types, Leaf::U8)?;
    let put = substituted(alloc, types)?;
    let back = is_list(alloc, &*types, put)?;
    Ok(format!(in alloc;
        "{first} {again} {other} {} of {}, {back}",
        put.number(),
        types.len()
    )?)
}

/// What a table without types says of the types above.
pub(crate) fn numbers(alloc: Global) -> anyhow::Result<String> {
    let mut types = Types::new(alloc);
    told(alloc, &mut types)
}
