//! Types over two parameters, as rows write them: `T` and `U` are the parameters, any other type is read in a source that
//! declares `A` and `B`, and `HEAD of` before a type is a container around it, or a declaration with it as its argument.

use crate::resolved::read_in;
use anyhow::{Context, bail};
use open_types::{Head, Leaf, OpenType};
use std::alloc::{AllocError, Global};
use std::marker::Model;
use texts::List;

/// The source in which the types without parameters are read.
pub(crate) const DECLARED: &str = "struct A; struct B;";

/// A type over two parameters.
#[derive(Drop)]
pub(crate) struct Sample {
    ty: OpenType,
}

impl Model for Sample {
    ghost use Rattle.open_types.specs.declared.open_type.OpenType.{OpenType};
    ghost use Rattle.open_types.specs.Open.{open_view, IsOverFirst};
    ghost use Rattle.open_types.specs.contracts.open_type.OpenType as opened;

    ghost Value = { OpenType };

    ghost coded = { opened.the_row.coded };

    ghost view = { λ sample. sample.ty };

    ghost invariant = { λ sample. IsOverFirst 2 (open_view sample.ty) };
}

impl Sample {
    ghost use Rattle.std.specs.Prelude.{◌≡◌};
    ghost use Rattle.open_types.specs.Open.{open_view, IsOverFirst};

    pub(crate) fn as_open(&self) -> &OpenType
        ensures same { result.now ≡ self.now }
        ensures over_two { IsOverFirst 2 (open_view result.now) }
    {
        &self.ty
    }
}

/// A parameter, or a type that is read in a source.
fn innermost(alloc: Global, written: &str) -> anyhow::Result<Sample> {
    match written {
        "T" => Ok(Sample {
            ty: OpenType::Param(0),
        }),
        "U" => Ok(Sample {
            ty: OpenType::Param(1),
        }),
        _ => Ok(Sample {
            ty: read_in(alloc, DECLARED, written)?,
        }),
    }
}

/// The declaration at the place with the type as its argument.
fn applied(alloc: Global, place: usize, of: Sample) -> Result<Sample, AllocError> {
    let Sample { ty } = of;
    let mut arguments = List::new(alloc);
    arguments.push(ty)?;
    Ok(Sample {
        ty: OpenType::Named(place, arguments),
    })
}

/// The container around the type; a map has keys of type `String`.
fn contained(alloc: Global, head: Head, of: Sample) -> Result<Sample, AllocError> {
    let Sample { ty } = of;
    let of = Box::new(alloc, ty)?;
    match head {
        Head::List(head) => Ok(Sample {
            ty: OpenType::Items(head, of),
        }),
        Head::Set(head) => Ok(Sample {
            ty: OpenType::Set(head, of),
        }),
        Head::Map(head) => {
            let key = Box::new(alloc, OpenType::Leaf(Leaf::String))?;
            Ok(Sample {
                ty: OpenType::Map(head, key, of),
            })
        }
        Head::Option => Ok(Sample {
            ty: OpenType::Option(of),
        }),
        Head::Through(head) => Ok(Sample {
            ty: OpenType::Through(head, of),
        }),
    }
}

/// What stands before `of`, around the type.
fn around(alloc: Global, head: &str, of: Sample) -> anyhow::Result<Sample> {
    match head {
        "A" => Ok(applied(alloc, 0, of)?),
        "B" => Ok(applied(alloc, 1, of)?),
        _ => match Head::named(head) {
            Some(head) => Ok(contained(alloc, head, of)?),
            None => bail!("no container {head}"),
        },
    }
}

/// The type that the row writes.
pub(crate) fn read_sample(alloc: Global, written: &str) -> anyhow::Result<Sample> {
    let mut parts = written.rsplit(" of ");
    let mut sample = innermost(alloc, parts.next().context("a type")?)?;
    for head in parts {
        sample = around(alloc, head, sample)?;
    }
    Ok(sample)
}
