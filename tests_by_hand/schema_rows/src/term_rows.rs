//! Terms, and their JSON.

use crate::forms::form_text;
use component::{Term, TermLeaf};
use filling::{Fill, filled};
use open_types::OpenType;
use schema_core::{Annotations, RefLeaf, Schema, Tree};
use std::alloc::{AllocError, Global};
use texts::Text;

/// References at the leaves of a term.
struct References;

impl Fill for References {
    ghost use Rattle.std.specs.Prelude.{Bool, true};
    ghost use Rattle.schema_core.specs.Schema as tree;
    ghost use Rattle.component.specs.Leaves.{LeafOf, leaf_view};

    type Hole = TermLeaf;

    type Leaf = RefLeaf;

    ghost Origin = { LeafOf };

    ghost origin = { leaf_view };

    ghost Meaning = { Bool };

    ghost meaning = { λ _. true };

    ghost put = { λ _ _. tree.leaf true };

    /// A reference to `ReferenceN` or `InlineN` for the declaration at the place N, and to `ParamN` for the parameter there.
    fn fill(&self, alloc: Global, leaf: &TermLeaf) -> Result<Schema, AllocError> {
        Ok(Tree::Leaf(reference(alloc, leaf)?))
    }
}

fn reference(alloc: Global, leaf: &TermLeaf) -> Result<RefLeaf, AllocError> {
    let (name, annotations) = match leaf {
        TermLeaf::Param(place) => (format!(in alloc; "Param{place}")?, Annotations::new()),
        TermLeaf::Named {
            of,
            inline,
            annotations,
        } => (named(alloc, of, *inline)?, annotations.copy(alloc)?),
    };
    Ok(RefLeaf {
        name: Text::from(name),
        annotations,
    })
}

/// `ReferenceN` for the declaration at the place N, or `InlineN` where its schema stands there itself.
pub(crate) fn named(alloc: Global, of: &OpenType, inline: bool) -> Result<String, AllocError> {
    let way = if inline { "Inline" } else { "Reference" };
    match of {
        OpenType::Named(place, _) => format!(in alloc; "{way}{place}"),
        _ => String::from_str(alloc, "no declaration"),
    }
}

/// The JSON of the term, with references at its leaves.
pub(crate) fn term_text(alloc: Global, term: Term) -> Result<String, AllocError> {
    form_text(alloc, filled(alloc, &term, &References)?)
}
