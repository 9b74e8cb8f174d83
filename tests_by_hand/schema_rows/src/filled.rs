//! Schemas put at the leaves of a schema.

use filling::{CopyLeaf, Fill};
use schema_core::{Annotations, Object, RefLeaf, Schema, SchemaTypeInner, Tree, TypeWord};
use std::alloc::{AllocError, Global};
use texts::List;

/// In the place of each reference an object with that reference under its name.
pub(crate) struct Objects;

impl Fill for Objects {
    ghost use Rattle.std.specs.Prelude.{None, []};
    ghost use Rattle.schema_trees.specs.Annotations.{no_annotations};
    ghost use Rattle.schema_core.specs.Objects.{word_facts};
    ghost use Rattle.schema_core.specs.Schema as tree;
    ghost use Rattle.schema_core.specs.declared.tree.RefLeaf.{RefLeaf as Reference};
    ghost use Rattle.schema_core.specs.declared.tree.TypeWord.TheVariants.{One};
    ghost use Rattle.schema_core.specs.declared.tree.SchemaTypeInner.TheVariants as words;

    type Hole = RefLeaf;

    type Leaf = RefLeaf;

    ghost Origin = { Reference };

    ghost origin = { λ l. l };

    ghost Meaning = { Reference };

    ghost meaning = { λ l. l };

    ghost put = { λ _ l. tree.object (word_facts (One words.Object) no_annotations) (tree.property l.name (tree.leaf l) tree.no_properties) tree.no_part tree.no_part };

    fn fill(&self, alloc: Global, leaf: &RefLeaf) -> Result<Schema, AllocError> {
        let name = leaf.name.copy(alloc)?;
        let leaf = leaf.copy_leaf(alloc)?;
        let mut properties = List::new(alloc);
        properties.push((name, Tree::Leaf(leaf)))?;
        let word = TypeWord::One(SchemaTypeInner::Object);
        let object = Object {
            properties,
            ..Object::new(alloc, word, Annotations::new())
        };
        Ok(Tree::Object(Box::new(alloc, object)?))
    }
}
