//! The document of a whole file.

use anyhow::bail;
use configuration::Config;
use file_derivation::{Outcome, derive_files};
use gathering::Source;
use rows::given::text_of;
use selecting::Selection;
use serde_json::Value;
use std::alloc::Global;
use texts::List;

/// The document of the file with this text.
pub(crate) fn document(alloc: Global, given: &Value) -> anyhow::Result<String> {
    let source = Source {
        name: "a.rs",
        bytes: text_of(given)?.as_bytes(),
    };
    let selection = Selection {
        serde: false,
        only: List::new(alloc),
        exclude: List::new(alloc),
        skip_refused: false,
        not_plain: false,
        own: 1,
    };
    match derive_files(alloc, &[source], &selection, Config::new(alloc))? {
        Outcome::Derived(derived, _) => {
            let text = derived.components.to_text(alloc)?;
            Ok(String::from_str(alloc, text.as_str())?)
        }
        Outcome::Refused(_) => bail!("the file is refused"),
    }
}
