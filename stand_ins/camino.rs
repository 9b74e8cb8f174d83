//! Stand-ins for types of the crate `camino`, versions 1, with its feature `serde1`. Compared with camino 1.0.5.

/// A path of a file.
pub struct Utf8PathBuf(String);
/// A path of a file.
pub struct Utf8Path(String);
