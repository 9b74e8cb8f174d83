//! Stand-ins for types of the crate `arc-swap`, versions 1, with its feature `serde`. Compared with arc-swap 1.5.1.

pub struct ArcSwap<T>(T);
pub struct ArcSwapOption<T>(Option<T>);
pub struct ArcSwapAny<T>(T);
