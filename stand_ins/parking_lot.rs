//! Stand-ins for types of the crate `parking_lot`, versions 0.11 and 0.12, with its feature `serde`. Compared with parking_lot 0.12.1.
//!
//! Left out: `Once` and `Condvar`, which have no JSON.

pub struct Mutex<T>(T);
pub struct FairMutex<T>(T);
pub struct ReentrantMutex<T>(T);
pub struct RwLock<T>(T);
