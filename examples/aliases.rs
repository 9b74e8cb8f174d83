//! What a service for teams writes. `Id`, `Timestamp` and `Users` are `type` lines elsewhere in its program.

use crate::types::{Id, Timestamp, Users};

/// A part of a longer list.
pub struct Page<T> {
    pub items: Vec<T>,
    /// Where the next part begins.
    pub next: Option<Id>,
}

pub struct User {
    pub id: Id,
    pub name: String,
    pub last_seen: Option<Timestamp>,
}

/// A team and its users.
pub struct Team {
    pub id: Id,
    pub founded: Timestamp,
    /// The first users, by their names.
    pub users: Users,
}
