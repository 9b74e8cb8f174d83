use std::collections::HashMap;

use serde::{Deserialize, Serialize};

/// What a customer orders.
#[derive(Debug, Serialize, Deserialize)]
#[serde(rename_all = "camelCase", deny_unknown_fields)]
pub struct Order {
    pub buyer: Option<Customer>,
    /// Pieces by article.
    pub pieces: HashMap<String, u32>,
    pub pay: Pay,
    #[serde(default)]
    pub is_gift: bool,
}

#[derive(Debug, Serialize, Deserialize)]
pub struct Customer {
    pub name: String,
}

#[derive(Debug, Serialize, Deserialize)]
pub enum Pay {
    Cash,
    Card(u64),
}
