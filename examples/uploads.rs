//! What a service for uploads reads and writes. Its types name those of other crates, which stand_ins/ declares.

use chrono::{DateTime, NaiveDate, Utc};
use rust_decimal::Decimal;
use semver::Version;
use serde::{Deserialize, Serialize};
use std::collections::VecDeque;
use std::net::IpAddr;
use std::ops::Range;
use std::path::PathBuf;
use std::sync::Mutex;
use std::time::Duration;
use url::Url;
use uuid::Uuid;

/// A file that a client sent.
#[derive(Serialize, Deserialize)]
#[serde(rename_all = "camelCase")]
pub struct Upload {
    pub id: Uuid,
    pub stored_as: PathBuf,
    /// Where it was fetched from, if not sent.
    pub source: Option<Url>,
    pub received: DateTime<Utc>,
    pub from: IpAddr,
    /// How long it is kept.
    pub kept_for: Duration,
    pub price: Decimal,
    /// The bytes that have arrived.
    pub parts: Vec<Range<u64>>,
}

/// What the service says of itself.
#[derive(Serialize)]
pub struct Status {
    pub version: Version,
    pub since: NaiveDate,
    /// The last uploads, the newest first.
    pub last: VecDeque<Uuid>,
    pub open: Mutex<u32>,
}

impl Upload {
    /// Whether it came from this machine.
    pub fn is_local(&self) -> bool {
        self.from.is_loopback()
    }
}
