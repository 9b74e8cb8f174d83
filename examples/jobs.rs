//! What the service of a job queue reads and writes as JSON.

#![allow(deprecated)]

use std::collections::{BTreeMap, HashMap};

use serde::{Deserialize, Serialize};
use serde_json::{Map, Value};

use crate::workers::Lease;

/// The number of a job.
#[derive(Clone, Copy, Debug, Deserialize, Eq, Hash, PartialEq, Serialize)]
pub struct JobId(u64);

/// How urgent a job is.
#[derive(Clone, Copy, Debug, Deserialize, Eq, Hash, Ord, PartialEq, PartialOrd, Serialize)]
#[serde(rename_all = "snake_case")]
pub enum Priority {
    High,
    Normal,
    /// When no other job waits.
    WhenIdle,
    // Stands in tests alone.
    #[serde(skip)]
    Never,
}

/// When a job is to run.
#[derive(Clone, Debug, Deserialize, PartialEq, Serialize)]
#[serde(untagged)]
pub enum Schedule {
    /// At once.
    Now,
    /// After so many seconds.
    After(u32),
    /// At a moment, such as `2027-03-01T04:30:00Z`.
    At(String),
    /// Once between two moments, in seconds since 1970.
    Between(i64, i64),
    /// Again and again.
    Weekly {
        /// Monday is 1.
        days: Vec<u8>,
        hour: u8,
        #[serde(default)]
        minute: u8,
    },
}

/// A job that a client asks for.
#[derive(Clone, Debug, Deserialize, Serialize)]
#[serde(deny_unknown_fields)]
pub struct NewJob {
    pub command: Vec<String>,
    pub schedule: Schedule,
    #[serde(default, skip_serializing_if = "Option::is_none")]
    pub priority: Option<Priority>,
    /// What the command finds in its environment.
    #[serde(default)]
    pub environment: BTreeMap<String, String>,
}

/// What a client asks for.
#[derive(Clone, Debug, Deserialize, Serialize)]
#[serde(tag = "method", content = "params", rename_all = "snake_case")]
pub enum Request {
    /// Nothing, but for an answer.
    Ping,
    Submit(NewJob),
    Cancel(JobId),
    /// The jobs with this label.
    #[serde(rename = "find")]
    FindByLabel(String),
    /// Lets two jobs change their places.
    Swap(JobId, JobId),
    /// Makes a job more urgent, or less.
    Hurry(JobId, Priority),
    /// How many workers there are, and what they take.
    #[serde(rename_all = "camelCase")]
    Resize {
        worker_count: u16,
        /// How many jobs of each urgency run at most.
        #[serde(default)]
        at_most: BTreeMap<Priority, u32>,
        queue: Option<String>,
    },
    /// Several requests, one behind the other.
    Batch(Vec<Request>),
    #[deprecated(since = "1.4.0", note = "send `submit`")]
    Push(Vec<String>, Option<u32>),
    #[serde(skip)]
    Renew(Lease),
}

/// A job and where it stands.
#[derive(Clone, Debug, Deserialize, Serialize)]
pub struct Job {
    pub id: JobId,
    pub command: Vec<String>,
    pub priority: Priority,
    /// The job that has started this one.
    pub parent: Option<JobId>,
    #[serde(default, skip_serializing_if = "Map::is_empty")]
    pub labels: Map<String, Value>,
    #[serde(skip)]
    pub(crate) lease: Option<Lease>,
}

/// What became of a job.
#[derive(Clone, Debug, Deserialize, Serialize)]
#[serde(rename_all = "snake_case")]
pub enum Outcome {
    /// It has ended as it should.
    Done,
    /// It was taken out of the queue.
    #[serde(rename = "cancelled")]
    TakenOut,
    /// The status with which its command has ended.
    Exited(i32),
    /// The number and the name of the signal that has ended it.
    Killed(u8, String),
    /// The service itself has failed.
    Failed {
        message: String,
        #[serde(default, skip_serializing_if = "Vec::is_empty")]
        causes: Vec<Outcome>,
    },
    /// It runs again, since it had ended so.
    Retried(Box<Outcome>),
}

/// How a job has ended.
#[derive(Clone, Debug, Deserialize, Serialize)]
pub struct Report {
    pub job: JobId,
    pub outcome: Outcome,
    /// Seconds of a processor.
    pub seconds: u64,
    /// Reports of the jobs that this one has started.
    #[serde(default)]
    pub parts: Vec<Report>,
}

/// What the service tells those who watch it.
#[derive(Clone, Debug, Deserialize, Serialize)]
#[serde(tag = "event", rename_all = "snake_case")]
pub enum Event {
    /// No job waits, and none runs.
    Idle,
    /// A job has come into the queue.
    Queued(Job),
    /// A worker has taken a job.
    #[serde(rename_all = "camelCase")]
    Started {
        job: JobId,
        worker_name: String,
        /// Counts from 1.
        #[serde(default = "crate::workers::first")]
        attempt: u32,
        #[serde(skip)]
        lease: Option<Lease>,
    },
    #[serde(rename = "ended")]
    Reported(Box<Report>),
    /// Waiting jobs by urgency.
    Counted {
        waiting: HashMap<Priority, u32>,
        #[serde(rename = "runningJobs")]
        running: u32,
    },
    #[deprecated(since = "1.4.0", note = "watch for `started`")]
    Claimed { job: JobId },
    // Never leaves the service.
    #[serde(skip)]
    Woken(Lease),
}

/// A part of the log, each event with its time in seconds since 1970.
#[derive(Clone, Debug, Deserialize, Serialize)]
pub struct LogPage {
    pub events: Vec<(u64, Event)>,
    /// Where the next page begins, if there is one.
    pub next: Option<u64>,
}
