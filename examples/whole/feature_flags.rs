//! Feature flags: rules decide by a context which variation of a flag somebody gets.
//!
//! Rules nest, as in
//!
//! ```yaml
//! all:
//!   - attribute: country
//!     operator: one-of
//!     values: [SE, NO]
//!   - not: { segment: "staff{}" }
//! ```

#![allow(clippy::type_complexity, clippy::wrong_self_convention, unused_macros)]
#![cfg_attr(
    feature = "nightly",
    feature(let_chains, never_type),
    allow(incomplete_features)
)]

use arc_swap::{access::Access, ArcSwap};
use axum::{
    extract::{rejection::JsonRejection, FromRequest, Path, State},
    http::{HeaderMap, StatusCode},
    response::{
        sse::{Event as SseEvent, KeepAlive, Sse},
        IntoResponse,
    },
    routing, Json, Router,
};
use figment::{
    providers::{Env, Format, Toml},
    Figment,
};
use futures::stream::{self, BoxStream, Stream, StreamExt};
use rustc_hash::{FxHashMap, FxHasher};
use serde::{Deserialize, Serialize};
use serde_json::{json, Map, Number};
use std::{
    collections::{BTreeMap, BTreeSet, HashMap},
    fmt::{Display, Formatter},
    hash::{BuildHasherDefault, Hash, Hasher},
    ops::ControlFlow,
    sync::Arc,
};

#[cfg(feature = "redis")]
mod redis_store;
mod semver;

/// Parts into which a rollout cuts the keys.
pub const BUCKETS: u32 = 100_000;

const EVERYBODY: StaticRule = StaticRule {
    name: "everybody",
    decides: |_context| -> bool { true },
};

const SALTS: [&str; 2] = {
    const FIRST: &str = "pepper {";
    [FIRST, r#"} "salt""#]
};

static STATIC_RULES: &[StaticRule] = &[
    EVERYBODY,
    StaticRule {
        name: "nobody",
        decides: |_| false,
    },
];

pub type Decision<'f> = Result<(&'f Variation, WhyDecided), FlagFault>;
type Segments = FxHashMap<String, BTreeSet<String>>;

struct StaticRule {
    name: &'static str,
    decides: fn(&EvaluationContext) -> bool,
}

// ---- flags

/// The key of a flag, such as `checkout.new-form`.
#[derive(Clone, Debug, PartialEq, Eq, PartialOrd, Ord, Hash, Serialize, Deserialize)]
pub struct FlagKey(String);

/// A flag.
#[derive(Clone, Debug, Serialize, Deserialize)]
#[serde(rename_all = "kebab-case", deny_unknown_fields)]
pub struct Flag {
    pub key: FlagKey,
    #[serde(default)]
    pub description: String,
    /// The values that there are, by their names.
    pub variations: BTreeMap<String, Variation>,
    pub default_variation: String,
    /// The first that holds decides.
    #[serde(default)]
    pub targeting_rules: Vec<TargetingRule>,
    #[serde(rename = "kill-switch", default)]
    pub is_killed: bool,
    #[serde(skip_serializing_if = "Option::is_none")]
    pub owner: Option<Owner>,
    pub r#type: FlagType,
}

#[derive(Clone, Copy, Debug, PartialEq, Eq, Serialize, Deserialize)]
#[serde(rename_all = "kebab-case")]
pub enum FlagType {
    Release,
    OpsSwitch,
    ABTest,
    Permission,
}

/// The value of a variation: any JSON, but told apart by its type.
#[derive(Clone, Debug, PartialEq, Serialize, Deserialize)]
#[serde(untagged)]
pub enum Variation {
    Off,
    Switch(bool),
    Count(i64),
    Text(String),
    Choice {
        one_of: Vec<Variation>,
        #[serde(rename = "default")]
        fallback: Box<Variation>,
    },
    Config(Map<String, serde_json::Value>),
}

#[derive(Clone, Debug, PartialEq, Eq, Serialize, Deserialize)]
#[serde(tag = "kind", rename_all = "lowercase")]
pub enum Owner {
    Team {
        name: String,
        #[serde(default)]
        channels: Vec<String>,
    },
    /// Somebody alone.
    SinglePerson(Contact),
    NoBody,
}

#[derive(Clone, Debug, PartialEq, Eq, Serialize, Deserialize)]
#[serde(rename_all = "PascalCase")]
pub struct Contact {
    pub full_name: String,
    pub e_mail: String,
}

pub mod rules {
    //! The language of rules.
    #![allow(clippy::should_implement_trait)]

    use super::*;

    #[derive(Clone, Debug, Serialize, Deserialize)]
    pub struct TargetingRule {
        pub name: Option<String>,
        pub when: Condition,
        pub then: Outcome,
    }

    /// What holds of a context, or does not.
    #[derive(Clone, Debug, Serialize, Deserialize)]
    #[serde(rename_all = "snake_case")]
    pub enum Condition {
        Always,
        All(Vec<Condition>),
        Any(Vec<Condition>),
        Not(Box<Condition>),
        Segment(String),
        #[serde(rename_all = "kebab-case")]
        Attribute {
            attribute_name: String,
            operator: Operator,
            #[serde(default)]
            values: Vec<Scalar>,
        },
        /// From a moment to another, both RFC 3339.
        Between(String, String),
    }

    impl std::ops::Not for Condition {
        type Output = Self;

        fn not(self) -> Self {
            match self {
                Condition::Not(inner) => *inner,
                other => Condition::Not(Box::new(other)),
            }
        }
    }

    #[derive(Clone, Copy, Debug, PartialEq, Eq, Serialize, Deserialize)]
    #[serde(rename_all = "SCREAMING-KEBAB-CASE")]
    pub enum Operator {
        OneOf,
        StartsWith,
        Matches,
        LessThan,
        SemVerAtLeast,
    }

    /// A text, a number or a truth value.
    #[derive(Clone, Debug, PartialEq, Serialize, Deserialize)]
    #[serde(untagged)]
    pub enum Scalar {
        Bool(bool),
        Int(i64),
        Float(f64),
        Str(Arc<str>),
    }

    impl Scalar {
        pub(super) fn as_text(&self) -> std::borrow::Cow<'_, str> {
            match self {
                Self::Str(text) => text.as_ref().into(),
                Self::Bool(truth) => truth.to_string().into(),
                Self::Int(number) => number.to_string().into(),
                Self::Float(number) => format!("{number:?}").into(),
            }
        }
    }

    /// What those get of whom a rule holds.
    #[derive(Clone, Debug, Serialize, Deserialize)]
    #[serde(tag = "serve", content = "args", rename_all = "camelCase")]
    pub enum Outcome {
        FixedVariation(String),
        #[serde(rename_all = "camelCase")]
        PercentageRollout {
            bucket_by: Option<String>,
            weights: Vec<Weight>,
        },
        NextRule,
    }

    pub use self::weights::Weight;

    mod weights {
        /// A variation and its share, in thousandths of a percent.
        #[derive(
            ::core::clone::Clone, ::core::fmt::Debug, ::serde::Serialize, ::serde::Deserialize,
        )]
        pub struct Weight {
            pub variation: ::std::string::String,
            pub share: ::core::primitive::u32,
        }
    }
}

use rules::{Condition, Operator, Outcome, Scalar, TargetingRule};

/// Of whom a flag is asked.
#[derive(Clone, Debug, Default, Serialize, Deserialize)]
#[serde(rename_all = "camelCase")]
pub struct EvaluationContext {
    pub targeting_key: Option<String>,
    #[serde(default)]
    pub attributes: HashMap<String, Scalar>,
    #[serde(default, with = "percent_list")]
    pub pinned_buckets: Vec<u32>,
    #[serde(skip)]
    pub now: Option<std::time::SystemTime>,
}

/// What is answered.
#[derive(Clone, Debug, Serialize, Deserialize)]
#[serde(rename_all = "camelCase")]
pub struct Evaluation {
    pub flag_key: FlagKey,
    pub value: Variation,
    pub reason: WhyDecided,
    pub etag: Option<u64>,
    #[serde(rename = "$meta", default, skip_serializing_if = "Map::is_empty")]
    pub meta: Map<String, serde_json::Value>,
}

#[derive(Clone, Debug, PartialEq, Eq, Serialize, Deserialize)]
#[serde(rename_all = "SCREAMING_SNAKE_CASE")]
pub enum WhyDecided {
    Default,
    Killed,
    /// The number of the rule, from 0.
    TargetingMatch(usize),
    Split {
        bucket: u32,
        rule: usize,
    },
}

/// What those are told who listen.
#[derive(Clone, Debug, Serialize)]
#[serde(tag = "event", rename_all = "UPPERCASE")]
#[cfg_attr(feature = "docs", derive(utoipa::ToSchema))]
pub enum FlagChange {
    Put(Box<Flag>),
    Delete {
        key: FlagKey,
    },
    /// All are other ones.
    #[serde(rename = "reset")]
    Everything,
}

/// What went wrong, as a document.
#[derive(Debug, Serialize)]
#[serde(rename_all = "snake_case")]
struct Fault {
    fault_code: FaultCode,
    message: Box<str>,
    #[serde(skip_serializing_if = "Option::is_none")]
    at_rule: Option<usize>,
}

#[derive(Clone, Copy, Debug, Serialize)]
#[serde(rename_all = "SCREAMING_SNAKE_CASE")]
enum FaultCode {
    FlagNotFound,
    ParseError,
    TypeMismatch,
}

#[derive(Debug, thiserror::Error)]
pub enum FlagFault {
    #[error("no flag {0:?}")]
    Unknown(FlagKey),
    #[error("rule {rule} serves `{name}`, which is no variation")]
    NoVariation { rule: usize, name: String },
    #[error(transparent)]
    Body(#[from] JsonRejection),
}

impl IntoResponse for FlagFault {
    #[inline]
    fn into_response(self) -> axum::response::Response {
        let (status, fault_code, at_rule) = match &self {
            FlagFault::Unknown(_) => (StatusCode::NOT_FOUND, FaultCode::FlagNotFound, None),
            FlagFault::NoVariation { rule, .. } => {
                (StatusCode::CONFLICT, FaultCode::TypeMismatch, Some(*rule))
            }
            FlagFault::Body(e) => (e.status(), FaultCode::ParseError, None),
        };
        let message = self.to_string().into_boxed_str();
        (
            status,
            Json(Fault {
                fault_code,
                message,
                at_rule,
            }),
        )
            .into_response()
    }
}

mod percent_list {
    use serde::{ser::SerializeSeq, Deserialize, Deserializer, Serializer};

    pub fn serialize<S>(list: &[u32], serializer: S) -> Result<S::Ok, S::Error>
    where
        S: Serializer,
    {
        let mut seq = serializer.serialize_seq(Some(list.len()))?;
        for bucket in list {
            seq.serialize_element(&bucket)?;
        }
        seq.end()
    }

    pub fn deserialize<'de, D>(deserializer: D) -> Result<Vec<u32>, D::Error>
    where
        D: Deserializer<'de>,
    {
        /// Numbers, or one number.
        #[derive(Deserialize)]
        #[serde(untagged)]
        enum Either {
            List(Vec<u32>),
            One(u32),
        }

        Either::deserialize(deserializer).map(|either| match either {
            Either::List(list) => list,
            Either::One(bucket) => vec![bucket],
        })
    }
}

// ---- deciding

/// Something of which a rule may hold.
pub trait Holds<Of: ?Sized> {
    fn holds(&self, of: &Of, segments: &Segments) -> bool;

    fn never(&self, of: &Of, segments: &Segments) -> bool {
        !self.holds(of, segments)
    }
}

impl Holds<EvaluationContext> for Condition {
    fn holds(&self, of: &EvaluationContext, segments: &Segments) -> bool {
        match self {
            Condition::Always => true,
            Condition::All(parts) => parts.iter().all(|part| part.holds(of, segments)),
            Condition::Any(parts) => parts.iter().any(|part| part.holds(of, segments)),
            Condition::Not(part) => part.never(of, segments),
            Condition::Segment(name) => match (segments.get(name), &of.targeting_key) {
                (Some(keys), Some(key)) => keys.contains(key),
                _ => STATIC_RULES
                    .iter()
                    .any(|rule| rule.name == name && (rule.decides)(of)),
            },
            Condition::Attribute {
                attribute_name,
                operator,
                values,
            } => of
                .attributes
                .get(attribute_name)
                .is_some_and(|found| values.iter().any(|value| compares(*operator, found, value))),
            Condition::Between(from, to) => {
                let now = of.now.map(|now| humantime::format_rfc3339(now).to_string());
                now.is_some_and(|now| *from <= now && now < *to)
            }
        }
    }
}

impl<T, Of> Holds<Of> for Option<T>
where
    T: Holds<Of>,
    Of: ?Sized,
{
    fn holds(&self, of: &Of, segments: &Segments) -> bool {
        self.as_ref()
            .map_or(true, |condition| condition.holds(of, segments))
    }
}

fn compares(operator: Operator, found: &Scalar, value: &Scalar) -> bool {
    match (operator, found, value) {
        (Operator::OneOf, found, value) => found == value,
        (Operator::StartsWith, Scalar::Str(found), Scalar::Str(value)) => {
            found.starts_with(&**value)
        }
        (Operator::LessThan, Scalar::Int(found), Scalar::Int(value)) => found < value,
        (Operator::LessThan, Scalar::Float(found), Scalar::Float(value)) => found < value,
        (Operator::SemVerAtLeast, found, value) => {
            semver::at_least(&found.as_text(), &value.as_text())
        }
        _ => false,
    }
}

fn bucket<H: Hasher + Default>(flag: &FlagKey, by: &impl Hash) -> u32 {
    let mut hasher = BuildHasherDefault::<H>::default().build_hasher_of(SALTS[0]);
    flag.hash(&mut hasher);
    by.hash(&mut hasher);
    (hasher.finish() % u64::from(BUCKETS)) as u32
}

trait HasherOf {
    type Made: Hasher;
    fn build_hasher_of<S: AsRef<str> + ?Sized>(&self, salt: &S) -> Self::Made;
}

impl<H: Hasher + Default> HasherOf for BuildHasherDefault<H> {
    type Made = H;

    fn build_hasher_of<S: AsRef<str> + ?Sized>(&self, salt: &S) -> <Self as HasherOf>::Made {
        let mut hasher = H::default();
        hasher.write(salt.as_ref().as_bytes());
        hasher
    }
}

impl Flag {
    pub fn decide(&self, context: &EvaluationContext, segments: &Segments) -> Decision<'_> {
        let named = |rule: usize, name: &str| {
            self.variations
                .get(name)
                .ok_or_else(|| FlagFault::NoVariation {
                    rule,
                    name: name.to_owned(),
                })
        };
        if self.is_killed {
            return Ok((&Variation::Off, WhyDecided::Killed));
        }
        let found = self
            .targeting_rules
            .iter()
            .enumerate()
            .try_for_each(|(rule, targeting)| {
                if targeting.when.never(context, segments) {
                    return ControlFlow::Continue(());
                }
                match &targeting.then {
                    Outcome::NextRule => ControlFlow::Continue(()),
                    Outcome::FixedVariation(name) => ControlFlow::Break(
                        named(rule, name).map(|found| (found, WhyDecided::TargetingMatch(rule))),
                    ),
                    Outcome::PercentageRollout { weights, .. } => {
                        let bucket = bucket::<FxHasher>(&self.key, &context.targeting_key);
                        let mut below = 0;
                        for weight in weights {
                            below += weight.share;
                            if bucket < below {
                                return ControlFlow::Break(
                                    named(rule, &weight.variation)
                                        .map(|found| (found, WhyDecided::Split { bucket, rule })),
                                );
                            }
                        }
                        ControlFlow::Continue(())
                    }
                }
            });
        match found {
            ControlFlow::Break(decision) => decision,
            ControlFlow::Continue(()) => {
                named(usize::MAX, &self.default_variation).map(|found| (found, WhyDecided::Default))
            }
        }
    }
}

// ---- the service

/// What `flags.toml` and `FLAGS_*` say.
#[derive(Clone, Debug, Deserialize)]
#[serde(default, rename_all = "kebab-case")]
pub struct FlagsConfig {
    pub listen_on: String,
    pub poll_seconds: u32,
    pub environments: BTreeSet<String>,
}

impl Default for FlagsConfig {
    fn default() -> Self {
        Self {
            listen_on: "0.0.0.0:4000".into(),
            poll_seconds: 30,
            environments: BTreeSet::new(),
        }
    }
}

impl FlagsConfig {
    pub fn load() -> Result<Self, Box<figment::Error>> {
        Figment::new()
            .merge(Toml::file("flags.toml"))
            .merge(Env::prefixed("FLAGS_"))
            .extract()
            .map_err(Box::new)
    }
}

#[derive(Clone)]
pub struct FlagService<A = Arc<ArcSwap<FlagSet>>> {
    flags: A,
    changes: tokio::sync::broadcast::Sender<FlagChange>,
}

#[derive(Default)]
pub struct FlagSet {
    flags: BTreeMap<FlagKey, Flag>,
    segments: Segments,
}

/// JSON whose faults are ours.
#[derive(FromRequest)]
#[from_request(via(axum::Json), rejection(FlagFault))]
pub struct Sent<T>(T);

async fn evaluate(
    State(service): State<FlagService>,
    Path(key): Path<FlagKey>,
    Sent(context): Sent<EvaluationContext>,
) -> Result<impl IntoResponse, FlagFault> {
    let set = service.flags.load();
    let flag = set
        .flags
        .get(&key)
        .ok_or_else(|| FlagFault::Unknown(key.clone()))?;
    let (value, reason) = flag.decide(&context, &set.segments)?;
    let mut meta = Map::new();
    if let Some(Owner::Team { name, .. }) = &flag.owner {
        meta.insert(
            "team".into(),
            json!({ "name": name, "size": Number::from(name.len()) }),
        );
    }
    Ok(Json(Evaluation {
        flag_key: key,
        value: value.clone(),
        reason,
        etag: None,
        meta,
    }))
}

async fn listen(
    State(service): State<FlagService>,
    headers: HeaderMap,
) -> Sse<BoxStream<'static, Result<SseEvent, axum::Error>>> {
    let last = headers.get("last-event-id").map(|id| format!("{id:?}"));
    let first = stream::iter(last.map(|id| Ok(SseEvent::default().comment(id))));
    Sse::new(first.chain(changes(&service)).boxed()).keep_alive(KeepAlive::default())
}

fn changes(service: &FlagService) -> impl Stream<Item = Result<SseEvent, axum::Error>> + 'static {
    tokio_stream::wrappers::BroadcastStream::new(service.changes.subscribe())
        .filter_map(|change| async { change.ok() })
        .map(|change| SseEvent::default().json_data(change))
}

pub fn router(service: FlagService) -> Router {
    Router::new()
        .route("/flags/{key}/evaluate", routing::post(evaluate))
        .route("/changes", routing::get(listen))
        .with_state(service)
}

impl Display for FlagKey {
    fn fmt(&self, f: &mut Formatter<'_>) -> std::fmt::Result {
        f.pad(&self.0)
    }
}

/// Flags for tests of other services.
#[cfg(any(test, feature = "fixtures"))]
pub fn fixture() -> Flag {
    serde_json::from_str(
        r###"{"key": "a", "variations": {"on": true, "off": null, "##": "}"},
              "default-variation": "off", "type": "a-b-test", "targeting-rules": [
                {"when": {"not": {"segment": "nobody"}},
                 "then": {"serve": "fixedVariation", "args": "on"}}]}"###,
    )
    .expect("a flag")
}

#[cfg(test)]
#[derive(Debug, Clone, Serialize, Deserialize)]
pub enum OnlyTests {
    Case {
        flag: Flag,
        contexts: Vec<EvaluationContext>,
    },
}

#[cfg(test)]
mod tests {
    use super::*;

    // struct NotHere { #[serde(flatten)] a: u8 }

    #[test]
    fn the_first_rule_that_holds_decides() {
        let flag = fixture();
        let (value, why) = flag
            .decide(&EvaluationContext::default(), &Segments::default())
            .unwrap();
        assert_eq!(
            (value, why),
            (&Variation::Switch(true), WhyDecided::TargetingMatch(0))
        );
    }

    #[test]
    fn buckets_are_below_their_number() {
        for at in 0..1_000_u32 {
            assert!(bucket::<FxHasher>(&FlagKey("a".to_string()), &at) < BUCKETS);
        }
    }
}
