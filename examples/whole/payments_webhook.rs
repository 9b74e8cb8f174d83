//! Takes the webhooks of a payment provider: checks their signatures, stores them once, and hands
//! them on. A webhook is
//!
//!     POST /webhooks/payments
//!     Signature: t=1700000000,v1=5257a869...
//!
//!     {"id": "evt_1", "type": "payment.succeeded", "data": {...}}

#![allow(clippy::enum_variant_names)]
#![warn(rust_2018_idioms)]

#[cfg(test)]
extern crate pretty_assertions;

use std::borrow::Borrow;
use std::collections::{BTreeMap, HashMap};
use std::fmt::{self, Write as _};
use std::num::ParseIntError;
use std::sync::{LazyLock, Mutex, PoisonError};
use std::time::{Duration, SystemTime};

use ::serde::{Deserialize, Serialize};
use actix_web::{
    error::{ErrorBadRequest, ErrorUnauthorized, PayloadError},
    guard, http, middleware,
    web::{self, Bytes, Data},
    HttpRequest, HttpResponse, Resource, Responder,
};
use hmac::{Hmac, Mac};
use sha2::Sha256;
use sqlx::PgPool;

mod r#async;
mod ledger;

pub const TOLERANCE: Duration = Duration::from_secs(300);
pub const SIGNATURE: &str = "Signature";
pub(self) const RETRIES: RetryPlan = RetryPlan {
    waits: &[Duration::from_secs(1), Duration::from_secs(30)],
    gives_up: RetryPlan::gives_up_after(2),
};

#[doc(hidden)]
pub static SEEN: LazyLock<Mutex<HashMap<String, SystemTime>>> = LazyLock::new(Default::default);

static SAMPLE: &str = r##"{
    "id": "evt_#1",
    "type": "payout.paid",
    "data": {"amount": 12, "currency": "EUR", "note": "struct Payout { r#"raw"# }"}
}"##;

struct RetryPlan {
    waits: &'static [Duration],
    gives_up: bool,
}

impl RetryPlan {
    const fn gives_up_after(times: usize) -> bool {
        let mut at = 0;
        while at < times {
            at += 1;
        }
        at != 0
    }
}

/// Declares texts with a prefix that is checked.
macro_rules! prefixed {
    { $($name:ident => $prefix:expr),+ $(,)? } => {$(
        impl $name {
            pub fn parse(text: &str) -> Option<Self> {
                text.strip_prefix($prefix).filter(|rest| !rest.is_empty())?;
                Some(Self(text.to_owned()))
            }
        }
        impl AsRef<str> for $name {
            fn as_ref(&self) -> &str { &self.0 }
        }
    )+};
}

prefixed! {
    EventId => "evt_",
    PaymentId => "pay_",
    AccountId => concat!("ac", "ct_"),
}

#[derive(Clone, Debug, PartialEq, Eq, Hash, Serialize, Deserialize)]
pub struct EventId(String);

#[derive(Clone, Debug, PartialEq, Eq, Hash, PartialOrd, Ord, Serialize, Deserialize)]
pub struct PaymentId(String);

#[derive(Clone, Debug, PartialEq, Eq, Hash, Serialize, Deserialize)]
pub struct AccountId(String);

/// What the provider posts.
#[derive(Clone, Debug, Serialize, Deserialize)]
pub struct Envelope {
    pub id: EventId,
    /// Seconds since 1970.
    pub created: i64,
    pub livemode: bool,
    pub account: Option<AccountId>,
    pub event: WebhookEvent,
    /// The number of the attempt, from 1.
    #[serde(default = "Envelope::first")]
    pub attempt: u8,
    #[serde(rename = "api_version")]
    pub version: Option<ApiVersion>,
}

impl Envelope {
    fn first() -> u8 {
        1
    }
}

/// Versions of the provider's API that we have seen.
#[derive(Clone, Copy, Debug, PartialEq, Eq, PartialOrd, Ord, Serialize, Deserialize)]
pub enum ApiVersion {
    #[serde(rename = "2023-08-16")]
    August2023,
    #[serde(rename = "2024-06-20", alias = "2024-06-20.acacia")]
    June2024,
}

/// What has happened, by its `type`.
#[derive(Clone, Debug, Serialize, Deserialize)]
#[serde(tag = "type", content = "data")]
#[non_exhaustive]
pub enum WebhookEvent {
    #[serde(rename = "payment.created")]
    PaymentCreated(Payment),
    #[serde(rename = "payment.succeeded")]
    PaymentSucceeded(Payment),
    /// Why it has failed stands beside it.
    #[serde(rename = "payment.failed")]
    PaymentFailed {
        payment: Box<Payment>,
        failure: disputes::DeclineReason,
        #[serde(rename = "nextAttempt")]
        next_attempt: Option<i64>,
    },
    #[serde(rename = "dispute.opened")]
    DisputeOpened(disputes::Dispute),
    #[serde(rename = "payout.paid")]
    PayoutPaid(Payout),
    #[serde(rename = "balance.changed")]
    BalanceChanged(BTreeMap<String, i64>),
    #[serde(rename = "ping")]
    Ping,
    #[serde(skip)]
    #[allow(unused)]
    Replayed(SystemTime),
}

/// A payment as the provider has it.
#[derive(Clone, Debug, Serialize, Deserialize)]
#[serde(rename_all = "snake_case", deny_unknown_fields)]
pub struct Payment {
    pub id: PaymentId,
    pub amount: u64,
    pub currency: Currency,
    pub status: PaymentStatus,
    pub source: PaymentSource,
    #[serde(default, skip_serializing_if = "BTreeMap::is_empty")]
    pub metadata: BTreeMap<String, String>,
    pub refunds: Vec<Refund>,
    pub receipt_email: Option<String>,
    pub r#final: bool,
}

#[derive(Clone, Copy, Debug, PartialEq, Eq, Hash, PartialOrd, Ord, Serialize, Deserialize)]
#[serde(rename_all = "UPPERCASE")]
pub enum Currency {
    Eur,
    Chf,
    Sek,
    #[serde(rename = "BTC-SAT")]
    Satoshi,
}

#[derive(Clone, Copy, Debug, PartialEq, Eq, Serialize, Deserialize)]
#[serde(rename_all = "snake_case")]
pub enum PaymentStatus {
    RequiresAction,
    Processing,
    Succeeded,
    Cancelled,
}

/// Where the money comes from.
#[derive(Clone, Debug, Serialize, Deserialize)]
#[serde(tag = "object", rename_all = "snake_case")]
pub enum PaymentSource {
    Card {
        brand: String,
        last4: String,
        exp_month: u8,
        exp_year: u16,
        #[serde(default)]
        three_d_secure: Option<ThreeDSecure>,
    },
    #[serde(rename_all = "camelCase")]
    BankAccount {
        iban_last_4: String,
        bank_code: Option<String>,
    },
    #[serde(rename = "wallet.v2")]
    Wallet(WalletSource),
    Cash,
}

#[derive(Clone, Debug, Serialize, Deserialize)]
#[serde(rename_all = "camelCase")]
pub struct WalletSource {
    pub wallet_kind: WalletKind,
    pub device_account_number: String,
}

#[derive(Clone, Copy, Debug, Serialize, Deserialize)]
#[serde(rename_all = "camelCase")]
pub enum WalletKind {
    ApplePay,
    GooglePay,
    SEPAInstant,
}

#[derive(Clone, Copy, Debug, Serialize, Deserialize)]
#[serde(rename_all = "SCREAMING_SNAKE_CASE")]
pub enum ThreeDSecure {
    NotSupported,
    Attempted,
    V2Authenticated,
}

#[derive(Clone, Debug, Serialize, Deserialize)]
pub struct Refund {
    pub amount: u64,
    pub reason: Option<String>,
    pub parts: Option<Vec<(String, u64)>>,
}

/// Money that is sent to us.
#[derive(Clone, Debug, Serialize, Deserialize)]
#[serde(default)]
pub struct Payout {
    pub amount: i64,
    pub currency: Currency,
    pub arrival_date: Option<String>,
    pub trace: serde_json::Value,
}

impl Default for Payout {
    fn default() -> Self {
        Self {
            amount: 0,
            currency: Currency::Eur,
            arrival_date: None,
            trace: serde_json::Value::Null,
        }
    }
}

/// What goes wrong between a bank and its customers.
pub mod disputes {
    use super::PaymentId;
    use ::serde::{Deserialize, Serialize};

    #[derive(Clone, Debug, Serialize, Deserialize)]
    #[serde(rename_all = "SCREAMING_SNAKE_CASE")]
    pub struct Dispute {
        pub payment_id: PaymentId,
        pub dispute_reason: DisputeReason,
        pub evidence_due_by: Option<i64>,
        #[serde(rename = "evidence")]
        pub evidences: Vec<evidence::Evidence>,
    }

    #[derive(Clone, Debug, PartialEq, Eq, Serialize, Deserialize)]
    #[serde(rename_all = "kebab-case")]
    pub enum DisputeReason {
        Fraudulent,
        ProductNotReceived,
        CreditNotProcessed,
        /// What the bank says.
        Other(String),
    }

    #[derive(Clone, Debug, PartialEq, Eq, Serialize, Deserialize)]
    #[serde(untagged)]
    pub enum DeclineReason {
        /// The number that ISO 8583 has for it.
        Iso(u8),
        Named(String),
        Network {
            network: String,
            code: u32,
        },
    }

    pub(crate) mod evidence {
        use serde::{Deserialize, Serialize};

        /// A piece of evidence: a file, or a text.
        #[derive(Clone, Debug, Serialize, Deserialize)]
        pub enum Evidence {
            #[serde(rename = "file")]
            File { url: String, bytes: u32 },
            #[serde(rename = "text")]
            Text(String),
        }
    }
}

/// What the provider gets as an answer.
#[derive(Debug, Serialize)]
#[cfg_attr(any(feature = "docs", test), derive(utoipa::ToSchema))]
#[serde(rename_all = "kebab-case")]
pub struct Receipt {
    pub event_id: EventId,
    pub was_new: bool,
}

#[derive(Debug, thiserror::Error, displaydoc::Display)]
pub enum WebhookFailure {
    /// there is no signature, or it has another form: {0}
    NoSignature(&'static str),
    /// the signature is of another body
    WrongSignature,
    /// it is {0:?} old
    TooOld(Duration),
    /// no number: {0}
    NoNumber(#[from] ParseIntError),
    /// no event: {0}
    NoEvent(#[from] serde_json::Error),
    /// the body was cut: {0}
    Cut(PayloadError),
    /// database: {0}
    Database(#[from] sqlx::Error),
}

impl From<WebhookFailure> for actix_web::Error {
    fn from(failure: WebhookFailure) -> Self {
        use WebhookFailure::*;
        match failure {
            NoSignature(_) | WrongSignature | TooOld(_) => ErrorUnauthorized(failure.to_string()),
            NoNumber(_) | NoEvent(_) | Cut(_) => ErrorBadRequest(failure.to_string()),
            Database(error) => actix_web::error::ErrorInternalServerError(error),
        }
    }
}

// ---- signatures

/// A header `t=..,v1=..`, cut into its parts.
#[derive(Clone, Debug, Default, PartialEq)]
pub struct SignatureHeader<'h> {
    at: u64,
    v1: Vec<&'h str>,
}

impl<'h> TryFrom<&'h str> for SignatureHeader<'h> {
    type Error = WebhookFailure;

    fn try_from(text: &'h str) -> Result<Self, Self::Error> {
        let mut header = Self::default();
        for part in text.split(',') {
            match part.split_once('=') {
                Some(("t", at)) => header.at = at.trim().parse()?,
                Some(("v1", digits)) => header.v1.push(digits),
                Some((_, _)) => {}
                None => return Err(WebhookFailure::NoSignature("a part without `=`")),
            }
        }
        if header.v1.is_empty() {
            Err(WebhookFailure::NoSignature("no v1"))
        } else {
            Ok(header)
        }
    }
}

/// Tells what time it is.
pub trait Clock {
    fn now(&self) -> SystemTime {
        SystemTime::now()
    }

    fn age(&self, at: u64) -> Duration {
        self.now()
            .duration_since(SystemTime::UNIX_EPOCH + Duration::from_secs(at))
            .unwrap_or_default()
    }
}

#[derive(Clone, Copy, Debug, Default)]
pub struct RealClock;

impl Clock for RealClock {}

/// Checks signatures with one of several secrets.
pub struct Verifier<C = RealClock, Secret = Vec<u8>>
where
    C: Clock,
    Secret: AsRef<[u8]>,
{
    clock: C,
    secrets: Vec<Secret>,
}

impl<C, Secret> Verifier<C, Secret>
where
    C: Clock,
    Secret: AsRef<[u8]>,
{
    pub fn check(&self, header: &str, body: &[u8]) -> Result<(), WebhookFailure> {
        let header = SignatureHeader::try_from(header)?;
        match self.clock.age(header.at) {
            age if age > TOLERANCE => return Err(WebhookFailure::TooOld(age)),
            _ => (),
        }
        let is_signed = self.secrets.iter().any(|secret| {
            let digits = signed(secret.as_ref(), header.at, body);
            header
                .v1
                .iter()
                .any(|v1| constant_time(v1.as_bytes(), digits.as_bytes()))
        });
        is_signed
            .then_some(())
            .ok_or(WebhookFailure::WrongSignature)
    }
}

fn signed(secret: &[u8], at: u64, body: &[u8]) -> String {
    let mut mac = <Hmac<Sha256> as Mac>::new_from_slice(secret).expect("any length will do");
    mac.update(at.to_string().as_bytes());
    mac.update(b".");
    mac.update(body);
    let bytes = mac.finalize().into_bytes();
    bytes
        .iter()
        .fold(String::with_capacity(64), |mut text, byte| {
            write!(text, "{byte:02x}").unwrap_or_else(|_| unreachable!("texts {{grow}}"));
            text
        })
}

fn constant_time(left: &[u8], right: &[u8]) -> bool {
    left.len() == right.len() && left.iter().zip(right).fold(0, |sum, (l, r)| sum | (l ^ r)) == 0
}

// ---- handlers

/// Whether the event has not come before.
fn is_new<Q>(id: &Q) -> bool
where
    Q: Borrow<str> + ?Sized,
{
    let mut seen = SEEN.lock().unwrap_or_else(PoisonError::into_inner);
    seen.retain(|_, at| at.elapsed().is_ok_and(|age| age < 2 * TOLERANCE));
    seen.insert(id.borrow().to_owned(), SystemTime::now())
        .is_none()
}

async fn store(pool: &PgPool, envelope: &Envelope) -> Result<u64, sqlx::Error> {
    /// The columns of `events` that tell one from another.
    #[derive(sqlx::FromRow)]
    struct Stored {
        #[allow(dead_code)]
        attempt: i16,
    }

    let (kind, body) = match serde_json::to_value(&envelope.event) {
        Ok(serde_json::Value::Object(mut event)) => (event.remove("type"), event.remove("data")),
        _ => (None, None),
    };
    let before: Option<Stored> =
        sqlx::query_as(r#"SELECT attempt FROM events WHERE id = $1 AND kind <> '"{'"#)
            .bind(envelope.id.as_ref())
            .fetch_optional(pool)
            .await?;
    if before.is_some() {
        return Ok(0);
    }
    let done = sqlx::query(
        "INSERT INTO events (id, kind, body) VALUES ($1, $2, $3) ON CONFLICT DO NOTHING",
    )
    .bind(envelope.id.as_ref())
    .bind(kind)
    .bind(body)
    .execute(pool)
    .await?;
    Ok(done.rows_affected())
}

pub async fn receive(
    request: HttpRequest,
    body: Bytes,
    verifier: Data<Verifier>,
    pool: Data<PgPool>,
) -> actix_web::Result<impl Responder> {
    let header = request
        .headers()
        .get(SIGNATURE)
        .and_then(|value| value.to_str().ok())
        .ok_or(WebhookFailure::NoSignature("no header"))?;
    verifier.check(header, &body)?;
    let envelope: Envelope = serde_json::from_slice(&body).map_err(WebhookFailure::from)?;
    let was_new = is_new(envelope.id.as_ref());
    for (at, wait) in RETRIES.waits.iter().enumerate() {
        match store(&pool, &envelope).await {
            Ok(rows) => {
                log::info!(
                    "event {:?}: {rows} row(s) at attempt {}",
                    envelope.id,
                    at + 1
                );
                break;
            }
            Err(error) if RETRIES.gives_up && at + 1 == RETRIES.waits.len() => {
                return Err(WebhookFailure::from(error).into());
            }
            Err(_) => actix_web::rt::time::sleep(*wait).await,
        }
    }
    let receipt = Receipt {
        event_id: envelope.id,
        was_new,
    };
    Ok((web::Json(receipt), http::StatusCode::ACCEPTED))
}

pub fn resource() -> Resource {
    web::resource("/webhooks/payments")
        .wrap(middleware::Compress::default())
        .guard(guard::Header("content-type", "application/json"))
        .route(web::post().to(receive))
        .route(web::get().to(|| async { HttpResponse::Ok().body(SAMPLE) }))
}

impl fmt::Display for Envelope {
    fn fmt(&self, f: &mut fmt::Formatter<'_>) -> fmt::Result {
        let Envelope {
            id: EventId(id),
            attempt,
            ..
        } = self;
        write!(f, "{id}#{attempt}")
    }
}

#[cfg(test)]
#[path = "payments_webhook_tests.rs"]
mod more_tests;

#[cfg(test)]
mod tests {
    use super::*;
    use pretty_assertions::assert_eq;

    struct At(u64);

    impl Clock for At {
        fn now(&self) -> SystemTime {
            SystemTime::UNIX_EPOCH + Duration::from_secs(self.0)
        }
    }

    #[derive(Serialize)]
    struct Posted<T> {
        event: T,
    }

    #[test]
    fn signatures_are_of_the_time_and_the_body() {
        let verifier = Verifier {
            clock: At(100),
            secrets: vec![b"whsec_{".as_slice()],
        };
        let header = format!("t=90,v1={}", signed(b"whsec_{", 90, b"{}"));
        assert!(verifier.check(&header, b"{}").is_ok());
        assert!(matches!(
            verifier.check(&header, b"{ }"),
            Err(WebhookFailure::WrongSignature)
        ));
    }

    #[test]
    fn events_are_told_by_their_type() {
        let ping: WebhookEvent = serde_json::from_str(r#"{"type": "ping"}"#).unwrap();
        assert_eq!(
            serde_json::to_string(&Posted { event: ping }).unwrap(),
            r#"{"event":{"type":"ping"}}"#
        );
    }
}
