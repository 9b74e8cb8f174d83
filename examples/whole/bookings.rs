#![allow(dead_code, clippy::too_many_arguments)]
#![warn(missing_docs)]
/*! Bookings of rooms in hotels.

A room is *held* for some minutes, then *confirmed*, and at last *checked in*. What a client sends
to `POST /bookings` is a [`BookingRequest`]; `{` and `}` are balanced in all of it.
*/

use actix_web::{
    delete, get,
    http::{header::ContentType, StatusCode},
    patch, post, web, HttpRequest, HttpResponse, Responder, ResponseError,
};
use chrono::{DateTime, Duration, NaiveDate, Utc};
use derive_more::{Deref, From, Into};
use once_cell::sync::Lazy;
use parking_lot::Mutex;
use serde::{Deserialize, Serialize};
use sqlx::mysql::MySqlPool;
use std::{
    borrow::Cow,
    collections::{btree_map::Entry, BTreeMap, BTreeSet, HashMap},
    fmt,
    rc::Rc,
};

pub use self::model::*;

mod calendar;
pub(crate) mod mails;

/// How long a room is held for a guest who has not paid.
pub const HOLD: Duration = Duration::minutes(15);

/// Nights in one booking.
pub const NIGHTS: std::ops::RangeInclusive<u16> = 1..=28;

const DEFAULT_POLICY: HousePolicy = HousePolicy {
    is_pet_friendly: false,
    latest_check_in: ClockTime {
        hour: 22,
        minute: 0,
    },
    fee: if cfg!(feature = "free-cancel") {
        0
    } else {
        2_500
    },
};

static HOLDS: Lazy<Mutex<BTreeMap<RoomNumber, Hold>>> = Lazy::new(|| Mutex::new(BTreeMap::new()));

/// What handlers end with.
pub type Answer<T = HttpResponse> = Result<T, BookingFailure>;

/// What the service reads and writes.
pub mod model {
    use super::*;

    /// A number of a room, such as `"2-114"`.
    #[derive(
        Clone, Debug, PartialEq, Eq, PartialOrd, Ord, Hash, Serialize, Deserialize, From, Into,
    )]
    pub struct RoomNumber(pub String);

    /// A number of a booking.
    #[derive(Clone, Copy, Debug, PartialEq, Eq, Hash, Serialize, Deserialize)]
    pub struct BookingId(pub u64);

    /// A day, as `2027-03-01`.
    #[derive(Clone, Debug, PartialEq, Eq, PartialOrd, Ord, Serialize, Deserialize, Deref)]
    pub struct Day(String);

    /// An hour and a minute.
    #[derive(Clone, Copy, Debug, PartialEq, Eq, PartialOrd, Ord, Serialize, Deserialize)]
    pub struct ClockTime {
        /// 0 to 23.
        pub hour: u8,
        /// 0 to 59.
        #[serde(default)]
        pub minute: u8,
    }

    /// What a house asks of its guests.
    #[derive(Clone, Copy, Debug, PartialEq, Eq, Serialize, Deserialize)]
    #[serde(rename_all = "kebab-case")]
    pub struct HousePolicy {
        pub is_pet_friendly: bool,
        pub latest_check_in: ClockTime,
        /// What cancelling costs, in cents.
        #[serde(rename = "cancellation-fee", default)]
        pub fee: u32,
    }

    pub mod guests {
        //! Guests and their documents.

        use serde::{Deserialize, Serialize};

        /// Who stays in a room.
        #[derive(Clone, Debug, Serialize, Deserialize)]
        #[serde(rename_all = "kebab-case")]
        pub struct Guest {
            pub full_name: String,
            #[serde(skip_serializing_if = "Option::is_none", default)]
            pub phone_number: Option<String>,
            #[serde(default)]
            pub age_group: AgeGroup,
            pub identity: Option<Identity>,
        }

        #[derive(
            Clone,
            Copy,
            Debug,
            Default,
            PartialEq,
            Eq,
            Hash,
            PartialOrd,
            Ord,
            Serialize,
            Deserialize,
        )]
        #[serde(rename_all = "kebab-case")]
        pub enum AgeGroup {
            #[default]
            Adult,
            SchoolChild,
            UnderThree,
        }

        /// How somebody has shown who they are.
        #[derive(Clone, Debug, Serialize, Deserialize)]
        #[serde(tag = "kind", content = "document", rename_all = "kebab-case")]
        pub enum Identity {
            /// Its number and the country that gave it.
            Passport(String, String),
            IdCard {
                number: String,
                #[serde(rename = "valid-until")]
                valid: super::Day,
            },
            #[serde(rename = "licence")]
            DrivingLicence(String),
            KnownGuest,
        }

        pub(super) mod loyalty {
            /// What returning guests have.
            #[derive(Clone, Debug, PartialEq, serde::Serialize, serde::Deserialize)]
            #[serde(rename_all = "SCREAMING_SNAKE_CASE", tag = "level")]
            pub enum Loyalty {
                NotYet,
                Bronze { points: u32 },
                SilverPlus { points: u32, nights: u16 },
                Gold(GoldCard),
            }

            #[derive(Clone, Debug, PartialEq, serde::Serialize, serde::Deserialize)]
            pub struct GoldCard {
                pub number: String,
                pub points: u32,
                #[serde(default)]
                pub partner: Option<std::string::String>,
            }
        }
    }

    /// A room and what it has.
    #[derive(Clone, Debug, Serialize, Deserialize)]
    #[serde(rename_all = "kebab-case")]
    #[cfg_attr(feature = "docs", derive(utoipa::ToSchema))]
    pub struct Room {
        pub number: RoomNumber,
        pub r#type: RoomType,
        pub bed_count: u8,
        /// Where the room is on the plan of its floor: x and y, in metres.
        pub plan_position: (f32, f32),
        #[serde(default)]
        pub amenities: BTreeSet<Amenity>,
        /// Cents by night, by the name of the season.
        pub rates: BTreeMap<String, u32>,
        #[cfg_attr(feature = "docs", schema(example = json!({"smoking": false})))]
        #[serde(default)]
        pub extras: serde_json::Value,
    }

    #[derive(Clone, Copy, Debug, PartialEq, Eq, Serialize, Deserialize, sqlx::Type)]
    #[serde(rename_all = "PascalCase")]
    #[sqlx(rename_all = "snake_case")]
    pub enum RoomType {
        SingleRoom,
        DoubleRoom,
        /// Two rooms and a kitchen.
        FamilySuite,
        #[serde(skip_deserializing)]
        ClosedForGood,
    }

    #[derive(Clone, Copy, Debug, PartialEq, Eq, PartialOrd, Ord, Hash, Serialize, Deserialize)]
    #[serde(rename_all = "SCREAMING-KEBAB-CASE")]
    pub enum Amenity {
        SeaView,
        Balcony,
        AirConditioning,
        WiFi6,
    }

    /// What a client asks for.
    #[derive(Clone, Debug, Deserialize)]
    #[serde(rename_all = "kebab-case", deny_unknown_fields)]
    pub struct BookingRequest {
        pub rooms: Vec<RoomChoice>,
        pub arrival_day: Day,
        pub departure_day: Day,
        pub guests: Vec<guests::Guest>,
        #[serde(default)]
        pub arrives_at: Option<ClockTime>,
        #[serde(default, with = "trimmed")]
        pub special_wishes: Cow<'static, str>,
    }

    /// A number, or what the room shall have.
    #[derive(Clone, Debug, Deserialize, Serialize)]
    #[serde(untagged)]
    pub enum RoomChoice {
        /// Just this one.
        ByNumber(RoomNumber),
        ByWish {
            r#type: Option<RoomType>,
            #[serde(default)]
            amenities: Vec<Amenity>,
        },
        /// Beds, from and to.
        ByBeds(u8, u8),
    }

    /// A booking as clients see it.
    #[derive(Clone, Debug, Serialize, Deserialize)]
    #[serde(rename_all = "kebab-case")]
    pub struct Booking {
        pub id: BookingId,
        pub state: BookingState,
        pub rooms: Vec<Room>,
        pub lead_guest: guests::Guest,
        #[serde(skip_serializing_if = "Vec::is_empty", default)]
        pub other_guests: Vec<guests::Guest>,
        pub loyalty: guests::loyalty::Loyalty,
        pub policy: HousePolicy,
        pub price_by_group: HashMap<guests::AgeGroup, u32>,
        /// What has changed, newest first.
        pub history: Rc<[Change]>,
        #[serde(skip)]
        pub row_version: i64,
    }

    /// A change of a booking.
    #[derive(Clone, Debug, Serialize, Deserialize)]
    pub struct Change(pub BookingState, pub String, pub Option<String>);

    /// Where a booking stands.
    #[derive(Clone, Debug, PartialEq, Eq, Serialize, Deserialize)]
    #[serde(rename_all = "kebab-case")]
    pub enum BookingState {
        #[serde(rename_all = "kebab-case")]
        OnHold {
            until_minute: u32,
        },
        Confirmed,
        CheckedIn(Vec<RoomNumber>),
        CheckedOut,
        NoShow,
        #[serde(rename = "cancelled")]
        CalledOff {
            #[serde(rename = "by")]
            by_whom: String,
            fee: Option<u32>,
        },
    }
}

/// A room that is held. No client sees it.
#[derive(Debug)]
struct Hold {
    by: BookingId,
    until: DateTime<Utc>,
    days: std::ops::Range<NaiveDate>,
}

/// What goes wrong with bookings.
#[derive(Debug, thiserror::Error)]
#[non_exhaustive]
pub enum BookingFailure {
    /// There is none with this number.
    #[error("no booking {}", .0 .0)]
    Unknown(BookingId),
    /// Another guest has it.
    #[error("room {room} is taken until {until}")]
    Taken { room: String, until: DateTime<Utc> },
    /// The database has failed.
    #[error("database: {0}")]
    Store(#[from] sqlx::Error),
    /// What was sent is none.
    #[error("malformed: {source} (in `{{{field}}}`)")]
    Malformed {
        field: &'static str,
        #[source]
        source: Box<dyn std::error::Error + Send + Sync>,
    },
}

impl ResponseError for BookingFailure {
    fn status_code(&self) -> StatusCode {
        match *self {
            BookingFailure::Unknown(..) => StatusCode::NOT_FOUND,
            BookingFailure::Taken { .. } => StatusCode::CONFLICT,
            BookingFailure::Malformed { .. } => StatusCode::BAD_REQUEST,
            BookingFailure::Store(_) => StatusCode::INTERNAL_SERVER_ERROR,
        }
    }

    fn error_response(&self) -> HttpResponse {
        /// Made here, and nowhere else.
        #[derive(Serialize)]
        #[serde(rename_all = "camelCase")]
        struct Body<'a> {
            error_kind: &'a str,
            error_text: String,
        }

        HttpResponse::build(self.status_code()).json(Body {
            error_kind: match self {
                Self::Unknown(_) => "unknown",
                Self::Taken { .. } => "taken",
                _ => "other",
            },
            error_text: self.to_string(),
        })
    }
}

/// Something with days, of which some are free.
pub trait Bookable {
    /// What tells one from another.
    type Key: Ord + Clone;

    /// Its key.
    fn key(&self) -> Self::Key;

    /// Whether it is free on all of the days.
    fn is_free<D>(&self, days: D) -> bool
    where
        D: IntoIterator,
        D::Item: AsRef<str>;

    /// The free ones of several.
    fn free_ones<'a, T: AsRef<str>>(several: &'a [Self], days: &[T]) -> Vec<&'a Self>
    where
        Self: Sized,
    {
        several
            .iter()
            .filter(|one| one.is_free(days.iter()))
            .collect()
    }
}

impl Bookable for Room {
    type Key = RoomNumber;

    fn key(&self) -> RoomNumber {
        self.number.clone()
    }

    fn is_free<D>(&self, days: D) -> bool
    where
        D: IntoIterator,
        <D as IntoIterator>::Item: AsRef<str>,
    {
        let holds = HOLDS.lock();
        match holds.get(&self.number) {
            None => true,
            Some(hold) => !days
                .into_iter()
                .filter_map(|day| day.as_ref().parse::<NaiveDate>().ok())
                .any(|day| hold.days.contains(&day) && hold.until > Utc::now()),
        }
    }
}

/// A calendar of anything that can be booked.
#[derive(Debug, Default)]
pub struct Calendar<B>
where
    B: Bookable,
{
    entries: BTreeMap<B::Key, Vec<B>>,
}

impl<B> Calendar<B>
where
    B: Bookable + fmt::Debug,
    B::Key: fmt::Display,
{
    /// Adds one, and says how many there are under its key.
    pub fn add(&mut self, one: B) -> usize {
        match self.entries.entry(one.key()) {
            Entry::Vacant(place) => place.insert(vec![one]).len(),
            Entry::Occupied(mut place) => {
                place.get_mut().push(one);
                place.get().len()
            }
        }
    }
}

impl<B: Bookable> FromIterator<B> for Calendar<B> {
    fn from_iter<I: IntoIterator<Item = B>>(iter: I) -> Self {
        let mut entries: BTreeMap<<B as Bookable>::Key, Vec<B>> = BTreeMap::new();
        for one in iter {
            entries.entry(one.key()).or_default().push(one);
        }
        Self { entries }
    }
}

/// Builds bookings, piece by piece.
#[derive(Default)]
pub struct BookingDraft {
    rooms: Vec<Room>,
    guests: Vec<guests::Guest>,
    policy: Option<HousePolicy>,
}

macro_rules! setters {
    ($($(#[$meta:meta])* $name:ident: $ty:ty),* $(,)?) => {
        $(
            $(#[$meta])*
            pub fn $name(mut self, $name: $ty) -> Self {
                self.$name = $name.into();
                self
            }
        )*
    };
}

#[rustfmt::skip]
impl BookingDraft {
    setters! {
        /// The rooms.
        rooms: Vec<Room>,
        /// Who stays in them; the first one pays.
        guests: Vec<guests::Guest>,
        /// What the house asks.
        policy: HousePolicy,
    }

    /// Makes it, if there is a guest.
    pub fn finish(self, id: BookingId) -> Option<Booking> {
        let mut guests = self.guests.into_iter();
        Some(Booking {
            id,
            state: BookingState::OnHold { until_minute: HOLD.num_minutes() as u32 },
            rooms: self.rooms,
            lead_guest: guests.next()?,
            other_guests: guests.collect(),
            loyalty: guests::loyalty::Loyalty::NotYet,
            policy: self.policy.unwrap_or(DEFAULT_POLICY),
            price_by_group: HashMap::new(),
            history: Rc::new([]),
            row_version: 0,
        })
    }
}

mod trimmed {
    use serde::{Deserialize as _, Deserializer};
    use std::borrow::Cow;

    pub fn deserialize<'de, D: Deserializer<'de>>(
        deserializer: D,
    ) -> Result<Cow<'static, str>, D::Error> {
        String::deserialize(deserializer).map(|text| Cow::Owned(text.trim().to_owned()))
    }
}

/// The rooms of the house.
#[get("/rooms/{number:[0-9]+-[0-9]{3}}")]
async fn room(pool: web::Data<MySqlPool>, number: web::Path<RoomNumber>) -> Answer<impl Responder> {
    let body: Option<(sqlx::types::Json<Room>,)> =
        sqlx::query_as("SELECT body FROM rooms WHERE number = ? -- }")
            .bind(&number.0)
            .fetch_optional(pool.get_ref())
            .await?;
    Ok(match body {
        Some((room,)) => HttpResponse::Ok().json(room.0),
        None => HttpResponse::NotFound().finish(),
    })
}

#[post("/bookings")]
async fn book(
    request: HttpRequest,
    pool: web::Data<MySqlPool>,
    web::Json(wanted): web::Json<BookingRequest>,
) -> Answer {
    if request
        .headers()
        .get("X-Dry-Run")
        .is_some_and(|value| value == "1")
    {
        return Ok(HttpResponse::Accepted()
            .content_type(ContentType::json())
            .body(r#"{"dry":"}"}"#));
    }
    let mut tx = pool.begin().await?;
    for choice in &wanted.rooms {
        match choice {
            RoomChoice::ByNumber(number) => hold(number, &wanted)?,
            RoomChoice::ByWish { r#type, amenities } if amenities.is_empty() => {
                tracing::warn!(?r#type, "any room will do");
            }
            RoomChoice::ByWish { .. } | RoomChoice::ByBeds(0..=1, _) => {}
            RoomChoice::ByBeds(from, to) => tracing::info!("{from}..={to} beds"),
        }
    }
    let done = sqlx::query!(
        r"INSERT INTO bookings (arrival, departure) VALUES (?, ?) /* { */",
        wanted.arrival_day.as_str(),
        wanted.departure_day.as_str(),
    )
    .execute(&mut *tx)
    .await?;
    tx.commit().await?;
    Ok(HttpResponse::Created().json(BookingId(done.last_insert_id())))
}

fn hold(number: &RoomNumber, wanted: &BookingRequest) -> Result<(), BookingFailure> {
    fn parsed(day: &Day, field: &'static str) -> Answer<NaiveDate> {
        day.parse().map_err(|error| BookingFailure::Malformed {
            field,
            source: Box::new(error),
        })
    }

    let days = parsed(&wanted.arrival_day, "arrival-day")?
        ..parsed(&wanted.departure_day, "departure-day")?;
    let mut holds = HOLDS.lock();
    if let Some(held) = holds.get(number).filter(|held| held.until > Utc::now()) {
        return Err(BookingFailure::Taken {
            room: number.0.clone(),
            until: held.until,
        });
    }
    holds.insert(
        number.clone(),
        Hold {
            by: BookingId(0),
            until: Utc::now() + HOLD,
            days,
        },
    );
    Ok(())
}

#[patch("/bookings/{id}")]
async fn change(path: web::Path<u64>, body: web::Json<BookingState>) -> impl Responder {
    let (id, state) = (BookingId(path.into_inner()), body.into_inner());
    (
        web::Json(Change(state, format!("booking {} was changed", id.0), None)),
        StatusCode::OK,
    )
}

#[delete("/bookings/{id}")]
async fn call_off(path: web::Path<u64>) -> Answer<impl Responder> {
    Err::<HttpResponse, _>(BookingFailure::Unknown(BookingId(*path)))
}

pub fn routes(config: &mut web::ServiceConfig) {
    config
        .service(room)
        .service(book)
        .service(change)
        .service(call_off);
}

#[cfg(test)]
mod tests {
    use super::guests::{AgeGroup, Guest};
    use super::*;

    // #[derive(Serialize)] struct Left { out: u8 }

    fn guest(name: &str) -> Guest {
        Guest {
            full_name: name.to_owned(),
            phone_number: None,
            age_group: AgeGroup::Adult,
            identity: None,
        }
    }

    #[derive(serde::Serialize)]
    struct Sent<'a> {
        #[serde(rename = "arrival-day")]
        arrival: &'a str,
    }

    #[test]
    fn a_draft_without_guests_is_none() {
        assert!(BookingDraft::default().finish(BookingId(1)).is_none());
        let made = BookingDraft::default()
            .guests(vec![guest("Ada"), guest("Grace")])
            .finish(BookingId(2))
            .unwrap();
        assert_eq!(made.other_guests.len(), 1);
    }

    #[test]
    fn states_are_told_by_their_names() {
        let text = r##"{"cancelled": {"by": "guest #"4"", "fee": null}}"##.replace("\"4\"", "4");
        let state: BookingState = serde_json::from_str(&text).unwrap();
        assert!(
            matches!(state, BookingState::CalledOff { fee: None, .. }),
            "{state:?} }}"
        );
    }
}
