// Copyright 2024 the maintainers.
// Licensed under the MIT licence <LICENSE or https://opensource.org/licenses/MIT>.

//! Stock of several warehouses, with an import from the ERP system, which names members as `ItemNo`.

#![allow(non_snake_case)]
#![forbid(unsafe_op_in_unsafe_fn)]

use std::{
    collections::{BTreeMap, BTreeSet, HashMap, LinkedList},
    convert::TryFrom,
    error::Error as StdError,
    io::{self, BufRead, Write},
    marker::PhantomData,
    path::{Path, PathBuf},
    str::FromStr,
};

use actix_web::{web, App, HttpResponse, HttpServer, Responder};
use anyhow::{bail, ensure, Context as _};
use bitflags::bitflags;
use indexmap::IndexMap;
use lazy_static::lazy_static;
use serde::{Deserialize, Serialize};
use smallvec::SmallVec;
use sqlx::{sqlite::SqliteRow, FromRow, Row, SqlitePool};

bitflags! {
    /// What somebody may do with stock. The struct in here is made by the macro.
    #[derive(Clone, Copy, Debug, PartialEq, Eq, Serialize, Deserialize)]
    pub struct Rights: u32 {
        const READ = 0b0001;
        const MOVE = 0b0010;
        const COUNT = 0b0100;
        const ALL = Self::READ.bits() | Self::MOVE.bits() | Self::COUNT.bits();
    }
}

lazy_static! {
    static ref UNITS: HashMap<&'static str, Unit> = {
        let mut units = HashMap::new();
        units.insert("pcs", Unit::Piece);
        units.insert("kg", Unit::KiloGram);
        units
    };
    static ref IMPORT_DIR: PathBuf =
        std::env::var_os("IMPORT_DIR").map_or("/srv/import".into(), Into::into);
}

/// Locations that each warehouse has.
static FIXED_LOCATIONS: [FixedLocation; 2] = [
    FixedLocation {
        code: "IN",
        is_counted: false,
    },
    FixedLocation {
        code: "OUT",
        is_counted: { !cfg!(debug_assertions) },
    },
];

const MAGIC: &[u8; 4] = b"\x7FIN{";
const QUOTE: char = '"';
const SEPARATORS: [char; 4] = [';', ',', '\t', '\''];
const BRACES: (u8, u8, u8) = (b'{', b'}', b'\'');

struct FixedLocation {
    code: &'static str,
    is_counted: bool,
}

/// The number of an item.
#[derive(Clone, Debug, PartialEq, Eq, PartialOrd, Ord, Hash, Serialize, Deserialize)]
pub struct Sku(String);

/// A code as `AISLE-RACK-SHELF`.
#[derive(Clone, Debug, PartialEq, Eq, PartialOrd, Ord, Hash, Serialize, Deserialize)]
pub struct LocationCode(pub(crate) String);

impl FromStr for LocationCode {
    type Err = InventoryError;

    fn from_str(text: &str) -> Result<Self, Self::Err> {
        let parts: SmallVec<[&str; 3]> = text.split('-').collect();
        match parts.as_slice() {
            [aisle, rack, shelf] if [aisle, rack, shelf].iter().all(|part| !part.is_empty()) => {
                Ok(Self(text.to_ascii_uppercase()))
            }
            _ => Err(InventoryError::BadLocation(text.to_owned())),
        }
    }
}

#[derive(Clone, Copy, Debug, PartialEq, Eq, Hash, PartialOrd, Ord, Serialize, Deserialize)]
#[serde(rename_all = "snake_case")]
pub enum Unit {
    Piece,
    KiloGram,
    RunningMetre,
    #[serde(rename = "m3")]
    CubicMetre,
}

/// An item and what we know of it.
#[derive(Clone, Debug, Serialize, Deserialize)]
#[serde(rename_all = "snake_case")]
pub struct Item {
    pub sku: Sku,
    pub title: String,
    pub unit: Unit,
    pub dimensions: Dimensions,
    /// Suppliers in the order in which they are asked.
    pub suppliers: LinkedList<Supplier>,
    #[serde(default)]
    pub barcodes: SmallVec<[String; 2]>,
    pub properties: IndexMap<String, PropertyValue>,
    #[serde(default, skip_serializing_if = "BTreeSet::is_empty")]
    pub hazards: BTreeSet<u16>,
    pub replaced_by: Option<Box<Item>>,
}

/// Millimetres and grams.
#[derive(Clone, Copy, Debug, Default, PartialEq, Eq, Serialize, Deserialize)]
#[serde(deny_unknown_fields)]
pub struct Dimensions {
    pub width: u32,
    pub height: u32,
    pub depth: u32,
    #[serde(default)]
    pub weight: Option<u64>,
}

impl Dimensions {
    pub const fn volume(&self) -> u128 {
        self.width as u128 * self.height as u128 * self.depth as u128
    }
}

/// The value of a property, of any type.
#[derive(Clone, Debug, PartialEq, Serialize, Deserialize)]
#[serde(untagged)]
pub enum PropertyValue {
    Missing,
    Flag(bool),
    Whole(i64),
    Real(f64),
    Text(String),
    Several(Vec<PropertyValue>),
    Measured { value: f64, unit: Unit },
}

#[derive(Clone, Debug, Serialize, Deserialize)]
pub struct Supplier {
    pub name: String,
    /// Days.
    #[serde(rename = "leadTime", default = "Supplier::usual_lead_time")]
    pub lead_time: u8,
    pub minimum_order: u32,
}

impl Supplier {
    fn usual_lead_time() -> u8 {
        14
    }
}

pub mod stock {
    use super::{BTreeMap, Deserialize, LocationCode, Serialize, Sku};

    /// What lies where.
    #[derive(Clone, Debug, Default, Serialize, Deserialize)]
    pub struct StockLevel {
        pub on_hand: i64,
        #[serde(default)]
        pub reserved: i64,
        /// By location.
        pub locations: BTreeMap<String, i64>,
        pub counted_on: Option<String>,
    }

    pub mod movements {
        use super::*;

        /// A movement of stock, told by its `movement`.
        #[derive(Clone, Debug, Serialize, Deserialize)]
        #[serde(tag = "movement", rename_all = "PascalCase")]
        pub enum Movement {
            Receipt {
                sku: Sku,
                quantity: u32,
                to: LocationCode,
                #[serde(rename = "purchaseOrder")]
                order: Option<String>,
            },
            #[serde(rename_all = "PascalCase")]
            Transfer {
                item_sku: Sku,
                quantity: u32,
                from_location: LocationCode,
                to_location: LocationCode,
            },
            Count(CountSheet),
            WriteOff {
                sku: Sku,
                quantity: u32,
                reason: Reason,
            },
            /// Nothing moves; keeps a connection open.
            NoOp,
        }

        #[derive(Clone, Debug, Serialize, Deserialize)]
        pub struct CountSheet {
            pub counter: String,
            pub lines: Vec<(Sku, LocationCode, u32)>,
        }

        #[derive(Clone, Debug, PartialEq, Eq, Serialize, Deserialize)]
        #[serde(rename_all = "UPPERCASE")]
        pub enum Reason {
            Broken,
            BestBefore,
            Stolen,
            Other(String),
        }

        impl Movement {
            /// Whether there is more stock behind it.
            pub fn adds(&self) -> bool {
                matches!(self, Self::Receipt { .. })
            }
        }
    }
}

/// A line of the ERP system's export.
#[derive(Clone, Debug, Deserialize)]
#[serde(rename_all = "PascalCase", deny_unknown_fields)]
pub struct ErpLine {
    pub item_no: String,
    pub item_description_2: Option<String>,
    pub base_unit_of_measure: String,
    #[serde(rename = "Qty")]
    pub quantity: i128,
    #[serde(default, skip)]
    pub line_number: usize,
    pub blocked: bool,
}

/// Its header. All is in upper case there.
#[derive(Clone, Debug, Deserialize, Serialize)]
#[serde(rename_all = "UPPERCASE")]
pub struct ErpHeader {
    pub company: String,
    pub export_date: String,
    pub line_count: u64,
    pub r#final: bool,
}

/// A report of an import: errors by line.
#[derive(
    Clone,
    Debug,
    Default,
    // (schemas of reports are for the backoffice)
    Serialize,
)]
#[cfg_attr(feature = "docs", derive(utoipa::ToSchema))]
#[serde(rename_all = "SCREAMING_SNAKE_CASE")]
pub struct ImportReport {
    pub lines_read: u64,
    pub lines_taken: u64,
    /// The number of the line, and what was wrong with it.
    pub problems: Vec<(u64, String)>,
    pub header: Option<ErpHeader>,
}

#[derive(Debug, thiserror::Error)]
pub enum InventoryError {
    #[error("`{0}` is no location")]
    BadLocation(String),
    #[error("only {have} of {sku:?} are there, not {wanted}", sku = .sku.0)]
    TooFew { sku: Sku, have: i64, wanted: u32 },
    #[error(transparent)]
    Other(#[from] anyhow::Error),
}

impl actix_web::ResponseError for InventoryError {}

/// A row of `stock`; JSON never has it.
#[derive(Debug, Clone)]
pub struct StockRow {
    sku: String,
    location: String,
    on_hand: i64,
}

impl<'r> FromRow<'r, SqliteRow> for StockRow {
    fn from_row(row: &'r SqliteRow) -> Result<Self, sqlx::Error> {
        Ok(Self {
            sku: row.try_get("sku")?,
            location: row.try_get("location")?,
            on_hand: row
                .try_get::<Option<i64>, _>("on_hand")?
                .unwrap_or_default(),
        })
    }
}

/// Where stock is kept, for a kind of key.
pub trait StockStore<K: ?Sized = Sku>: Send + Sync {
    fn on_hand(&self, key: &K) -> Result<i64, InventoryError>;

    fn book(&mut self, key: &K, delta: i64) -> Result<i64, InventoryError>;

    /// Takes as many as wanted.
    fn take(&mut self, key: &K, wanted: u32) -> Result<i64, InventoryError>
    where
        K: AsRef<Sku>,
    {
        match self.on_hand(key)? {
            have if have < i64::from(wanted) => Err(InventoryError::TooFew {
                sku: key.as_ref().clone(),
                have,
                wanted,
            }),
            _ => self.book(key, -i64::from(wanted)),
        }
    }
}

/// A store in memory.
pub struct InMemory<K, S = std::collections::hash_map::RandomState> {
    levels: HashMap<K, i64, S>,
    _is_send: PhantomData<fn() -> S>,
}

impl<K, S> StockStore<K> for InMemory<K, S>
where
    K: std::hash::Hash + Eq + Clone + Send + Sync,
    S: std::hash::BuildHasher + Send + Sync,
    for<'a> &'a K: Into<String>,
{
    fn on_hand(&self, key: &K) -> Result<i64, InventoryError> {
        Ok(self.levels.get(key).copied().unwrap_or(0))
    }

    fn book(&mut self, key: &K, delta: i64) -> Result<i64, InventoryError> {
        let level = self.levels.entry(key.clone()).or_insert(0);
        *level = level
            .checked_add(delta)
            .with_context(|| format!("{} {{+{delta}}}", <&K as Into<String>>::into(key)))?;
        Ok(*level)
    }
}

/// Reads an export. A line is a JSON object, and the first one is the header.
pub fn import<R>(source: R, mut log: impl Write) -> anyhow::Result<ImportReport>
where
    R: BufRead,
{
    #[derive(Debug)]
    enum Expects {
        Header,
        Lines { most: u64 },
        Nothing,
    }

    let mut report = ImportReport::default();
    let mut expects = Expects::Header;
    for (at, line) in source.lines().enumerate() {
        let line = line.with_context(|| format!("line {}", at + 1))?;
        let text = line.trim_matches(&SEPARATORS[..]).trim_start_matches(QUOTE);
        if text.is_empty() || text.as_bytes().starts_with(MAGIC) {
            continue;
        }
        expects = match expects {
            Expects::Header => {
                let header: ErpHeader = serde_json::from_str(text)?;
                let most = header.line_count;
                report.header = Some(header);
                Expects::Lines { most }
            }
            Expects::Lines { most } => {
                report.lines_read += 1;
                match serde_json::from_str::<ErpLine>(text)
                    .map_err(anyhow::Error::from)
                    .and_then(Item::try_from)
                {
                    Ok(item) => {
                        report.lines_taken += 1;
                        writeln!(log, "taken: {:>12}", item.sku.0)?;
                    }
                    Err(problem) => report.problems.push((at as u64 + 1, problem.to_string())),
                }
                if report.lines_read < most {
                    Expects::Lines { most }
                } else {
                    Expects::Nothing
                }
            }
            Expects::Nothing => bail!("line {} stands behind the last", at + 1),
        };
    }
    ensure!(
        !matches!(expects, Expects::Header),
        "there is no header: {:?}",
        BRACES
    );
    Ok(report)
}

impl TryFrom<ErpLine> for Item {
    type Error = anyhow::Error;

    fn try_from(line: ErpLine) -> Result<Self, Self::Error> {
        let unit = *UNITS
            .get(line.base_unit_of_measure.to_lowercase().as_str())
            .context("an unknown unit")?;
        Ok(Self {
            sku: Sku(line.item_no),
            title: line.item_description_2.unwrap_or_default(),
            unit,
            dimensions: Dimensions::default(),
            suppliers: LinkedList::new(),
            barcodes: SmallVec::new(),
            properties: IndexMap::from([("blocked".to_owned(), PropertyValue::Flag(line.blocked))]),
            hazards: BTreeSet::new(),
            replaced_by: None,
        })
    }
}

/// Answers with the stock of an item.
pub async fn show_stock(
    pool: web::Data<SqlitePool>,
    sku: web::Path<String>,
) -> actix_web::Result<impl Responder> {
    let rows: Vec<StockRow> = sqlx::query_as(
        r#"
        SELECT sku, location, on_hand FROM "stock"
        WHERE sku = ?1 AND location NOT LIKE '{%}' ESCAPE '\'
        "#,
    )
    .bind(sku.as_str())
    .fetch_all(&**pool)
    .await
    .map_err(|e| InventoryError::Other(e.into()))?;
    let locations: BTreeMap<_, _> = rows
        .iter()
        .filter(|row| {
            FIXED_LOCATIONS
                .iter()
                .all(|fixed| fixed.code != row.location || fixed.is_counted)
        })
        .map(|row| (row.location.clone(), row.on_hand))
        .collect();
    Ok(web::Json(stock::StockLevel {
        on_hand: locations.values().sum(),
        reserved: 0,
        locations,
        counted_on: None,
    }))
}

async fn move_stock(movement: web::Json<stock::movements::Movement>) -> impl Responder {
    use stock::movements::{CountSheet, Movement::*};

    match movement.into_inner() {
        Receipt { quantity: 0, .. } | Transfer { quantity: 0, .. } | NoOp => {
            HttpResponse::NoContent()
        }
        Count(CountSheet { lines, .. }) if lines.is_empty() => HttpResponse::BadRequest(),
        _ => HttpResponse::Accepted(),
    }
}

async fn upload(body: web::Bytes) -> Result<HttpResponse, InventoryError> {
    let report = import(io::Cursor::new(body), io::sink())?;
    Ok(HttpResponse::Ok().json(report))
}

fn newest_export(dir: &Path) -> Option<PathBuf> {
    let exports = std::fs::read_dir(dir).ok()?.filter_map(Result::ok);
    exports
        .map(|entry| entry.path())
        .filter(|path| path.extension().is_some_and(|e| e == "jsonl"))
        .max()
}

#[actix_web::main]
async fn main() -> Result<(), Box<dyn StdError>> {
    let pool = SqlitePool::connect("sqlite:stock.db").await?;
    if let Some(path) = newest_export(&IMPORT_DIR) {
        let report = import(io::BufReader::new(std::fs::File::open(path)?), io::stderr())?;
        println!("{} of {} lines", report.lines_taken, report.lines_read);
    }
    HttpServer::new(move || {
        App::new()
            .app_data(web::Data::new(pool.clone()))
            .route("/stock/{sku}", web::get().to(show_stock))
            .route("/movements", web::post().to(move_stock))
            .route("/imports", web::post().to(upload))
    })
    .bind(("127.0.0.1", 8080))?
    .run()
    .await
    .map_err(Into::into)
}

#[cfg(test)]
mod tests {
    use super::*;

    const EXPORT: &str = r##"
{"COMPANY": "Acme \"#\"", "EXPORT_DATE": "2027-03-01", "LINE_COUNT": 1, "FINAL": true}
{"ItemNo": "A-1", "BaseUnitOfMeasure": "PCS", "Qty": 4, "Blocked": false}
"##;

    #[test]
    fn an_export_is_read() {
        let report = import(io::Cursor::new(EXPORT), Vec::new()).unwrap();
        assert_eq!(
            (report.lines_read, report.lines_taken),
            (1, 1),
            "{:?}",
            report.problems
        );
        assert!(report.header.is_some_and(|header| header.r#final));
    }

    #[test]
    fn locations_have_three_parts() {
        assert_eq!("a-1-2".parse::<LocationCode>().unwrap().0, "A-1-2");
        assert!("a--2".parse::<LocationCode>().is_err());
    }
}
