//! What the service of a shop reads and writes as JSON.

#![allow(deprecated)]

use std::borrow::Cow;
use std::collections::{BTreeMap, BTreeSet, HashMap, HashSet};

use serde::{Deserialize, Serialize};
use serde_json::{Map, Value};
use validator::Validate;

use crate::secrets::PasswordHash;

/// The number of a customer.
#[derive(Clone, Copy, Debug, Deserialize, Eq, Hash, PartialEq, Serialize)]
pub struct CustomerId(u64);

/// The code of an article, such as `TEA-0042`.
#[derive(Clone, Debug, Deserialize, Eq, Hash, PartialEq, Serialize)]
pub struct Sku(String);

/// Width, height and depth in millimetres.
#[derive(Clone, Copy, Debug, Deserialize, PartialEq, Serialize)]
pub struct Dimensions(u32, u32, u32);

/// An amount of money, in the smallest unit of its currency.
#[derive(Clone, Debug, Deserialize, PartialEq, Serialize)]
pub struct Money {
    pub amount: i64,
    /// Three letters, such as `EUR`.
    pub currency: Cow<'static, str>,
}

/// An address that parcels can be sent to.
///
/// Each line is printed as it stands here.
#[derive(Clone, Debug, Deserialize, PartialEq, Serialize, Validate)]
#[serde(rename_all = "camelCase")]
pub struct Address {
    pub recipient: String,
    #[validate(length(min = 1, max = 3))]
    pub street_lines: Vec<String>,
    pub postal_code: String,
    pub city: String,
    /// Two letters, such as `NZ`.
    #[serde(rename = "country")]
    pub country_code: String,
    /// Latitude and longitude in millionths of a degree.
    pub position: Option<(i32, i32)>,
}

/// A customer and what is known of them.
#[derive(Clone, Debug, Deserialize, Serialize)]
#[serde(rename_all = "camelCase")]
pub struct Customer {
    pub id: CustomerId,
    pub full_name: String,
    #[serde(rename = "email")]
    pub email_address: String,
    #[serde(skip)]
    pub(crate) password: PasswordHash,
    /// Addresses by the names that the customer gave them.
    #[serde(default)]
    pub addresses: BTreeMap<String, Address>,
    #[serde(default, skip_serializing_if = "BTreeSet::is_empty")]
    pub tags: BTreeSet<String>,
    /// Who brought this customer.
    pub referrer: Option<Box<Customer>>,
    #[deprecated(since = "2.0.0", note = "nobody reads faxes")]
    pub fax_number: Option<String>,
}

/// What is to change of a customer: what is left out stays, null clears it.
#[derive(Debug, Default, Deserialize, Serialize, Validate)]
#[serde(default, deny_unknown_fields, rename_all = "camelCase")]
pub struct CustomerChange {
    #[validate(length(min = 1))]
    pub full_name: Option<String>,
    #[serde(skip_serializing_if = "Option::is_none")]
    #[serde(with = "::serde_with::rust::double_option")]
    pub birthday: Option<Option<String>>,
    pub add_tags: BTreeSet<String>,
    pub remove_tags: BTreeSet<String>,
}

/// An article of the shop.
#[derive(Clone, Debug, Deserialize, Serialize)]
#[cfg_attr(test, derive(PartialEq))]
pub struct Article {
    pub sku: Sku,
    pub r#type: String,
    /// Titles by language.
    pub titles: HashMap<String, String>,
    pub price: Money,
    /// Numbers of pieces, and what one of so many costs.
    pub lower_prices: Vec<(u32, Money)>,
    pub size: Option<Dimensions>,
    pub barcode: Option<[u8; 13]>,
    /// What else the supplier says.
    #[serde(default)]
    pub details: Map<String, Value>,
    // Suppliers send it, nobody gets it.
    #[serde(default, skip_serializing)]
    pub cost: u64,
}

/// Who brings the parcels.
#[derive(Clone, Copy, Debug, Deserialize, Eq, Hash, PartialEq, Serialize)]
#[serde(rename_all = "kebab-case")]
pub enum Carrier {
    #[serde(rename = "GLS")]
    Gls,
    Post,
    /// Nobody: the customer comes to the shop.
    PickUp,
    // Stands in tests alone.
    #[serde(skip)]
    Unknown,
}

/// How an order is paid.
#[derive(Clone, Debug, Deserialize, Serialize)]
pub enum Payment {
    #[serde(rename = "invoice")]
    Invoice,
    /// A voucher, by its code.
    #[serde(rename = "voucher")]
    Voucher(String),
    /// What a bank has sent.
    #[serde(rename = "transfer")]
    Transfer {
        iban: String,
        amounts: Vec<Money>,
        #[serde(skip)]
        trace: Option<u64>,
    },
    /// A deposit: the number of its account, and what is left there.
    #[serde(rename = "deposit")]
    Deposit(u64, Money),
}

/// The number of an order, or how its customer calls it.
#[derive(Clone, Debug, Deserialize, Serialize)]
#[serde(untagged)]
pub enum OrderKey {
    Number(u64),
    Name(String),
}

/// What is told of a payment when it comes.
#[derive(Clone, Debug, Deserialize, Serialize)]
pub struct PaymentNotice {
    pub order: OrderKey,
    pub payment: Payment,
}

/// Some pieces of one article.
#[derive(Clone, Debug, Deserialize, Serialize)]
#[serde(deny_unknown_fields)]
pub struct OrderLine {
    pub sku: Sku,
    #[serde(default = "crate::defaults::one")]
    pub quantity: u32,
    /// The price that was agreed on.
    #[serde(rename = "unitPrice", skip_serializing_if = "Option::is_none")]
    pub unit_price: Option<Money>,
}

/// What a customer sends to order something.
#[derive(Debug, Deserialize, Serialize, Validate)]
#[serde(deny_unknown_fields, rename_all = "camelCase")]
pub struct NewOrder {
    pub customer: CustomerId,
    #[validate(length(min = 1))]
    pub lines: Vec<OrderLine>,
    pub ship_to: Address,
    /// Where the invoice goes, if elsewhere.
    pub bill_to: Option<Address>,
    #[serde(default)]
    pub gift: bool,
    pub coupons: HashSet<String>,
    /// Who is to bring it, if that matters.
    pub carrier: Option<Carrier>,
    /// When someone is at home: from and to, in hours of the day.
    pub hours: (u8, u8),
}

/// An order and what became of it.
#[derive(Clone, Debug, Deserialize, Serialize)]
#[serde(rename_all = "camelCase")]
pub struct Order {
    pub number: u64,
    pub customer: CustomerId,
    pub lines: Vec<OrderLine>,
    pub ship_to: Address,
    pub total: Money,
    /// What happened when, in seconds since 1970.
    pub events: Vec<(u64, String)>,
    pub carrier: Carrier,
    /// Numbers of parcels by carrier.
    #[serde(default, skip_serializing_if = "HashMap::is_empty")]
    pub parcels: HashMap<Carrier, Vec<String>>,
    pub metadata: Option<Value>,
    // Written for caches, never read.
    #[serde(skip_deserializing)]
    pub revision: i32,
}

/// One page of the orders that were found.
#[derive(Debug, Deserialize, Serialize)]
#[serde(rename_all = "kebab-case")]
pub struct OrderPage {
    pub page_number: u32,
    pub page_size: u16,
    #[serde(rename = "total")]
    pub total_orders: usize,
    pub next_page: Option<u32>,
    pub orders: Vec<Order>,
}

/// A payment by cheque.
#[deprecated(since = "3.1.0", note = "customers pay by transfer")]
#[derive(Clone, Debug, Deserialize, Serialize)]
pub struct Cheque {
    pub number: u128,
    pub bank: String,
}
