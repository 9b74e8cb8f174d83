// Copyright 2024 the maintainers.
// Licensed under the MIT licence <LICENSE or https://opensource.org/licenses/MIT>.

//! The public interface of a library's catalogue: pages of whatever is listed, envelopes around answers, and the tree of shelves.
//!
//! Types with parameters are shared by all answers; what is sent stands at the end, without parameters.

#![forbid(unsafe_code)]
#![warn(missing_docs, clippy::pedantic)]

use std::{
    borrow::Cow,
    collections::{BTreeMap, HashMap},
    fmt::{self, Display},
    marker::PhantomData,
    num::NonZeroU32,
    ops::{ControlFlow, Deref},
    sync::Arc,
};

use axum::{
    extract::{Path, Query, State},
    http::StatusCode,
    response::{IntoResponse, Response},
    routing, Json, Router,
};
use serde::{de::DeserializeOwned, Deserialize, Serialize};
use tokio::sync::RwLock;

/// What a handler answers.
type Answer<T> = Result<Json<Envelope<T, Problem>>, Failure>;

/// How many items a page has at most.
pub const MOST: usize = 1 << 7;

/// What can be listed. Nothing of it is written as JSON.
pub trait Listed: Clone + Send + Sync + 'static {
    /// The key by which pages go on.
    type Key: Ord + Display;
    /// The path below which it is listed.
    const PATH: &'static str;

    /// The key of this one.
    fn key(&self) -> Self::Key;

    /// Whether it stands behind the key.
    fn is_behind(&self, key: &Self::Key) -> bool {
        self.key() > *key
    }
}

// ---- types with parameters

/// A page of a list.
#[derive(Clone, Debug, PartialEq, Serialize, Deserialize)]
#[serde(rename_all = "camelCase")]
pub struct Page<T> {
    /// What is on it, in order.
    pub items: Vec<T>,
    /// Where the next page begins, if there is one.
    pub next_cursor: Option<Cursor<T>>,
    pub total_items: u64,
}

/// Where a page begins. It is a text for clients, but belongs to one kind of item.
#[derive(Clone, Debug, PartialEq, Eq, Serialize, Deserialize)]
#[serde(bound = "")]
pub struct Cursor<T: ?Sized> {
    pub key: String,
    #[serde(skip)]
    item: PhantomData<T>,
}

/// An answer, or why there is none, with what holds of both.
#[derive(Clone, Debug, Serialize, Deserialize)]
#[serde(rename_all = "camelCase", deny_unknown_fields)]
pub struct Envelope<T, E>
where
    E: Display,
{
    pub outcome: Outcome<T, E>,
    #[serde(default = "Vec::new")]
    pub warnings: Vec<E>,
    pub request_id: String,
}

/// How a request ended.
#[derive(Clone, Debug, Serialize, Deserialize)]
#[serde(tag = "status", content = "value", rename_all = "snake_case")]
pub enum Outcome<T, E> {
    /// There is an answer.
    Done(T),
    /// There is none, since the request is at fault.
    Refused { why: E, is_final: bool },
    /// It is not known yet.
    Pending,
}

/// A tree, of which each node has a value.
#[derive(Clone, Debug, Default, PartialEq, Serialize, Deserialize)]
pub struct Node<T> {
    pub value: T,
    #[serde(default, skip_serializing_if = "Vec::is_empty")]
    pub kids: Vec<Node<T>>,
    pub parent_title: Option<String>,
}

/// The last readings of something, N of them.
#[derive(Clone, Debug, Serialize)]
pub struct Window<'a, T: Serialize, const N: usize> {
    /// What was read.
    pub name: &'a str,
    #[serde(borrow)]
    pub unit: Cow<'a, str>,
    #[serde(with = "serde_arrays")]
    pub last: [T; N],
}

/// A value that may be set, cleared or left alone.
#[derive(Clone, Debug, Default, PartialEq, Serialize, Deserialize)]
#[serde(untagged)]
pub enum Change<T> {
    To(T),
    #[default]
    Clear,
}

/// Two values of which the second came later.
#[derive(Clone, Debug, PartialEq, Serialize, Deserialize)]
pub struct Revised<Old, New>(pub Old, pub New);

impl<T: Listed> Page<T> {
    /// The page of those that stand behind the key.
    pub fn behind(all: &[T], key: Option<&T::Key>) -> Self {
        let mut items = Vec::with_capacity(MOST);
        let ended = all.iter().try_for_each(|item| match key {
            Some(key) if !item.is_behind(key) => ControlFlow::Continue(()),
            _ if items.len() == MOST => ControlFlow::Break(item.key().to_string()),
            _ => {
                items.push(item.clone());
                ControlFlow::Continue(())
            }
        });
        let next_cursor = match ended {
            ControlFlow::Break(key) => Some(Cursor::at(key)),
            ControlFlow::Continue(()) => None,
        };
        Self { items, next_cursor, total_items: all.len() as u64 }
    }
}

impl<T: ?Sized> Cursor<T> {
    fn at(key: String) -> Self {
        Self { key, item: PhantomData }
    }
}

impl<T, E: Display> From<Outcome<T, E>> for Envelope<T, E> {
    fn from(outcome: Outcome<T, E>) -> Self {
        Self { outcome, warnings: vec![], request_id: format!("{:08x}", rand::random::<u32>()) }
    }
}

impl<T> Node<T> {
    /// All values, each before those below it.
    pub fn values<'t>(&'t self) -> Box<dyn Iterator<Item = &'t T> + 't> {
        Box::new(std::iter::once(&self.value).chain(self.kids.iter().flat_map(Node::values)))
    }
}

// ---- what is listed

/// The number of a book, as `978-3-16-148410-0`.
#[derive(Clone, Debug, PartialEq, Eq, PartialOrd, Ord, Hash, Serialize, Deserialize)]
pub struct Isbn(String);

/// A book of the catalogue.
#[derive(Clone, Debug, PartialEq, Serialize, Deserialize)]
#[serde(rename_all = "camelCase")]
pub struct Book {
    pub isbn: Isbn,
    pub title: String,
    /// Whoever wrote it.
    pub written_by: Vec<Author>,
    pub copies_by_branch: BTreeMap<String, u32>,
    pub state: BookState,
}

/// Somebody who wrote a book.
#[derive(Clone, Debug, PartialEq, Eq, Serialize, Deserialize)]
pub struct Author {
    pub id: u64,
    pub name: String,
}

/// Whether a book can be lent.
#[derive(Clone, Copy, Debug, PartialEq, Eq, Serialize, Deserialize)]
#[serde(rename_all = "SCREAMING_SNAKE_CASE")]
pub enum BookState {
    OnShelf,
    LentOut,
    InRepair = { 1 + 3 },
}

/// A shelf, in the tree of shelves.
#[derive(Clone, Debug, Default, PartialEq, Serialize, Deserialize)]
pub struct Shelf {
    pub label: String,
    pub places: u16,
}

/// Why a request is refused.
#[derive(Clone, Debug, thiserror::Error, Serialize, Deserialize)]
#[serde(tag = "kind", rename_all = "kebab-case")]
pub enum Problem {
    #[error("there is no {what}")]
    NotFound { what: String },
    #[error("the cursor is of another list")]
    BadCursor,
}

impl Listed for Book {
    type Key = Isbn;
    const PATH: &'static str = "/books";

    fn key(&self) -> Isbn {
        self.isbn.clone()
    }
}

impl Display for Isbn {
    fn fmt(&self, f: &mut fmt::Formatter<'_>) -> fmt::Result {
        f.write_str(&self.0)
    }
}

// ---- what is asked and answered

/// The answer of `GET /books`.
#[derive(Clone, Debug, Serialize, Deserialize)]
pub struct BooksAnswer(pub Envelope<Page<Book>, Problem>);

/// The answer of `GET /authors`.
#[derive(Clone, Debug, Serialize, Deserialize)]
pub struct AuthorsAnswer(pub Envelope<Page<Author>, Problem>);

/// The answer of `GET /shelves`.
#[derive(Clone, Debug, Serialize, Deserialize)]
#[serde(rename_all = "camelCase")]
pub struct ShelvesAnswer {
    pub tree: Node<Shelf>,
    /// Counted once a night.
    pub books_below: Node<u32>,
    /// One entry for each branch.
    pub by_branch: HashMap<String, Box<Node<Shelf>>>,
}

/// What `PATCH /books/{isbn}` changes.
#[derive(Clone, Debug, Default, Serialize, Deserialize)]
#[serde(default, deny_unknown_fields)]
pub struct BookPatch {
    pub title: Option<Change<String>>,
    pub state: Option<Change<BookState>>,
    /// Words under which it is found.
    pub keywords: Option<Change<Vec<String>>>,
}

/// What `GET /status` tells.
#[derive(Clone, Debug, Serialize)]
pub struct StatusAnswer<'a> {
    pub loans: Window<'a, u32, 24>,
    pub visitors: Window<'a, u32, { 24 * 7 }>,
    #[serde(skip_serializing_if = "Option::is_none")]
    pub door: Option<Window<'static, bool, 1>>,
}

/// A change of a book's state, as the event stream tells it.
#[derive(Clone, Debug, Serialize, Deserialize)]
pub struct StateEvent {
    pub isbn: Arc<Isbn>,
    pub outcome: Outcome<BookState, String>,
}

// ---- the service

/// Never sent: rows as the database has them.
#[derive(Clone, Debug)]
struct Rows<R, const N: usize = 64> {
    rows: Vec<[Option<R>; N]>,
    at: (usize, usize),
}

#[derive(Clone)]
struct Catalogue {
    books: Arc<RwLock<Vec<Book>>>,
    shelves: Arc<RwLock<Node<Shelf>>>,
}

#[derive(Debug, thiserror::Error)]
#[error("{0}")]
struct Failure(#[from] anyhow::Error);

impl IntoResponse for Failure {
    fn into_response(self) -> Response {
        (StatusCode::INTERNAL_SERVER_ERROR, self.to_string()).into_response()
    }
}

impl<R, const N: usize> Deref for Rows<R, N> {
    type Target = [[Option<R>; N]];

    fn deref(&self) -> &Self::Target {
        &self.rows[self.at.0..self.at.1]
    }
}

async fn books(
    State(catalogue): State<Catalogue>,
    Query(query): Query<HashMap<String, String>>,
) -> Answer<Page<Book>> {
    let books = catalogue.books.read().await;
    let key = query.get("after").map(|text| Isbn(text.clone()));
    Ok(Json(Outcome::Done(Page::behind(&books, key.as_ref())).into()))
}

async fn book(State(catalogue): State<Catalogue>, Path(isbn): Path<String>) -> Answer<Book> {
    #[derive(Serialize)]
    struct Seen<'a, T> {
        isbn: &'a str,
        of: T,
    }
    tracing::debug!(seen = ?serde_json::to_string(&Seen { isbn: &isbn, of: 1_u8 }));
    let books = catalogue.books.read().await;
    let outcome = match books.iter().find(|book| book.isbn.0 == isbn) {
        Some(book) => Outcome::Done(book.clone()),
        None => Outcome::Refused { why: Problem::NotFound { what: isbn }, is_final: true },
    };
    Ok(Json(outcome.into()))
}

fn parsed<T: DeserializeOwned, const MANY: usize>(text: &str) -> serde_json::Result<[T; MANY]>
where
    [T; MANY]: for<'de> Deserialize<'de>,
{
    serde_json::from_str(text)
}

/// All that is served.
pub fn router(most: NonZeroU32) -> Router {
    let (books, shelves) = <(Vec<Book>, Node<Shelf>)>::default();
    let catalogue = Catalogue { books: Arc::new(books.into()), shelves: Arc::new(shelves.into()) };
    Router::new()
        .route(Book::PATH, routing::get(self::books))
        .route("/books/{isbn}", routing::get(book))
        .layer(tower::limit::ConcurrencyLimitLayer::new(most.get() as usize))
        .with_state(catalogue)
}

#[cfg(test)]
mod tests {
    use super::*;

    #[derive(Debug, PartialEq, Serialize, Deserialize)]
    struct Page<T>(T, T);

    #[test]
    fn arrays_are_read() {
        assert_eq!(parsed::<u8, 2>("[1, 2]").unwrap(), [1, 2]);
        assert_eq!(serde_json::to_string(&Page(1, 2)).unwrap(), "[1,2]");
    }
}
