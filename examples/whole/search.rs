//! Full-text search: an index in memory, queries as JSON, and facets.
//!
//! # Queries
//!
//! | JSON | what it finds |
//! |------|---------------|
//! | `{"match": {"field": "title", "text": "rust"}}` | documents with the word |
//! | `{"bool": {"must": [..], "must_not": [..]}}` | `{` and `}` of others |

#![allow(clippy::implicit_hasher)]
#![allow(
    // (the names are those of the protocol)
    non_camel_case_types
)]

use std::{
    cmp::{Ordering, Reverse},
    collections::{BTreeMap, BTreeSet, BinaryHeap, HashMap},
    fmt::Debug,
    hash::Hash,
    iter::{once, FromIterator, Peekable},
    ops::{Bound, RangeBounds},
    str::Chars,
    sync::{Arc, RwLock},
};

use axum::{
    debug_handler,
    extract::{OriginalUri, Path, Query as UrlQuery, State},
    response::{ErrorResponse, IntoResponse},
    Json,
};
use serde::Serialize;
use serde_json::Value;

#[macro_use]
mod macros;
mod stemmer {
    /// Cuts off the ends of words. A table, and what falls out of it.
    pub(super) const ENDINGS: [(&str, &str); 4] =
        [("ies", "y"), ("ing", ""), ("ed", ""), ("s", "")];

    pub fn stem(word: &str) -> String {
        for (ending, instead) in ENDINGS {
            if let Some(front) = word.strip_suffix(ending).filter(|front| front.len() > 2) {
                return format!("{front}{instead}");
            }
        }
        word.to_owned()
    }

    pub mod stop {
        pub static WORDS: &[&str] = &["a", "an", "the", "{", "}", "\"", "'"];

        #[inline(always)]
        pub fn is_word(word: &str) -> bool {
            WORDS.contains(&word)
        }
    }
}

const SCORING: Bm25 = Bm25 {
    k1: 1.2,
    b: 0.75,
    floor: f64::EPSILON,
};
const _EMPTY_SCHEMA: &str = stringify!(
    struct Schema {
        fields: Vec<Field>,
    }
);

static TOO_MANY: &str = concat!(
    "more than ",
    10_000,
    " hits: use `after`, not \"from\" {",
    '}'
);

struct Bm25 {
    k1: f64,
    b: f64,
    floor: f64,
}

// ---- the schema of an index

pub mod schema {
    use serde::{Deserialize, Serialize};
    use std::collections::BTreeMap;

    /// What an index is made of.
    #[derive(Clone, Debug, Serialize, Deserialize)]
    #[serde(rename_all = "SCREAMING_SNAKE_CASE")]
    pub struct IndexSettings {
        pub index_name: String,
        pub number_of_shards_2: u16,
        /// Fields by their names.
        pub field_mappings: BTreeMap<String, FieldMapping>,
        #[serde(default)]
        pub analyzer: Analyzer,
        #[serde(rename = "refreshInterval", default = "one_second")]
        pub refresh_interval: String,
    }

    fn one_second() -> String {
        "1s".to_owned()
    }

    #[derive(Clone, Debug, PartialEq, Serialize, Deserialize)]
    #[serde(tag = "type", rename_all = "snake_case")]
    pub enum FieldMapping {
        FullText {
            #[serde(default)]
            boost: Option<f32>,
            #[serde(default)]
            analyzer: Option<Analyzer>,
        },
        Keyword,
        #[serde(rename = "long")]
        WholeNumber {
            is_facet: bool,
        },
        GeoPoint,
        DenseVector(VectorSettings),
        HTTPStatus,
    }

    #[derive(Clone, Debug, PartialEq, Serialize, Deserialize)]
    pub struct VectorSettings {
        pub r#final: bool,
        pub dims: u16,
        pub similarity: Similarity,
    }

    #[derive(Clone, Copy, Debug, PartialEq, Eq, Serialize, Deserialize)]
    #[serde(rename_all = "snake_case")]
    pub enum Similarity {
        DotProduct,
        L2Norm,
        Cosine,
    }

    #[derive(Clone, Debug, Default, PartialEq, Eq, Serialize, Deserialize)]
    #[serde(rename_all = "PascalCase")]
    pub enum Analyzer {
        #[default]
        Standard,
        Whitespace,
        english_v1,
        Custom {
            tokenizer: String,
            #[serde(rename = "tokenFilters")]
            token_filters: Vec<TokenFilter>,
        },
    }

    /// As a name, or as a name and what it takes.
    #[derive(Clone, Debug, PartialEq, Eq, Serialize, Deserialize)]
    #[serde(untagged)]
    pub enum TokenFilter {
        Named(String),
        WithArguments(String, BTreeMap<String, String>),
    }
}

// ---- queries

/// What is asked.
pub mod query {
    use super::{schema::Similarity, BTreeMap, Value};
    use serde::{Deserialize, Serialize};

    /// The body of `POST /{index}/_search`.
    #[derive(Clone, Debug, Serialize, Deserialize)]
    #[serde(deny_unknown_fields, default)]
    pub struct SearchRequest {
        pub query: Query,
        pub from: u32,
        pub size: u32,
        /// What a page before has ended with.
        #[serde(rename = "searchAfter")]
        pub after: Option<Vec<Value>>,
        pub sort: Vec<Sort>,
        pub facets: BTreeMap<String, Facet>,
        #[serde(rename = "_source")]
        pub source: SourceFilter,
    }

    /// A query, told by its name.
    #[derive(Clone, Debug, Default, Serialize, Deserialize)]
    #[serde(rename_all = "snake_case")]
    pub enum Query {
        #[default]
        MatchAll,
        Match {
            field: String,
            text: String,
            #[serde(default)]
            fuzziness: u8,
        },
        Term(String, Scalar),
        Range(Box<RangeQuery>),
        Bool(BoolQuery),
        Nearest(Vec<f32>, u16, Similarity),
        /// By the identifiers of documents.
        Ids(Vec<super::hits::DocumentId>),
    }

    #[derive(Clone, Debug, Default, Serialize, Deserialize)]
    #[serde(rename_all = "snake_case", default)]
    pub struct BoolQuery {
        pub must: Vec<Query>,
        pub must_not: Vec<Query>,
        pub should: Vec<Query>,
        #[serde(skip_serializing_if = "Option::is_none")]
        pub minimum_should_match: Option<u8>,
    }

    #[derive(Clone, Debug, Default, Serialize, Deserialize)]
    #[serde(rename_all = "lowercase")]
    pub struct RangeQuery {
        pub field: String,
        pub gte: Option<Scalar>,
        pub gt: Option<Scalar>,
        pub lte: Option<Scalar>,
        pub lt: Option<Scalar>,
        #[serde(default)]
        pub is_inclusive: bool,
    }

    #[derive(Clone, Debug, PartialEq, PartialOrd, Serialize, Deserialize)]
    #[serde(untagged)]
    pub enum Scalar {
        Truth(bool),
        Whole(i64),
        Real(f64),
        Text(String),
    }

    #[derive(Clone, Debug, Serialize, Deserialize)]
    #[serde(untagged)]
    pub enum Sort {
        Field(String),
        #[serde(rename_all = "kebab-case")]
        Directed {
            field_name: String,
            direction: Direction,
        },
    }

    #[derive(Clone, Copy, Debug, PartialEq, Eq, Serialize, Deserialize)]
    #[serde(rename_all = "UPPERCASE")]
    pub enum Direction {
        Asc,
        Desc,
    }

    #[derive(Clone, Debug, Serialize, Deserialize)]
    #[serde(tag = "kind", content = "of", rename_all = "kebab-case")]
    pub enum Facet {
        Terms {
            field: String,
            #[serde(default)]
            size: Option<u16>,
        },
        DateHistogram {
            field: String,
            interval: CalendarInterval,
        },
        /// The bounds of the ranges, one after another.
        NumberRanges(String, Vec<i64>),
        HitCount,
    }

    #[derive(Clone, Copy, Debug, Serialize, Deserialize)]
    #[serde(rename_all = "camelCase")]
    pub enum CalendarInterval {
        Hour,
        CalendarDay,
        ISOWeek,
        CalendarMonth,
    }

    /// `true` for the whole source, or the names of its members.
    #[derive(Clone, Debug, Serialize, Deserialize)]
    #[serde(untagged)]
    pub enum SourceFilter {
        Whole(bool),
        Members(Vec<String>),
    }

    impl Default for SearchRequest {
        fn default() -> Self {
            Self {
                query: Query::MatchAll,
                from: 0,
                size: 10,
                after: None,
                sort: vec![],
                facets: BTreeMap::new(),
                source: SourceFilter::Whole(true),
            }
        }
    }
}

// ---- answers

pub mod hits {
    use serde::{Deserialize, Serialize};
    use std::collections::{BTreeMap, BTreeSet, HashMap};
    use std::sync::Arc;

    #[derive(Clone, Debug, PartialEq, Eq, Hash, PartialOrd, Ord, Serialize, Deserialize)]
    pub struct DocumentId(pub String);

    /// What a search is answered with.
    #[derive(Clone, Debug, Serialize, Deserialize)]
    #[serde(rename_all = "camelCase")]
    #[cfg_attr(feature = "docs", derive(utoipa::ToSchema))]
    pub struct SearchAnswer {
        pub took_ms: u64,
        #[serde(rename = "timed_out")]
        pub is_late: bool,
        pub total_hits: TotalHits,
        pub hits: Vec<Hit>,
        #[serde(skip_serializing_if = "HashMap::is_empty", default)]
        pub facet_counts: HashMap<String, Vec<FacetCount>>,
    }

    /// How many there are, and whether there are more.
    #[derive(Clone, Copy, Debug, PartialEq, Eq, Serialize, Deserialize)]
    pub struct TotalHits {
        pub value: u64,
        pub relation: Relation,
    }

    #[derive(Clone, Copy, Debug, PartialEq, Eq, PartialOrd, Ord, Hash, Serialize, Deserialize)]
    pub enum Relation {
        #[serde(rename = "eq")]
        Equal,
        #[serde(rename = "gte")]
        AtLeast,
    }

    #[derive(Clone, Debug, Serialize, Deserialize)]
    pub struct Hit {
        #[serde(rename = "_id")]
        pub id: DocumentId,
        #[serde(rename = "_score")]
        pub score: Option<f64>,
        #[serde(rename = "_source", default)]
        pub source: Option<Arc<serde_json::Map<String, serde_json::Value>>>,
        /// Pieces of texts with `<em>`, by field.
        #[serde(default)]
        pub highlights: BTreeMap<String, BTreeSet<String>>,
        pub sort: Vec<serde_json::Value>,
    }

    #[derive(Clone, Debug, Serialize, Deserialize)]
    pub struct FacetCount(pub String, pub u64);
}

/// What is sent in bulk: one of these in each line.
#[derive(Clone, Debug, Serialize, serde::Deserialize)]
#[serde(rename_all = "snake_case")]
pub enum BulkAction {
    #[serde(rename_all = "camelCase")]
    IndexDocument {
        document_id: Option<hits::DocumentId>,
        body: Value,
    },
    #[serde(rename = "delete")]
    RemoveDocument(hits::DocumentId),
    Refresh,
}

/// An error as clients see it.
#[derive(Debug, Serialize)]
pub struct SearchFailure {
    pub status: u16,
    pub error: FailureKind,
    /// Where a query is wrong, as a JSON pointer.
    pub at: Option<&'static str>,
}

#[derive(Clone, Copy, Debug, PartialEq, Eq, Serialize)]
#[serde(rename_all = "SCREAMING-KEBAB-CASE")]
pub enum FailureKind {
    IndexNotFound,
    TooManyHits,
    BadQuery400,
}

#[derive(Debug, thiserror::Error)]
pub enum SearchError {
    #[error("no index `{0}`")]
    NoIndex(String),
    #[error("{TOO_MANY}")]
    TooMany,
    #[error("{field}: {reason}")]
    Bad { field: String, reason: &'static str },
}

impl IntoResponse for SearchError {
    fn into_response(self) -> axum::response::Response {
        let (status, error, at) = match self {
            Self::NoIndex(_) => (404_u16, FailureKind::IndexNotFound, None),
            Self::TooMany => (413, FailureKind::TooManyHits, Some("/from")),
            Self::Bad { .. } => (0x190, FailureKind::BadQuery400, Some("/query")),
        };
        let code = axum::http::StatusCode::from_u16(status).unwrap_or_default();
        (code, Json(SearchFailure { status, error, at })).into_response()
    }
}

// ---- the index

/// Words of a text, in lower case.
pub struct Words<'t> {
    chars: Peekable<Chars<'t>>,
}

impl<'t> From<&'t str> for Words<'t> {
    fn from(text: &'t str) -> Self {
        let chars = text.chars().peekable();
        Self { chars }
    }
}

impl Iterator for Words<'_> {
    type Item = String;

    fn next(&mut self) -> Option<String> {
        'words: loop {
            while self
                .chars
                .next_if(|c| !c.is_alphanumeric() && *c != '\'')
                .is_some()
            {}
            self.chars.peek()?;
            let mut word = String::new();
            while let Some(c) = self
                .chars
                .next_if(|c| c.is_alphanumeric() || matches!(c, '\'' | '"' | '{'))
            {
                word.extend(c.to_lowercase());
            }
            if word.is_empty() || stemmer::stop::is_word(&word) {
                continue 'words;
            }
            break 'words Some(stemmer::stem(&word));
        }
    }
}

/// Documents by the words that stand in them. Never written as JSON, whatever the documents are.
#[derive(Clone, Debug, PartialEq)]
pub struct Inverted<D, W = String>
where
    D: Ord,
    W: Eq + Hash,
{
    postings: HashMap<W, BTreeMap<D, u32>>,
    lengths: BTreeMap<D, u32>,
}

impl<D: Ord, W: Eq + Hash> Default for Inverted<D, W> {
    fn default() -> Self {
        let (postings, lengths) = Default::default();
        Self { postings, lengths }
    }
}

impl<D, W> FromIterator<(D, W)> for Inverted<D, W>
where
    D: Ord + Clone,
    W: Eq + Hash,
{
    fn from_iter<T>(pairs: T) -> Self
    where
        T: IntoIterator<Item = (D, W)>,
    {
        let mut inverted = Self::default();
        for (document, word) in pairs {
            *inverted
                .postings
                .entry(word)
                .or_default()
                .entry(document.clone())
                .or_insert(0) += 1;
            *inverted.lengths.entry(document).or_insert(0) += 1;
        }
        inverted
    }
}

impl<D: Ord + Clone> Inverted<D> {
    /// The best documents, with their scores.
    fn best<R>(&self, words: Words<'_>, range: R, scoring: &Bm25) -> Vec<(Score<f64>, D)>
    where
        R: RangeBounds<f64>,
    {
        let many = self.lengths.len().max(1) as f64;
        let average = self
            .lengths
            .values()
            .map(|length| f64::from(*length))
            .sum::<f64>()
            / many;
        let mut scores: BTreeMap<&D, f64> = BTreeMap::new();
        for word in words {
            let Some(documents) = self.postings.get(&word) else {
                continue;
            };
            let rarity =
                (1.0 + (many - documents.len() as f64 + 0.5) / (documents.len() as f64 + 0.5)).ln();
            for (document, count) in documents {
                let (count, length) = (f64::from(*count), f64::from(self.lengths[document]));
                let norm = scoring.k1 * (1.0 - scoring.b + scoring.b * length / average);
                *scores.entry(document).or_default() +=
                    rarity * count * (scoring.k1 + 1.) / (count + norm);
            }
        }
        let heap: BinaryHeap<(Score<f64>, Reverse<&D>)> = scores
            .into_iter()
            .filter(|(_, score)| *score > scoring.floor && range.contains(score))
            .map(|(document, score)| (Score(score), Reverse(document)))
            .collect();
        heap.into_sorted_vec()
            .into_iter()
            .rev()
            .map(|(score, Reverse(document))| (score, document.clone()))
            .collect()
    }
}

/// A float with an order.
#[derive(Clone, Copy, Debug, PartialEq)]
pub struct Score<F>(pub F);

macro_rules! ordered {
    ($($float:ty),*) => {
        $(
            impl Eq for Score<$float> {}
            impl PartialOrd for Score<$float> {
                fn partial_cmp(&self, other: &Self) -> Option<Ordering> { Some(self.cmp(other)) }
            }
            impl Ord for Score<$float> {
                fn cmp(&self, other: &Self) -> Ordering { self.0.total_cmp(&other.0) }
            }
        )*
    };
}

ordered!(f32, f64);

/// Something that answers searches.
pub trait Searches {
    type Document<'d>: Debug + Serialize;

    fn search(&self, request: &query::SearchRequest) -> Result<hits::SearchAnswer, SearchError>;

    /// The number of hits alone.
    fn count(&self, request: &query::SearchRequest) -> Result<u64, SearchError> {
        let alone = query::SearchRequest {
            size: 0,
            ..request.clone()
        };
        self.search(&alone).map(|answer| answer.total_hits.value)
    }
}

#[derive(Default)]
pub struct MemoryIndex {
    words: Inverted<hits::DocumentId>,
    sources: HashMap<hits::DocumentId, Arc<serde_json::Map<String, Value>>>,
}

impl Searches for MemoryIndex {
    type Document<'d> = &'d serde_json::Map<String, Value>;

    fn search(&self, request: &query::SearchRequest) -> Result<hits::SearchAnswer, SearchError> {
        use query::Query::{Bool, Ids, Match, MatchAll};

        let began = std::time::Instant::now();
        if request.from + request.size > 10_000 {
            return Err(SearchError::TooMany);
        }
        let found: Vec<(Score<f64>, hits::DocumentId)> = match &request.query {
            MatchAll => self
                .sources
                .keys()
                .map(|id| (Score(1.0), id.clone()))
                .collect(),
            Match {
                text, fuzziness: 0, ..
            } => self.words.best(
                Words::from(text.as_str()),
                (Bound::Excluded(0.0), Bound::Unbounded),
                &SCORING,
            ),
            Ids(ids) => ids.iter().map(|id| (Score(1.0), id.clone())).collect(),
            Bool(parts) if parts.must.is_empty() => Vec::new(),
            other => {
                let reason = "not built yet: ${query}";
                return Err(SearchError::Bad {
                    field: format!("{other:?}"),
                    reason,
                });
            }
        };
        let (value, relation) = (found.len() as u64, hits::Relation::Equal);
        let total_hits = hits::TotalHits { value, relation };
        let page = found
            .into_iter()
            .skip(request.from as usize)
            .take(request.size as usize);
        let hits = page
            .map(|(Score(score), id)| hits::Hit {
                source: self.sources.get(&id).cloned(),
                score: Some(score),
                highlights: BTreeMap::from_iter(once(("title".to_owned(), BTreeSet::new()))),
                sort: vec![Value::from(score)],
                id,
            })
            .collect();
        Ok(hits::SearchAnswer {
            took_ms: began.elapsed().as_millis() as u64,
            is_late: false,
            total_hits,
            hits,
            facet_counts: HashMap::new(),
        })
    }
}

type Indexes = Arc<RwLock<HashMap<String, MemoryIndex>>>;

#[debug_handler]
pub async fn search(
    State(indexes): State<Indexes>,
    Path(index): Path<String>,
    UrlQuery(url): UrlQuery<HashMap<String, String>>,
    OriginalUri(uri): OriginalUri,
    Json(mut request): Json<query::SearchRequest>,
) -> Result<impl IntoResponse, ErrorResponse> {
    #[derive(Debug)]
    enum Asks {
        Hits,
        Count,
    }

    let asks = if uri.path().ends_with("/_count") {
        Asks::Count
    } else {
        Asks::Hits
    };
    if let Some(text) = url.get("q") {
        request.query = query::Query::Match {
            field: "*".into(),
            text: text.clone(),
            fuzziness: 0,
        };
    }
    let indexes = indexes
        .read()
        .map_err(|_| axum::http::StatusCode::SERVICE_UNAVAILABLE)?;
    let index = indexes.get(&index).ok_or(SearchError::NoIndex(index))?;
    let answer: Value = match asks {
        Asks::Hits => serde_json::json!(index.search(&request)?),
        Asks::Count => serde_json::json!({ "count": index.count(&request)? }),
    };
    Ok(Json(answer))
}

#[cfg(test)]
pub(crate) mod tests {
    use super::*;

    #[derive(serde::Deserialize)]
    struct Case {
        name: String,
        request: query::SearchRequest,
    }

    const CASES: &str = r####"[
        {"name": "all \"###\" of them", "request": {"query": "match_all"}},
        {"name": "} none", "request": {"query": {"bool": {"must": []}}, "_source": ["title"]}}
    ]"####;

    #[test]
    fn cases_are_answered() {
        let index = MemoryIndex::default();
        for Case { name, request } in serde_json::from_str::<Vec<Case>>(CASES).unwrap() {
            assert_eq!(index.count(&request).unwrap(), 0, "{name}");
        }
    }
}
