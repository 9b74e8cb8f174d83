#![doc = include_str!("../README.md")]
#![allow(non_camel_case_types, non_upper_case_globals)]
#![allow(clippy::missing_safety_doc)]

//! Uploads, transcoding and delivery of pictures, sound and films.

use std::{
    borrow::Cow,
    collections::{BTreeMap, HashMap, HashSet},
    ffi::{c_int, c_uint, c_void, CStr},
    io::SeekFrom,
    os::raw::c_char,
    path::{Path as FsPath, PathBuf},
    pin::Pin,
    sync::Arc,
    task::{Context, Poll},
};

use axum::{
    body::{Body, Bytes},
    extract::{DefaultBodyLimit, Multipart, Path, Query, State},
    http::{header, Method, StatusCode},
    response::{IntoResponse, Response},
    routing::{get, post},
    Json, Router,
};
use futures::{Stream, StreamExt as _, TryStreamExt as _};
use serde::{Deserialize, Serialize};
use sha2::{Digest as _, Sha256};
use tokio::io::{AsyncReadExt, AsyncSeekExt, AsyncWriteExt};
use tokio_util::io::ReaderStream;
use tower_http::{cors::CorsLayer, trace::TraceLayer};

#[path = "media/ladder.rs"]
mod ladder_file;

/// The largest part of an upload.
pub const MOST_BYTES: usize = 512 << 20;

const SNIFFED: &[(&[u8], MediaKind)] = &[
    (b"\x89PNG\r\n\x1a\n", MediaKind::StillPicture),
    (b"GIF8", MediaKind::StillPicture),
    (br#"{"lottie":"#, MediaKind::VectorGraphic),
    (br"ID3", MediaKind::SoundTrack),
];

/// What is made of each film where nothing else is asked for.
static LADDER: &[Rung] = &[
    Rung {
        height: 360,
        kilobits: 800,
        codec: c"h264",
    },
    Rung {
        height: 1080,
        kilobits: { 4 * 1_000 },
        codec: c"h264",
    },
    Rung {
        height: 2160,
        kilobits: 16_000,
        codec: cr#"av1" {main}"#,
    },
];

type Outcome<T, E = MediaFailure> = core::result::Result<T, E>;
type BoxedStream<'s, T> = Pin<Box<dyn Stream<Item = Outcome<T>> + Send + 's>>;

struct Rung {
    height: u32,
    kilobits: u32,
    codec: &'static CStr,
}

// ---- the C library

pub mod ffi {
    use super::*;

    #[repr(C)]
    #[derive(Clone, Copy)]
    pub struct av_rational {
        pub num: c_int,
        pub den: c_int,
    }

    /// A side of a stream: which one it is, the stream says.
    #[repr(C)]
    pub union av_side {
        pub rotation: c_int,
        pub gain: av_rational,
        pub text: *const c_char,
    }

    #[repr(C)]
    pub enum av_status {
        ok = 0,
        again = -11,
        eof = { -('E' as isize) | ((b'O' as isize) << 8) },
    }

    pub type av_callback =
        Option<unsafe extern "C" fn(opaque: *mut c_void, into: *mut u8, size: c_int) -> c_int>;

    #[link(name = "avformat", kind = "dylib")]
    #[allow(improper_ctypes)]
    unsafe extern "C" {
        pub fn av_open(context: *mut *mut c_void, url: *const c_char, read: av_callback) -> c_int;
        pub fn av_duration(context: *const c_void) -> i64;
        pub fn av_side_of(context: *const c_void, stream: c_uint) -> *const av_side;
        pub fn av_close(context: *mut *mut c_void);
        pub static av_version_text: [c_char; 16];
    }
}

/// A container that was opened.
pub struct Container(*mut c_void);

// SAFETY: the library does not look at threads.
unsafe impl Send for Container {}
unsafe impl Sync for Container {}

impl Container {
    pub fn open(path: &FsPath) -> Outcome<Self> {
        unsafe extern "C" fn never(_: *mut c_void, _: *mut u8, _: c_int) -> c_int {
            ffi::av_status::eof as c_int
        }

        let url = std::ffi::CString::new(path.to_string_lossy().as_bytes())
            .map_err(|_| MediaFailure::NotFound)?;
        let mut context = std::ptr::null_mut();
        match unsafe { ffi::av_open(&mut context, url.as_ptr(), Some(never)) } {
            0 => Ok(Self(context)),
            code => Err(MediaFailure::Library { code }),
        }
    }

    pub unsafe fn rotation(&self, stream: c_uint) -> Option<c_int> {
        let side = unsafe { ffi::av_side_of(self.0, stream).as_ref()? };
        Some(unsafe { side.rotation })
    }
}

impl Drop for Container {
    fn drop(&mut self) {
        unsafe { ffi::av_close(&mut self.0) }
    }
}

// ---- what clients see

/// The number of an asset: a SHA-256.
#[derive(Clone, Debug, PartialEq, Eq, Hash, PartialOrd, Ord, Serialize, Deserialize)]
pub struct AssetId(Cow<'static, str>);

/// Seconds and their parts.
#[derive(Clone, Copy, Debug, PartialEq, PartialOrd, Serialize, Deserialize)]
pub struct Seconds(f64);

#[derive(Clone, Debug, Serialize, Deserialize)]
#[serde(rename_all = "camelCase")]
#[cfg_attr(feature = "docs", derive(utoipa::ToSchema))]
pub struct Asset {
    pub id: AssetId,
    pub kind: MediaKind,
    pub original_name: String,
    pub byte_size: u64,
    pub tracks: Vec<tracks::Track>,
    /// Where it may be had, by the name of the rendition.
    pub renditions: HashMap<String, Rendition>,
    #[serde(default)]
    pub labels: HashSet<String>,
    pub focal_point: Option<(f32, f32)>,
    #[serde(skip_serializing_if = "Option::is_none")]
    pub alt_text: Option<BTreeMap<String, String>>,
    pub job: Option<Box<jobs::Job>>,
    #[serde(skip, default = "PathBuf::new")]
    pub path_on_disk: PathBuf,
}

#[derive(Clone, Copy, Debug, PartialEq, Eq, Hash, PartialOrd, Ord, Serialize, Deserialize)]
#[serde(rename_all = "camelCase")]
pub enum MediaKind {
    StillPicture,
    VectorGraphic,
    SoundTrack,
    MotionPicture,
    #[serde(other)]
    Unknown,
}

/// A file made of an asset.
#[derive(Clone, Debug, Serialize, Deserialize)]
#[serde(rename_all = "SCREAMING-KEBAB-CASE", deny_unknown_fields)]
pub struct Rendition {
    pub url: String,
    pub content_type: String,
    #[serde(rename = "SHA-256")]
    pub sha256: Option<String>,
    pub bit_rate: Option<u32>,
    #[serde(default)]
    pub is_drm_protected: bool,
}

pub mod tracks {
    //! What stands in containers.

    use super::{Deserialize, Seconds, Serialize};

    /// A track, told by its `codec_type`.
    #[derive(Clone, Debug, Serialize, Deserialize)]
    #[serde(tag = "codec_type", rename_all = "SCREAMING-KEBAB-CASE")]
    pub enum Track {
        Video {
            width: u32,
            height: u32,
            #[serde(default)]
            rotation: i16,
            frame_rate: Ratio,
        },
        Audio {
            channels: u8,
            sample_rate: u32,
            language: Option<String>,
        },
        TimedText(Subtitles),
        #[serde(rename = "DATA")]
        OpaqueData,
    }

    /// As `30000/1001`: two numbers.
    #[derive(Clone, Copy, Debug, PartialEq, Eq, Serialize, Deserialize)]
    pub struct Ratio(pub u32, pub u32);

    #[derive(Clone, Debug, Serialize, Deserialize)]
    #[serde(rename_all = "camelCase")]
    pub struct Subtitles {
        pub language: String,
        #[serde(default)]
        pub is_forced: bool,
        pub cues: Vec<Cue>,
    }

    #[derive(Clone, Debug, Serialize, Deserialize)]
    pub struct Cue {
        pub from: Seconds,
        pub to: Seconds,
        pub lines: Vec<String>,
        pub r#where: Option<Position>,
    }

    #[derive(Clone, Copy, Debug, Default, PartialEq, Eq, Serialize, Deserialize)]
    #[serde(rename_all = "kebab-case")]
    pub enum Position {
        TopLeft,
        #[default]
        BottomCentre,
    }
}

pub mod jobs {
    use super::*;

    /// A job and where it stands.
    #[derive(Clone, Debug, Serialize, Deserialize)]
    pub struct Job {
        pub number: u64,
        pub steps: Vec<Step>,
        pub progress: Progress,
    }

    /// What is done to an asset, one after another.
    #[derive(Clone, Debug, Serialize, Deserialize)]
    #[serde(rename_all = "kebab-case")]
    pub enum Step {
        StripMetadata,
        Resize(Fit),
        Crop {
            left: u32,
            top: u32,
            size: [u32; 2],
        },
        #[serde(rename_all = "SCREAMING_SNAKE_CASE")]
        Transcode {
            video_codec: Codec,
            audio_codec: Option<Codec>,
            crf_value: u8,
        },
        /// A text and its opacity.
        WaterMark(String, f32),
        OneOf(Vec<Step>),
    }

    #[derive(Clone, Debug, Serialize, Deserialize)]
    #[serde(tag = "fit", content = "box")]
    pub enum Fit {
        #[serde(rename = "cover")]
        Cover(u32, u32),
        #[serde(rename = "contain")]
        Contain {
            r#box: [u32; 2],
            background: Option<String>,
        },
    }

    #[derive(Clone, Copy, Debug, PartialEq, Eq, Serialize, Deserialize)]
    #[serde(rename_all = "SCREAMING-KEBAB-CASE")]
    pub enum Codec {
        H264,
        Av1Main,
        OpusLow,
    }

    #[derive(Clone, Debug, Serialize, Deserialize)]
    #[serde(untagged)]
    pub enum Progress {
        Waiting,
        Percent(u8),
        Failed { step: usize, why: String },
    }
}

/// What is asked of a delivery, in its query.
#[derive(Clone, Debug, Default, Deserialize)]
#[serde(rename_all = "lowercase", default)]
pub struct DeliveryQuery {
    pub width: Option<u16>,
    pub height: Option<u16>,
    pub format: Option<String>,
    pub dpr: f32,
    #[serde(rename = "dl")]
    pub is_download: bool,
}

/// What ends an upload.
#[derive(Debug, Serialize)]
#[serde(tag = "result", rename_all = "snake_case")]
enum UploadAnswer {
    Stored(Asset),
    AlreadyThere { id: AssetId, since: Option<String> },
    Refused { reasons: Vec<Cow<'static, str>> },
}

#[derive(Debug, thiserror::Error)]
#[error("media")]
pub enum MediaFailure {
    #[error("there is no such asset")]
    NotFound,
    #[error("the library has said {code} ({})", if *.code < 0 { "bad" } else { "odd" })]
    Library { code: c_int },
    #[error(transparent)]
    Io(#[from] std::io::Error),
    #[error("multipart: {0}")]
    Multipart(#[from] axum::extract::multipart::MultipartError),
}

impl IntoResponse for MediaFailure {
    fn into_response(self) -> Response {
        let status = match &self {
            MediaFailure::NotFound => StatusCode::NOT_FOUND,
            MediaFailure::Multipart(e) => e.status(),
            MediaFailure::Library { .. } | MediaFailure::Io(..) => {
                StatusCode::INTERNAL_SERVER_ERROR
            }
        };
        (status, format!("{{\"error\": {:?}}}", self.to_string())).into_response()
    }
}

/// Where bytes are kept.
pub trait Vault: Send + Sync + 'static {
    /// What reads them, for as long as the vault is there.
    type Reader<'v>: tokio::io::AsyncRead + Send + Unpin
    where
        Self: 'v;

    fn read<'v>(&'v self, id: &AssetId) -> impl Future<Output = Outcome<Self::Reader<'v>>> + Send;

    fn url(&self, id: &AssetId) -> Cow<'_, str> {
        Cow::Owned(format!("/assets/{}", id.0))
    }

    #[cfg(debug_assertions)]
    #[doc(hidden)]
    fn is_debug(&self) -> bool {
        true
    }
}

/// Files below a folder.
pub struct Folder<const DEPTH: usize = 2>(PathBuf);

impl<const DEPTH: usize> Folder<DEPTH> {
    fn path(&self, id: &AssetId) -> PathBuf {
        let mut path = self.0.clone();
        path.extend((0..DEPTH).filter_map(|at| id.0.get(2 * at..2 * (at + 1))));
        path.join(&*id.0)
    }
}

impl<const DEPTH: usize> Vault for Folder<{ DEPTH }> {
    type Reader<'v> = tokio::io::BufReader<tokio::fs::File>;

    async fn read<'v>(&'v self, id: &AssetId) -> Outcome<Self::Reader<'v>> {
        let file = tokio::fs::File::open(self.path(id)).await?;
        Ok(tokio::io::BufReader::with_capacity(1 << 16, file))
    }
}

/// Hashes what goes through it.
struct Hashing<S> {
    inner: S,
    hasher: Sha256,
}

impl<S, E> Stream for Hashing<S>
where
    S: Stream<Item = Result<Bytes, E>> + Unpin,
{
    type Item = Result<Bytes, E>;

    fn poll_next(mut self: Pin<&mut Self>, cx: &mut Context<'_>) -> Poll<Option<Self::Item>> {
        match Pin::new(&mut self.inner).poll_next(cx) {
            Poll::Ready(Some(Ok(bytes))) => {
                self.hasher.update(&bytes);
                Poll::Ready(Some(Ok(bytes)))
            }
            other => other,
        }
    }
}

pub async fn upload<const N: usize>(
    State(folder): State<Arc<Folder<N>>>,
    mut parts: Multipart,
) -> Outcome<impl IntoResponse> {
    macro_rules! refused {
        ($($why:expr),+) => {
            return Ok((StatusCode::OK, Json(UploadAnswer::Refused { reasons: vec![$($why.into()),+] })))
        };
    }

    let Some(part) = parts.next_field().await? else {
        refused!(
            "there is no part",
            "send `multipart/form-data; boundary=\"{\"`"
        )
    };
    let original_name = part.file_name().unwrap_or("unnamed").to_owned();
    let mut stream = Hashing {
        inner: part,
        hasher: Sha256::new(),
    };
    let mut kept = Vec::new();
    while let Some(bytes) = stream.try_next().await? {
        if kept.len() + bytes.len() > MOST_BYTES {
            refused!("too large")
        }
        kept.extend_from_slice(&bytes);
    }
    let Some(&(_, kind)) = SNIFFED.iter().find(|(magic, _)| kept.starts_with(magic)) else {
        refused!(format!("{original_name} is nothing that we know"))
    };
    let id = AssetId(
        stream
            .hasher
            .finalize()
            .iter()
            .map(|byte| format!("{byte:02x}"))
            .collect(),
    );
    let path = folder.path(&id);
    if tokio::fs::try_exists(&path).await? {
        return Ok((
            StatusCode::OK,
            Json(UploadAnswer::AlreadyThere { id, since: None }),
        ));
    }
    let mut file = tokio::fs::File::create(&path).await?;
    file.write_all(&kept).await?;
    let asset = Asset {
        id,
        kind,
        original_name,
        byte_size: kept.len() as u64,
        tracks: vec![],
        renditions: HashMap::new(),
        labels: HashSet::new(),
        focal_point: None,
        alt_text: None,
        job: None,
        path_on_disk: path,
    };
    Ok((StatusCode::CREATED, Json(UploadAnswer::Stored(asset))))
}

async fn deliver(
    State(folder): State<Arc<Folder<2>>>,
    Path(id): Path<AssetId>,
    Query(query): Query<DeliveryQuery>,
) -> Outcome<impl IntoResponse> {
    let mut reader = folder.read(&id).await?;
    let mut magic = [0; 8];
    reader.read_exact(&mut magic).await?;
    reader.seek(SeekFrom::Start(0)).await?;
    let disposition = if query.is_download {
        "attachment; filename=\"{}\""
    } else {
        "inline"
    };
    let rung = LADDER
        .iter()
        .find(|rung| Some(rung.height) == query.height.map(u32::from));
    tracing::debug!(codec = ?rung.map(|rung| (rung.codec, rung.kilobits)), url = %folder.url(&id));
    Ok((
        [(header::CONTENT_DISPOSITION, disposition)],
        Body::from_stream(ReaderStream::new(reader)),
    ))
}

fn lengths<'s>(chunks: impl Stream<Item = Outcome<Bytes>> + Send + 's) -> BoxedStream<'s, usize> {
    chunks.map(|chunk| chunk.map(|bytes| bytes.len())).boxed()
}

pub fn app(folder: Folder) -> Router {
    let cors = CorsLayer::new().allow_methods([Method::GET, Method::POST]);
    Router::new()
        .route("/assets", post(upload::<2>))
        .route("/assets/{id}", get(deliver))
        .layer((
            cors,
            TraceLayer::new_for_http(),
            DefaultBodyLimit::max(MOST_BYTES),
        ))
        .with_state(Arc::new(folder))
}

/*
 * #[derive(Serialize)]
 * struct Removed { why: &'static str } /* it's "gone" */
 */

#[cfg(test)]
mod tests {
    use super::{jobs::*, *};

    #[test]
    fn steps_are_told_by_their_names() {
        let steps: Vec<Step> = serde_json::from_str(
            r#"["strip-metadata", {"resize": {"fit": "cover", "box": [4, 3]}}, {"water-mark": ["}", 0.5]}]"#,
        )
        .unwrap();
        assert!(matches!(
            steps[..],
            [
                Step::StripMetadata,
                Step::Resize(Fit::Cover(4, 3)),
                Step::WaterMark(..)
            ]
        ));
    }

    #[tokio::test]
    async fn lengths_are_those_of_chunks() {
        let chunks = futures::stream::iter([Ok(Bytes::from_static(b"{")), Ok(Bytes::new())]);
        let found: Vec<usize> = lengths(chunks).try_collect().await.unwrap();
        assert_eq!(found, [1, 0]);
    }
}
