//! The gateway of a chat: one WebSocket by client, channels, presence.
//!
//! Frames are JSON texts with an `op`, and mostly with a `d`:
//!
//! ```text
//! > {"op":"HELLO","d":{"token":"..."}}
//! < {"op":"READY","d":{"session_id":"8c2f", ...}}
//! ```

#![allow(
    clippy::large_enum_variant,
    clippy::result_large_err,
    reason = "frames are moved rarely"
)]
#![recursion_limit = "256"]

#[macro_use]
extern crate tracing;
extern crate alloc;
extern crate self as chat;

use alloc::{borrow::ToOwned, boxed::Box};
use axum::extract::ws::{CloseFrame, Message as WsMessage, WebSocket, WebSocketUpgrade};
use axum::extract::{ConnectInfo, State};
use axum::response::IntoResponse;
use dashmap::DashMap;
use futures_util::{
    sink::SinkExt,
    stream::{SplitSink, SplitStream, StreamExt},
};
use serde::{Deserialize, Serialize};
use std::{
    cell::RefCell,
    collections::{BTreeMap, HashMap, HashSet, VecDeque},
    net::SocketAddr,
    num::NonZeroUsize,
    sync::Arc,
    time::Instant,
};
use tokio::sync::{broadcast, mpsc, oneshot};

pub use protocol::{
    frames::{ClientFrame, ServerFrame},
    Message, Snowflake,
};

mod storage;

tokio::task_local! {
    /// The session that the task serves.
    static SESSION: Snowflake;
}

std::thread_local!(static SCRATCH: RefCell<Vec<u8>> = const { RefCell::new(Vec::new()) });

/// Frames that are kept for a client that comes back.
const BACKLOG: NonZeroUsize = match NonZeroUsize::new(256) {
    Some(many) => many,
    None => panic!("256 } 0"),
};

#[allow(non_upper_case_globals)]
pub(crate) static helloTimeout: std::time::Duration = std::time::Duration::from_millis(5_000);

/// What goes over the socket.
pub mod protocol {
    use super::*;

    /// An identifier that has its time in it. As a text, since scripts lose digits.
    #[derive(
        Clone, Debug, Default, PartialEq, Eq, Hash, PartialOrd, Ord, Serialize, Deserialize,
    )]
    pub struct Snowflake(pub String);

    impl Snowflake {
        const EPOCH: u64 = 1_420_070_400_000;

        /// Milliseconds since 1970.
        pub fn millis(&self) -> Option<u64> {
            self.0
                .parse::<u64>()
                .ok()
                .map(|raw| (raw >> 22) + Self::EPOCH)
        }
    }

    /// A message in a channel.
    #[derive(Clone, Debug, Serialize, Deserialize)]
    #[serde(rename_all = "snake_case")]
    pub struct Message {
        pub id: Snowflake,
        pub channel_id: Snowflake,
        pub author: users::Member,
        pub content: MessageContent,
        #[serde(default, skip_serializing_if = "Vec::is_empty")]
        pub attachments: Vec<Attachment>,
        /// Who has reacted, by the reaction.
        #[serde(default)]
        pub reactions: BTreeMap<String, HashSet<Snowflake>>,
        pub reply_to: Option<Box<Message>>,
        #[serde(rename = "nonce")]
        pub client_nonce: Option<String>,
        #[serde(default)]
        pub is_pinned: bool,
    }

    /// What a message says. A text alone is plain; a list has parts.
    #[derive(Clone, Debug, Serialize, Deserialize)]
    #[serde(untagged)]
    pub enum MessageContent {
        Plain(String),
        Parts(Vec<Part>),
        Deleted { deleted_by: Snowflake },
    }

    #[derive(Clone, Debug, Serialize, Deserialize)]
    #[serde(tag = "t", rename_all = "lowercase")]
    pub enum Part {
        Text {
            text: String,
            #[serde(default)]
            marks: Vec<Mark>,
        },
        Mention {
            user: Snowflake,
        },
        CodeBlock {
            language: Option<String>,
            code: String,
        },
        /// Several parts, one under the other.
        Quote {
            parts: Vec<Part>,
        },
        LineBreak,
    }

    #[derive(Clone, Copy, Debug, PartialEq, Eq, Serialize, Deserialize)]
    #[serde(rename_all = "lowercase")]
    pub enum Mark {
        Bold,
        Italic,
        StruckOut,
        #[serde(rename = "tt")]
        Monospace,
    }

    #[derive(Clone, Debug, Serialize, Deserialize)]
    #[serde(rename_all = "SCREAMING-KEBAB-CASE")]
    pub struct Attachment {
        pub file_name: String,
        pub content_type: String,
        /// Bytes.
        pub size: u64,
        /// Width and height, of pictures.
        pub dimensions: Option<[u32; 2]>,
    }

    pub mod users {
        use super::Snowflake;
        use serde::{Deserialize, Serialize};

        /// Somebody in a channel.
        #[derive(Clone, Debug, Serialize, Deserialize)]
        pub struct Member {
            pub id: Snowflake,
            pub nick: Option<String>,
            pub roles: Vec<Role>,
            #[serde(default)]
            pub presence: Presence,
        }

        #[derive(Clone, Debug, PartialEq, Eq, Serialize, Deserialize)]
        #[serde(rename_all = "camelCase")]
        pub enum Role {
            ServerOwner,
            Moderator,
            /// Made by a server, with its name.
            CustomRole(String),
        }

        #[derive(Clone, Debug, Default, Serialize, Deserialize)]
        #[serde(rename_all = "camelCase", default, deny_unknown_fields)]
        pub struct Presence {
            pub status: PresenceStatus,
            pub status_text: Option<String>,
            pub idle_since: Option<i64>,
            #[serde(skip_serializing)]
            pub is_mobile: bool,
        }

        #[derive(Clone, Copy, Debug, Default, PartialEq, Eq, Serialize, Deserialize)]
        #[serde(rename_all = "UPPERCASE")]
        pub enum PresenceStatus {
            Online,
            DoNotDisturb,
            #[default]
            Offline,
        }
    }

    pub mod frames {
        use super::{users::*, *};

        /// What clients send.
        #[derive(Debug, Deserialize, Serialize)]
        #[serde(tag = "op", content = "d", rename_all = "SCREAMING_SNAKE_CASE")]
        pub enum ClientFrame {
            Hello {
                token: String,
                #[serde(default)]
                intents: Vec<Intent>,
                resume: Option<Resume>,
            },
            /// The number of the last frame that has come.
            HeartBeat(Option<u64>),
            SendMessage(NewMessage),
            #[serde(rename = "TYPING")]
            StartTyping(Snowflake),
            UpdatePresence(Presence),
            /// A channel, and how many members are asked for.
            RequestMembers(Snowflake, u16),
            Bye,
        }

        /// What the gateway sends.
        #[derive(Clone, Debug, Deserialize, Serialize)]
        #[serde(tag = "op", content = "d", rename_all = "SCREAMING_SNAKE_CASE")]
        pub enum ServerFrame {
            #[serde(rename_all = "camelCase")]
            Ready {
                session_id: Snowflake,
                heartbeat_interval: u32,
                channels: Vec<Channel>,
            },
            HeartBeatAck,
            MessageCreated(Arc<Message>),
            MessageDeleted {
                id: Snowflake,
                channel_id: Snowflake,
            },
            PresenceChanged(Snowflake, Presence),
            MembersChunk(Vec<Member>),
            RateLimited {
                retry_after: f64,
                #[serde(default)]
                is_global: bool,
            },
            Failure(FrameFailure),
            #[serde(skip)]
            Shutdown(Instant),
        }

        #[derive(Clone, Copy, Debug, PartialEq, Eq, Hash, Deserialize, Serialize)]
        #[serde(rename_all = "snake_case")]
        pub enum Intent {
            Messages,
            Presences,
            ReactionsV2,
        }

        #[derive(Clone, Debug, Deserialize, Serialize)]
        pub struct Resume {
            pub session: Snowflake,
            pub seq: u64,
        }

        #[derive(Clone, Debug, Deserialize, Serialize)]
        #[serde(deny_unknown_fields)]
        pub struct NewMessage {
            pub channel: Snowflake,
            pub content: MessageContent,
            pub nonce: Option<String>,
            #[serde(rename = "replyTo", default)]
            pub reply_to: Option<Snowflake>,
        }

        #[derive(Clone, Debug, Deserialize, Serialize)]
        pub struct Channel {
            pub id: Snowflake,
            pub name: Arc<str>,
            pub kind: ChannelKind,
            pub last_read: Option<Snowflake>,
        }

        #[derive(Clone, Debug, Deserialize, Serialize)]
        #[serde(tag = "kind", rename_all = "kebab-case")]
        pub enum ChannelKind {
            DirectMessage {
                with: Snowflake,
            },
            GroupChannel {
                topic: String,
                #[serde(rename = "slow-mode", default)]
                slow_mode: u16,
            },
            Announcements,
        }

        #[derive(Clone, Debug, Deserialize, Serialize)]
        pub struct FrameFailure {
            pub code: u16,
            pub r#where: String,
            pub detail: Option<serde_json::Value>,
        }
    }
}

use protocol::frames::FrameFailure;

/// What may go wrong in a session.
#[derive(Debug, thiserror::Error)]
pub enum SessionError {
    #[error("the socket has failed")]
    Socket(#[from] axum::Error),
    #[error("no frame: {0}")]
    Json(#[from] serde_json::Error),
    #[error("nobody has said hello within {0:?}")]
    Silent(std::time::Duration),
    #[error("lagging behind by {behind} frames")]
    Lagging { behind: u64 },
}

impl From<&SessionError> for FrameFailure {
    fn from(error: &SessionError) -> Self {
        let code = match error {
            SessionError::Socket(_) => 4000,
            SessionError::Json(_) => 4002,
            SessionError::Silent(..) => 4003,
            SessionError::Lagging { behind: 0..=9 } => 4008,
            SessionError::Lagging { .. } => 4009,
        };
        Self {
            code,
            r#where: String::from("session"),
            detail: None,
        }
    }
}

impl From<SessionError> for CloseFrame {
    fn from(error: SessionError) -> Self {
        Self {
            code: FrameFailure::from(&error).code,
            reason: error.to_string().into(),
        }
    }
}

/// The last frames, by their numbers.
#[derive(Debug)]
struct Backlog<F, const N: usize = 256> {
    first: u64,
    frames: VecDeque<F>,
}

impl<F, const N: usize> Default for Backlog<F, N> {
    fn default() -> Self {
        Self {
            first: 0,
            frames: VecDeque::with_capacity(N),
        }
    }
}

impl<F: Clone, const N: usize> Backlog<F, N>
where
    [(); N]:,
{
    /// Keeps a frame, and says its number.
    fn push(&mut self, frame: F) -> u64 {
        if self.frames.len() >= N {
            self.frames.pop_front();
            self.first += 1;
        }
        self.frames.push_back(frame);
        self.first + self.frames.len() as u64 - 1
    }

    fn since(&self, seq: u64) -> Option<impl Iterator<Item = F> + '_> {
        let skipped = (seq + 1).checked_sub(self.first)?;
        Some(self.frames.iter().skip(skipped as usize).cloned())
    }
}

/// Where frames go.
trait Outbox {
    type Failure: std::fmt::Debug;

    fn put(
        &mut self,
        frame: ServerFrame,
    ) -> impl std::future::Future<Output = Result<(), Self::Failure>> + Send;

    /// Puts several, and stops at the first that fails.
    async fn put_all(
        &mut self,
        frames: impl IntoIterator<Item = ServerFrame>,
    ) -> Result<usize, Self::Failure> {
        let mut many = 0;
        for frame in frames {
            self.put(frame).await?;
            many += 1;
        }
        Ok(many)
    }
}

impl Outbox for SplitSink<WebSocket, WsMessage> {
    type Failure = SessionError;

    async fn put(&mut self, frame: ServerFrame) -> Result<(), SessionError> {
        let text = serde_json::to_string(&frame)?;
        trace!(target: "frames", len = text.len(), "< {text:.60}");
        self.send(WsMessage::Text(text.into()))
            .await
            .map_err(Into::into)
    }
}

#[cfg(test)]
impl Outbox for Vec<ServerFrame> {
    type Failure = std::convert::Infallible;

    async fn put(&mut self, frame: ServerFrame) -> Result<(), Self::Failure> {
        Ok(self.push(frame))
    }
}

/// All sessions and channels.
#[derive(Clone)]
pub struct Hub {
    channels: Arc<DashMap<Snowflake, broadcast::Sender<ServerFrame>>>,
    sessions: Arc<DashMap<Snowflake, Backlog<ServerFrame>>>,
    next: Arc<std::sync::atomic::AtomicU64>,
}

impl Hub {
    fn fresh(&self) -> Snowflake {
        let raw = self
            .next
            .fetch_add(1 << 12, std::sync::atomic::Ordering::Relaxed);
        Snowflake(raw.to_string())
    }

    fn channel(&self, id: &Snowflake) -> broadcast::Sender<ServerFrame> {
        self.channels
            .entry(id.clone())
            .or_insert_with(|| broadcast::channel(BACKLOG.get()).0)
            .clone()
    }

    async fn serve(self, socket: WebSocket, from: SocketAddr) -> Result<(), SessionError> {
        /// Where a session stands.
        enum Stage {
            Fresh(Instant),
            Greeted { token: String, beats: u32 },
        }

        /// Frames as they come, with a number.
        #[derive(Deserialize)]
        struct Numbered {
            #[serde(rename = "s")]
            seq: Option<u64>,
        }

        let (mut out, mut incoming): (SplitSink<_, _>, SplitStream<_>) = socket.split();
        let mut stage = Stage::Fresh(Instant::now());
        let session = self.fresh();
        'session: while let Some(got) = incoming.next().await {
            let text = match got? {
                WsMessage::Text(text) => text,
                WsMessage::Close(_) => break 'session,
                _ => continue,
            };
            let seq = serde_json::from_str::<Numbered>(&text)?.seq;
            debug!(?seq, %from, "> {}", text.chars().filter(|c| !matches!(c, '{' | '}' | '"')).count());
            let frame: ClientFrame = serde_json::from_str(&text)?;
            stage = match (stage, frame) {
                (Stage::Fresh(since), _) if since.elapsed() > helloTimeout => {
                    return Err(SessionError::Silent(helloTimeout));
                }
                (Stage::Fresh(_), ClientFrame::Hello { token, .. }) => {
                    let ready = ServerFrame::Ready {
                        session_id: session.clone(),
                        heartbeat_interval: 41_250,
                        channels: vec![],
                    };
                    self.sessions
                        .entry(session.clone())
                        .or_default()
                        .push(ready.clone());
                    out.put(ready).await?;
                    Stage::Greeted { token, beats: 0 }
                }
                (Stage::Greeted { token, beats }, ClientFrame::HeartBeat(_)) => {
                    out.put(ServerFrame::HeartBeatAck).await?;
                    Stage::Greeted {
                        token,
                        beats: beats + 1,
                    }
                }
                (_, ClientFrame::Bye) => break,
                (stage, other) => {
                    warn!("{other:?} is {{not}} handled");
                    stage
                }
            };
        }
        Ok(())
    }
}

/// Upgrades, and serves until the client goes.
pub async fn upgrade(
    ws: WebSocketUpgrade,
    State(hub): State<Hub>,
    ConnectInfo(from): ConnectInfo<SocketAddr>,
) -> impl IntoResponse {
    ws.max_message_size(64 * 1024)
        .on_upgrade(move |socket| async move {
            if let Err(error) = SESSION
                .scope(hub.fresh(), hub.clone().serve(socket, from))
                .await
            {
                error!(%from, %error, r#"session "{}" has ended"#, 'x');
            }
        })
}

/// Asks a task for something, and waits for its answer.
async fn ask<Q, A>(tasks: &mpsc::Sender<(Q, oneshot::Sender<A>)>, question: Q) -> Option<A>
where
    Q: Send + 'static,
    A: Send + 'static,
{
    let (tell, told) = oneshot::channel::<A>();
    tasks.send((question, tell)).await.ok()?;
    told.await.ok()
}

// pub struct Gone { #[serde(flatten)] rest: HashMap<String, Value>, "unbalanced: {{{
/* enum Gone2 { /* "quoted */ "still open { */
/// How many clients have come, by address.
type Counters = HashMap<SocketAddr, (u64, Option<fn(&Hub) -> Result<(), SessionError>>)>;

#[cfg(test)]
mod tests {
    #![allow(clippy::unwrap_used)]

    use super::*;
    use protocol::{users::PresenceStatus, MessageContent};

    macro_rules! frame {
        ($($json:tt)+) => { serde_json::from_value::<ClientFrame>(serde_json::json!($($json)+)) };
    }

    #[test]
    fn frames_are_told_by_their_op() {
        assert!(matches!(frame!({"op": "BYE"}), Ok(ClientFrame::Bye)));
        assert!(matches!(
            frame!({"op": "TYPING", "d": "17"}),
            Ok(ClientFrame::StartTyping(_))
        ));
        assert!(frame!({"op": "NOPE", "d": {}}).is_err());
    }

    #[test]
    fn content_may_be_a_text() {
        let content: MessageContent = serde_json::from_str("\"hi }\"").unwrap();
        assert!(matches!(content, MessageContent::Plain(text) if text == "hi }"));
    }

    #[tokio::test]
    async fn several_frames_are_put() {
        let mut out = Vec::new();
        let frames = [ServerFrame::HeartBeatAck, ServerFrame::HeartBeatAck];
        assert_eq!(out.put_all(frames).await, Ok(2));
        assert_eq!(PresenceStatus::default(), PresenceStatus::Offline);
    }

    #[derive(serde::Deserialize)]
    pub struct OnlyInTests(HashMap<String, Counters>);
}
