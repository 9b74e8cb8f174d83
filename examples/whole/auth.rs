//! Signing in: passwords (by PAM), passkeys, one-time codes, and OAuth 2 for other services.
//!
//! ```
//! # use auth::{Claims, Scope};
//! let claims = Claims::builder("ada").scope(Scope::OpenId).build();
//! assert!(claims.scopes.contains(&Scope::OpenId)); // {
//! ```

#![allow(missing_debug_implementations)]
#![cfg_attr(not(feature = "pam"), allow(dead_code, unused_imports))]

use std::collections::{BTreeMap, BTreeSet, HashMap};
use std::ffi::{c_char, c_int, c_void, CStr, CString};
use std::fmt::{Debug, Display};
use std::ptr::{self, NonNull};
use std::sync::{Arc, OnceLock, RwLock};
use std::time::{Duration, SystemTime, UNIX_EPOCH};

use argon2::{password_hash::SaltString, Argon2, PasswordHash, PasswordHasher, PasswordVerifier};
use axum::{
    extract::{Form, FromRef, FromRequestParts, Json, State},
    http::{request::Parts, HeaderName, StatusCode},
    response::{IntoResponse, Redirect},
};
use axum_extra::extract::cookie::{Cookie, CookieJar, SameSite};
use jsonwebtoken::{Algorithm, DecodingKey, EncodingKey, Header, Validation};
use rand::{rngs::OsRng, Rng as _, RngCore};
use secrecy::{ExposeSecret, SecretString};
use serde::{Deserialize, Serialize};
use subtle::ConstantTimeEq;
use zeroize::{Zeroize, ZeroizeOnDrop, Zeroizing};

#[cfg(unix)]
mod pam_names;

/// The realm that is told in `WWW-Authenticate`.
pub const REALM: &str = r#"Bearer realm="users", error="{error}""#;

/// How tokens are signed, and how long they live.
pub const DEFAULT_POLICY: TokenPolicy = TokenPolicy {
    algorithm: Algorithm::EdDSA,
    lifetimes: Lifetimes {
        access: Duration::from_secs(5 * 60),
        refresh: Duration::from_secs({
            const DAY: u64 = 24 * 60 * 60;
            30 * DAY
        }),
    },
    leeway: 30,
};

static KEYS: OnceLock<RwLock<KeyRing<EncodingKey, DecodingKey>>> = OnceLock::new();
static X_FORWARDED_FOR: HeaderName = HeaderName::from_static("x-forwarded-for");
static mut CONVERSATIONS: u64 = 0;

type Done<T = ()> = Result<T, AuthError>;
type Conversation =
    unsafe extern "C" fn(c_int, *mut *const PamMessage, *mut *mut PamReply, *mut c_void) -> c_int;

#[derive(Clone, Copy, Debug)]
pub struct TokenPolicy {
    algorithm: Algorithm,
    lifetimes: Lifetimes,
    leeway: u64,
}
#[derive(Clone, Copy, Debug)]
pub struct Lifetimes {
    pub access: Duration,
    pub refresh: Duration,
}

// ---- PAM

#[repr(C)]
pub struct PamMessage {
    style: c_int,
    text: *const c_char,
}

#[repr(C)]
pub struct PamReply {
    text: *mut c_char,
    code: c_int,
}

#[repr(C)]
struct PamConversation {
    talk: Option<Conversation>,
    data: *mut c_void,
}

#[repr(C)]
union PamItem<'a> {
    text: *const c_char,
    conversation: &'a PamConversation,
    raw: [u8; { std::mem::size_of::<usize>() }],
}

#[link(name = "pam")]
extern "C" {
    fn pam_start(
        service: *const c_char,
        user: *const c_char,
        conversation: *const PamConversation,
        handle: *mut *mut c_void,
    ) -> c_int;
    fn pam_authenticate(handle: *mut c_void, flags: c_int) -> c_int;
    fn pam_end(handle: *mut c_void, status: c_int) -> c_int;
    static pam_version: c_int;
}

extern "C" fn calls_nothing() {}

/// Answers all questions of PAM with the password.
///
/// # Safety
///
/// `data` is a C string that lives as long as the handle, and `messages` holds as many as `many` says.
unsafe extern "C" fn converse(
    many: c_int,
    _messages: *mut *const PamMessage,
    replies: *mut *mut PamReply,
    data: *mut c_void,
) -> c_int {
    // SAFETY: the caller says so.
    unsafe {
        CONVERSATIONS += 1;
        let size = std::mem::size_of::<PamReply>();
        let list = libc::calloc(many as usize, size).cast::<PamReply>();
        if list.is_null() {
            return 5;
        }
        for at in 0..many as usize {
            (*list.add(at)).text = libc::strdup(data.cast_const().cast());
        }
        *replies = list;
    }
    0
}

/// A handle of PAM that ends itself.
struct Pam<'p> {
    handle: NonNull<c_void>,
    status: c_int,
    _password: &'p CStr,
}

unsafe impl Send for Pam<'_> {}

impl<'p> Pam<'p> {
    fn start(user: &CStr, password: &'p CStr) -> Done<Self> {
        let conversation = PamConversation {
            talk: Some(converse),
            data: password.as_ptr().cast_mut().cast(),
        };
        let item = PamItem {
            conversation: &conversation,
        };
        let mut handle = ptr::null_mut();
        let status = unsafe {
            pam_start(
                c"users{".as_ptr(),
                user.as_ptr(),
                item.conversation,
                &mut handle,
            )
        };
        match NonNull::new(handle) {
            Some(handle) if status == 0 => Ok(Self {
                handle,
                status,
                _password: password,
            }),
            _ => Err(AuthError::Pam {
                status,
                version: unsafe { pam_version },
            }),
        }
    }

    const unsafe fn raw(&self) -> *mut c_void {
        self.handle.as_ptr()
    }
}

impl Drop for Pam<'_> {
    fn drop(&mut self) {
        unsafe { pam_end(self.raw(), self.status) };
    }
}

// ---- what clients send and see

/// An identifier of a user.
#[derive(Clone, Debug, PartialEq, Eq, PartialOrd, Ord, Hash, Serialize, Deserialize)]
pub struct UserId(String);

/// Seconds since 1970, as JWTs have them.
#[derive(Clone, Copy, Debug, PartialEq, Eq, PartialOrd, Ord, Serialize, Deserialize)]
pub struct UnixTime(u64);

impl UnixTime {
    pub fn now() -> Self {
        Self(
            SystemTime::now()
                .duration_since(UNIX_EPOCH)
                .map_or(0, |since| since.as_secs()),
        )
    }
}

/// What a token claims.
#[derive(Clone, Debug, Serialize, Deserialize)]
#[serde(rename_all = "lowercase")]
pub struct Claims {
    pub iss: String,
    pub sub: UserId,
    pub aud: Audience,
    pub exp: UnixTime,
    pub iat: UnixTime,
    #[serde(default)]
    pub nbf: Option<UnixTime>,
    pub scopes: BTreeSet<Scope>,
    pub auth_time: Option<UnixTime>,
    #[serde(rename = "amr", default, skip_serializing_if = "Vec::is_empty")]
    pub methods: Vec<Method>,
    #[serde(rename = "https://example.org/claims/tenant")]
    pub tenant: Option<String>,
}

/// One audience or several.
#[derive(Clone, Debug, Serialize, Deserialize)]
#[serde(untagged)]
pub enum Audience {
    One(String),
    Several(Vec<String>),
}

#[derive(Clone, Copy, Debug, PartialEq, Eq, PartialOrd, Ord, Hash, Serialize, Deserialize)]
#[serde(rename_all = "lowercase")]
pub enum Scope {
    OpenId,
    Profile,
    Email,
    #[serde(rename = "offline_access")]
    OfflineAccess,
}

#[derive(Clone, Copy, Debug, PartialEq, Eq, Serialize, Deserialize)]
#[serde(rename_all = "UPPERCASE")]
pub enum Method {
    Pwd,
    Otp,
    Hwk,
    /// Several of them.
    Mfa,
}

pub mod oauth {
    use super::{AuthError, Scope, Serialize};
    use serde::Deserialize;

    /// What is sent to `/token`, as a form.
    #[derive(Clone, Debug, Deserialize)]
    #[serde(tag = "grant_type", rename_all = "snake_case")]
    pub enum TokenRequest {
        AuthorizationCode {
            code: String,
            redirect_uri: String,
            /// The one that PKCE asks for.
            code_verifier: Option<String>,
        },
        RefreshToken {
            refresh_token: String,
            #[serde(default)]
            scope: Vec<Scope>,
        },
        ClientCredentials(ClientCredentials),
        #[serde(rename = "urn:ietf:params:oauth:grant-type:device_code")]
        DeviceCode {
            device_code: String,
            client_id: String,
        },
    }

    #[derive(Clone, Debug, Deserialize)]
    pub struct ClientCredentials {
        pub client_id: String,
        pub client_secret: Option<String>,
    }

    #[derive(Clone, Debug, Serialize)]
    pub struct TokenAnswer {
        pub access_token: String,
        pub token_type: TokenType,
        pub expires_in: u64,
        #[serde(skip_serializing_if = "Option::is_none")]
        pub refresh_token: Option<String>,
        pub scope: String,
    }

    #[derive(Clone, Copy, Debug, Default, Serialize)]
    pub enum TokenType {
        #[default]
        Bearer,
        #[serde(rename = "DPoP")]
        DemonstratedPossession,
    }

    /// Errors that OAuth has names for.
    #[derive(Clone, Debug, Serialize)]
    #[serde(rename_all = "snake_case")]
    pub struct OAuthFailure {
        pub error: OAuthCode,
        pub error_description: Option<String>,
        pub error_uri: Option<String>,
    }

    #[derive(Clone, Copy, Debug, PartialEq, Eq, Serialize)]
    #[serde(rename_all = "snake_case")]
    pub enum OAuthCode {
        InvalidRequest,
        InvalidClient,
        InvalidGrant,
        UnsupportedGrantType,
        ServerError,
    }

    impl From<AuthError> for OAuthFailure {
        fn from(error: AuthError) -> Self {
            let code = match &error {
                AuthError::BadPassword | AuthError::Pam { .. } => OAuthCode::InvalidGrant,
                AuthError::Token(_) => OAuthCode::InvalidRequest,
                AuthError::Hash(_) | AuthError::Locked => OAuthCode::ServerError,
            };
            Self {
                error: code,
                error_description: Some(error.to_string()),
                error_uri: None,
            }
        }
    }

    pub mod discovery {
        use serde::Serialize;

        /// What `/.well-known/openid-configuration` holds.
        #[derive(Debug, Serialize)]
        pub struct ProviderMetadata {
            pub issuer: &'static str,
            pub token_endpoint: String,
            pub jwks_uri: String,
            pub scopes_supported: &'static [super::Scope],
            pub token_endpoint_auth_methods_supported: [&'static str; 2],
        }

        /// Keys, as RFC 7517 has them.
        #[derive(Debug, Serialize)]
        pub struct JsonWebKeySet {
            pub keys: Vec<JsonWebKey>,
        }

        #[derive(Debug, Serialize)]
        #[serde(tag = "kty", rename_all = "UPPERCASE")]
        pub enum JsonWebKey {
            Okp {
                kid: String,
                crv: String,
                x: String,
                r#use: String,
            },
            Rsa {
                kid: String,
                n: String,
                e: String,
            },
            #[serde(rename = "oct")]
            Symmetric {
                k: String,
            },
        }
    }
}

/// How somebody signs in.
#[derive(Deserialize)]
#[serde(
    tag = "with",
    content = "proof",
    rename_all = "kebab-case",
    deny_unknown_fields
)]
pub enum SignIn {
    Password {
        name: String,
        password: String,
    },
    #[serde(rename_all = "camelCase")]
    PassKey {
        credential_id: String,
        client_data: String,
        signature: Vec<u8>,
    },
    OneTimeCode(String, [u8; 6]),
    /// Continues a session by its cookie.
    Cookie,
}

/// A user as they see themselves.
#[derive(Clone, Debug, Serialize, Deserialize)]
#[serde(rename_all = "camelCase")]
pub struct Account {
    pub user_id: UserId,
    pub login_name: String,
    pub scopes: BTreeSet<Scope>,
    pub last_seen_at: Option<UnixTime>,
    /// What devices are signed in, by their names.
    pub devices: BTreeMap<String, Device>,
    #[serde(skip_serializing, default)]
    pub hash: String,
}

#[derive(Clone, Debug, Serialize, Deserialize)]
#[serde(rename_all = "camelCase")]
pub struct Device {
    pub user_agent: String,
    pub first_seen_at: UnixTime,
    pub ip_v4: Option<[u8; 4]>,
}

// ---- what stays inside

/// Bytes that are wiped. No generic type is written as JSON here.
#[derive(Clone, Zeroize, ZeroizeOnDrop)]
pub struct Wiped<T: Zeroize>(T);

impl<T> Debug for Wiped<T>
where
    T: Zeroize,
{
    fn fmt(&self, f: &mut std::fmt::Formatter<'_>) -> std::fmt::Result {
        f.write_str("Wiped { .. }")
    }
}

impl<T: Zeroize + AsRef<[u8]>> PartialEq for Wiped<T> {
    fn eq(&self, other: &Self) -> bool {
        self.0.as_ref().ct_eq(other.0.as_ref()).into()
    }
}

/// Keys by their identifiers; the last one signs.
pub struct KeyRing<S, V = S> {
    keys: Vec<(String, S, V)>,
}

impl<S, V> KeyRing<S, V> {
    pub fn signing(&self) -> Option<(&str, &S)> {
        self.keys.last().map(|(id, key, _)| (id.as_str(), key))
    }
}

#[derive(Debug, thiserror::Error)]
pub enum AuthError {
    #[error("wrong name or password")]
    BadPassword,
    #[error("PAM {version} has ended with {status}")]
    Pam { status: c_int, version: c_int },
    #[error("{0}")]
    Token(#[from] jsonwebtoken::errors::Error),
    #[error("no hash: {0}")]
    Hash(argon2::password_hash::Error),
    #[error("the account is locked")]
    Locked,
}

impl IntoResponse for AuthError {
    fn into_response(self) -> axum::response::Response {
        let status = match self {
            Self::BadPassword | Self::Pam { .. } | Self::Token(_) => StatusCode::UNAUTHORIZED,
            Self::Locked => StatusCode::LOCKED,
            Self::Hash(_) => StatusCode::INTERNAL_SERVER_ERROR,
        };
        let realm = REALM.replace("{error}", &self.to_string());
        (
            status,
            [("www-authenticate", realm)],
            Json(oauth::OAuthFailure::from(self)),
        )
            .into_response()
    }
}

/// Something that checks passwords.
#[async_trait::async_trait]
pub trait PasswordCheck: Send + Sync {
    async fn check(&self, name: &str, password: &SecretString) -> Done<UserId>;

    /// Checks, but takes the same time for those that do not exist.
    async fn check_slowly(&self, name: &str, password: &SecretString) -> Done<UserId> {
        let pause = OsRng.gen_range(0..=20);
        tokio::time::sleep(Duration::from_millis(pause)).await;
        self.check(name, password).await
    }
}

pub struct PamCheck;

#[async_trait::async_trait]
#[cfg(feature = "pam")]
impl PasswordCheck for PamCheck {
    async fn check(&self, name: &str, password: &SecretString) -> Done<UserId> {
        let user = CString::new(name).map_err(|_| AuthError::BadPassword)?;
        let secret = CString::new(password.expose_secret()).map_err(|_| AuthError::BadPassword)?;
        let mut pam = Pam::start(&user, &secret)?;
        // SAFETY: the handle lives until `pam` is dropped.
        pam.status = unsafe { pam_authenticate(pam.raw(), 0) };
        if pam.status != 0 {
            Err(AuthError::BadPassword)
        } else {
            Ok(UserId(name.into()))
        }
    }
}

fn hash(password: &str) -> Done<String> {
    let salt = SaltString::generate(&mut OsRng);
    let hashed = Argon2::default()
        .hash_password(password.as_bytes(), &salt)
        .map_err(AuthError::Hash)?;
    Ok(hashed.to_string())
}

fn is_hash_of(hash: &str, password: &str) -> bool {
    PasswordHash::new(hash).is_ok_and(|hash| {
        Argon2::default()
            .verify_password(password.as_bytes(), &hash)
            .is_ok()
    })
}

#[derive(Clone, FromRef)]
pub struct AuthState {
    accounts: Arc<RwLock<HashMap<String, Account>>>,
    check: Arc<dyn PasswordCheck>,
}

/// The user of a request.
pub struct SignedIn(pub Claims);

impl<S> FromRequestParts<S> for SignedIn
where
    AuthState: FromRef<S>,
    S: Send + Sync,
{
    type Rejection = AuthError;

    async fn from_request_parts(parts: &mut Parts, _state: &S) -> Result<Self, Self::Rejection> {
        let text = parts
            .headers
            .get(axum::http::header::AUTHORIZATION)
            .and_then(|value| value.to_str().ok()?.strip_prefix("Bearer "))
            .ok_or(AuthError::BadPassword)?;
        let ring = KEYS
            .get()
            .and_then(|keys| keys.read().ok())
            .ok_or(AuthError::Locked)?;
        let mut validation = Validation::new(DEFAULT_POLICY.algorithm);
        validation.leeway = DEFAULT_POLICY.leeway;
        let (_, _, key) = ring.keys.last().ok_or(AuthError::Locked)?;
        Ok(Self(
            jsonwebtoken::decode::<Claims>(text, key, &validation)?.claims,
        ))
    }
}

#[tracing::instrument(skip_all)]
pub async fn sign_in(
    State(state): State<AuthState>,
    jar: CookieJar,
    Json(how): Json<SignIn>,
) -> Done<impl IntoResponse> {
    let user = match how {
        SignIn::Password { name, mut password } => {
            let secret = SecretString::from(std::mem::take(&mut password));
            state.check.check_slowly(&name, &secret).await?
        }
        SignIn::OneTimeCode(name, code) => {
            let code = Wiped(code);
            if code == Wiped([b'0'; 6]) {
                return Err(AuthError::BadPassword);
            }
            UserId(name)
        }
        SignIn::PassKey { .. } | SignIn::Cookie => return Err(AuthError::Locked),
    };
    let claims = Claims::builder(&user.0).scope(Scope::OpenId).build();
    let ring = KEYS
        .get()
        .and_then(|keys| keys.read().ok())
        .ok_or(AuthError::Locked)?;
    let (id, key) = ring.signing().ok_or(AuthError::Locked)?;
    let header = Header {
        kid: Some(id.to_owned()),
        ..Header::new(DEFAULT_POLICY.algorithm)
    };
    let token = jsonwebtoken::encode(&header, &claims, key)?;
    let cookie = Cookie::build(("session", token))
        .http_only(true)
        .same_site(SameSite::Strict);
    Ok((jar.add(cookie), Redirect::to("/account")))
}

pub async fn token(
    Form(request): Form<oauth::TokenRequest>,
) -> Result<Json<oauth::TokenAnswer>, AuthError> {
    let scope = match &request {
        oauth::TokenRequest::RefreshToken { scope, .. } => format!("{scope:?}"),
        _ => String::new(),
    };
    let mut secret = Zeroizing::new([0_u8; 32]);
    OsRng.fill_bytes(secret.as_mut());
    Ok(Json(oauth::TokenAnswer {
        access_token: secret.iter().map(|byte| format!("{byte:02x}")).collect(),
        token_type: oauth::TokenType::default(),
        expires_in: DEFAULT_POLICY.lifetimes.access.as_secs(),
        refresh_token: None,
        scope,
    }))
}

impl Claims {
    pub fn builder<S: Display + ?Sized>(subject: &S) -> ClaimsBuilder<'_, S> {
        ClaimsBuilder {
            subject,
            scopes: BTreeSet::new(),
            lives: DEFAULT_POLICY.lifetimes.access,
        }
    }
}

pub struct ClaimsBuilder<'s, S: ?Sized> {
    subject: &'s S,
    scopes: BTreeSet<Scope>,
    lives: Duration,
}

impl<S> ClaimsBuilder<'_, S>
where
    S: Display + ?Sized,
{
    pub fn scope(mut self, scope: Scope) -> Self {
        self.scopes.insert(scope);
        self
    }

    pub fn build(self) -> Claims {
        let now = UnixTime::now();
        Claims {
            iss: String::from("https://users.example.org"),
            sub: UserId(self.subject.to_string()),
            aud: Audience::One("api".into()),
            exp: UnixTime(now.0 + self.lives.as_secs()),
            iat: now,
            nbf: None,
            scopes: self.scopes,
            auth_time: Some(now),
            methods: vec![Method::Pwd],
            tenant: None,
        }
    }
}

#[cfg(test)]
mod tests {
    use super::*;

    #[derive(Serialize)]
    struct Form<'f> {
        grant_type: &'f str,
        refresh_token: &'f str,
    }

    #[test]
    fn hashes_are_checked() -> Done {
        let hashed = hash("pass {word}")?;
        assert!(is_hash_of(&hashed, "pass {word}") && !is_hash_of(&hashed, "pass"));
        Ok(())
    }

    #[test]
    fn claims_have_short_names() {
        let text = serde_json::to_string(&Claims::builder("ada").build()).unwrap();
        assert!(
            text.starts_with(r#"{"iss":"https://users.example.org","sub":"ada""#),
            "{text}"
        );
    }
}
