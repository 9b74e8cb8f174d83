//! Stand-ins for types of the crate `trust-dns-resolver`, versions 0.22, with its feature `serde-config`. Compared with
//! trust-dns-resolver 0.22.0, but for `Mdns`, which is read from its source: Debian's package has no feature for it.
//!
//! `trust_dns_resolver::Name` is in `trust_dns_proto.rs`. `NameServerProtocol` and `ResolverDuration` are no types of the crate, but its
//! `Protocol` and the standard library's `Duration` by names that no declaration of yours has.

/// Where and how names are looked up.
pub struct ResolverConfig {
    #[serde(default)]
    pub domain: Option<String>,
    #[serde(default)]
    pub search: Vec<String>,
    pub name_servers: Vec<NameServerConfig>,
}
/// A group of name servers.
pub struct NameServerConfigGroup(Vec<NameServerConfig>);
/// A name server.
pub struct NameServerConfig {
    /// Its address with the port, such as `8.8.8.8:53`.
    pub socket_addr: String,
    #[serde(default)]
    pub protocol: NameServerProtocol,
    #[serde(default)]
    pub tls_dns_name: Option<String>,
    #[serde(default)]
    pub trust_nx_responses: bool,
    /// The client's address with the port.
    pub bind_addr: Option<String>,
}
// `tls`, `https`, `quic` and `mdns` are there by the crate's features.
/// A protocol to a name server.
#[serde(rename_all = "lowercase")]
pub enum Protocol {
    Udp,
    Tcp,
    Tls,
    Https,
    Quic,
    Mdns,
}
/// A protocol to a name server.
#[serde(rename_all = "lowercase")]
pub enum NameServerProtocol {
    Udp,
    Tcp,
    Tls,
    Https,
    Quic,
    Mdns,
}
/// Which addresses are looked up.
pub enum LookupIpStrategy {
    Ipv4Only,
    Ipv6Only,
    Ipv4AndIpv6,
    Ipv6thenIpv4,
    Ipv4thenIpv6,
}
/// In which order name servers are asked.
pub enum ServerOrderingStrategy {
    QueryStatistics,
    UserProvidedOrder,
}
/// How names are looked up.
#[serde(default)]
pub struct ResolverOpts {
    pub ndots: usize,
    pub timeout: ResolverDuration,
    pub attempts: usize,
    pub rotate: bool,
    pub check_names: bool,
    pub edns0: bool,
    pub validate: bool,
    pub ip_strategy: LookupIpStrategy,
    pub cache_size: usize,
    pub use_hosts_file: bool,
    pub positive_min_ttl: Option<ResolverDuration>,
    pub negative_min_ttl: Option<ResolverDuration>,
    pub positive_max_ttl: Option<ResolverDuration>,
    pub negative_max_ttl: Option<ResolverDuration>,
    pub num_concurrent_reqs: usize,
    pub preserve_intermediates: bool,
    pub try_tcp_on_error: bool,
    pub server_ordering_strategy: ServerOrderingStrategy,
    pub recursion_desired: bool,
    pub authentic_data: bool,
}
/// A span of time.
#[serde(deny_unknown_fields)]
pub struct ResolverDuration {
    /// Whole seconds.
    pub secs: u64,
    /// Nanoseconds beside them.
    pub nanos: u32,
}
