//! Stand-ins for types of the crate `trust-dns-proto`, versions 0.22, with its feature `serde-config`. Compared with trust-dns-proto
//! 0.22.0.
//!
//! Left out: `Record`, `RData` and what they hold.

/// A domain name, such as `www.example.com.`.
pub struct Name(String);
/// A class of DNS records.
pub enum DNSClass {
    /// Internet
    IN,
    /// Chaos
    CH,
    /// Hesiod
    HS,
    NONE,
    ANY,
    /// The version of EDNS.
    OPT(u16),
}
/// A type of DNS records.
pub enum RecordType {
    A,
    AAAA,
    ANAME,
    ANY,
    AXFR,
    CAA,
    CDS,
    CDNSKEY,
    CNAME,
    CSYNC,
    DNSKEY,
    DS,
    HINFO,
    HTTPS,
    IXFR,
    KEY,
    MX,
    NAPTR,
    NS,
    NSEC,
    NSEC3,
    NSEC3PARAM,
    NULL,
    OPENPGPKEY,
    OPT,
    PTR,
    RRSIG,
    SIG,
    SOA,
    SRV,
    SSHFP,
    SVCB,
    TLSA,
    TSIG,
    TXT,
    Unknown(u16),
    ZERO,
}
