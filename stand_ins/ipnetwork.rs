//! Stand-ins for types of the crate `ipnetwork`, with its feature `serde`. Compared with ipnetwork 0.17.0.

/// A network of IPv4 or IPv6 addresses, such as `10.0.0.0/8` or `fd00::/8`.
pub struct IpNetwork(String);
/// A network of IPv4 addresses, such as `10.0.0.0/8`.
pub struct Ipv4Network(String);
/// A network of IPv6 addresses, such as `fd00::/8`.
pub struct Ipv6Network(String);
