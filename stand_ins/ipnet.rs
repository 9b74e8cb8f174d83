//! Stand-ins for types of the crate `ipnet`, versions 2, with its feature `serde`. Compared with ipnet 2.5.0.

/// A network of IPv4 or IPv6 addresses, such as `10.0.0.0/8` or `fd00::/8`.
pub struct IpNet(String);
/// A network of IPv4 addresses, such as `10.0.0.0/8`.
pub struct Ipv4Net(String);
/// A network of IPv6 addresses, such as `fd00::/8`.
pub struct Ipv6Net(String);
