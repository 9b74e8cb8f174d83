//! Values of the types of buses, name servers and packets.

use crate::{parsed, row};
use std::collections::HashMap;
use std::time::Duration;

pub fn print() {
    buses();
    names();
    resolvers();
    keys();
    frames();
    packets();
}

fn buses() {
    use std::os::unix::io::FromRawFd;
    use zvariant::{Fd, Maybe, ObjectPath, OwnedFd, OwnedObjectPath, OwnedSignature, OwnedValue, Signature, Str, Value};
    let no = ["1", "null", "[]", r#"{"a":1}"#];
    row!("zvariant", OwnedObjectPath)
        .writes(["/", "/org/free_desktop/0"].map(|text| OwnedObjectPath::try_from(text).unwrap()))
        .refuses(&no)
        .wider(&[r#""a""#, r#""""#]);
    row!("zvariant", ObjectPath<'static>).writes_alone(&ObjectPath::try_from("/a").unwrap());
    row!("zvariant", OwnedSignature)
        .writes(["", "a{sv}(iu)"].map(|text| Signature::try_from(text).unwrap().into()))
        .refuses(&no)
        .wider(&[r#""!""#]);
    row!("zvariant", Signature<'static>).writes_alone(&Signature::try_from("a{sv}").unwrap());
    row!("zvariant", Str<'static>).writes_alone(&Str::from_static("")).writes_alone(&Str::from("é"));
    row!("zvariant", Fd).writes([Fd::from(i32::MAX), Fd::from(-1)]).refuses(&[r#""1""#, "1.5", "null", "[]"]);
    // (to read one is to duplicate an open file)
    row!("zvariant", OwnedFd).writes_alone(&unsafe { OwnedFd::from_raw_fd(-1) }).refuses(&[r#""1""#, "1.5", "null", "[]"]);

    let read = [
        Value::from(1u8),
        Value::from(true),
        Value::from(i16::MIN),
        Value::from(i32::MIN),
        Value::from(u64::MAX),
        Value::from(-0.5f64),
        Value::from("é"),
        Value::from(Signature::try_from("a{sv}").unwrap()),
        Value::from(ObjectPath::try_from("/a").unwrap()),
        Value::from(vec!["a", ""]),
        Value::from(Vec::<u8>::new()),
        Value::from((1u8, "a")),
        Value::from(Fd::from(3)),
        Value::from(Maybe::from(Some(1i16))),
    ];
    let text = |value: &str| format!(r#"{{"zvariant::Value::Signature":"s","zvariant::Value::Value":"a"{value}}}"#);
    row!("zvariant", OwnedValue)
        .writes(read.map(OwnedValue::from))
        .reads(&[&text("")])
        .refuses(&no)
        .refuses(&[&text(r#","a":1"#), r#"{"zvariant::Value::Signature":"s"}"#, r#"{"zvariant::Value::Value":"a"}"#])
        .refuses(&[r#"{"zvariant::Value::Signature":1,"zvariant::Value::Value":1}"#])
        .narrower(&[r#"["s","a"]"#, r#"{"a":"s","b":"a"}"#])
        .wider(&[r#"{"zvariant::Value::Value":1,"zvariant::Value::Signature":"y"}"#])
        .wider(&[r#"{"zvariant::Value::Signature":"!","zvariant::Value::Value":1}"#]);
    let unread = [
        Value::from(f64::NAN),
        Value::new(Value::from(1u32)),
        Value::from(vec![1u8, 255]),
        Value::from((1u8, vec![Value::from(2i32)])),
        Value::from(HashMap::from([("a", 1u32)])),
        Value::from(HashMap::from([(1u8, Value::from("a"))])),
        Value::from(Maybe::from(Some("a"))),
        Value::from(Maybe::from(None::<i16>)),
    ];
    for value in unread {
        row!("zvariant", OwnedValue).writes_alone(&value.into());
    }
    row!("zvariant", Value<'static>).writes_alone(&Value::from("a")).writes_alone(&Value::from(vec![1i16]));
}

fn names() {
    use trust_dns_proto::rr::{DNSClass, Name, RecordType};
    let long = format!(r#""{}""#, "a".repeat(64));
    row!("trust_dns_proto", Name)
        .writes([".", "a", "www.example.com.", "*.é.example."].map(parsed::<Name>))
        .refuses(&["1", "null", r#"["www","com"]"#, r#"{"is_fqdn":true}"#])
        .wider(&[&long]);
    let no = ["1", "null", r#""in""#, r#""a""#, r#""Unknown""#, r#""OPT1""#, r#"{"Unknown":-1}"#, r#"{"A":null,"B":null}"#, "{}"];
    row!("trust_dns_proto", DNSClass)
        .writes([DNSClass::IN, DNSClass::CH, DNSClass::HS, DNSClass::NONE, DNSClass::ANY, DNSClass::OPT(u16::MAX)])
        .refuses(&no)
        .refuses(&[r#""OPT""#]);
    let known = (0..=u16::MAX).map(RecordType::from).filter(|it| !matches!(it, RecordType::Unknown(_)));
    row!("trust_dns_proto", RecordType).writes(known).writes([RecordType::Unknown(0), RecordType::Unknown(u16::MAX)]).refuses(&no);
}

fn resolvers() {
    use trust_dns_resolver::config::*;
    let server = r#"{"socket_addr":"[::1]:53"}"#;
    let group = format!("[{server},{server}]");
    let whole = format!(r#"{{"name_servers":{group}}}"#);
    let mut named = NameServerConfig::new("[::1]:853".parse().unwrap(), Protocol::Tcp);
    named.tls_dns_name = Some("a.b".to_string());
    named.trust_nx_responses = false;
    named.bind_addr = Some("0.0.0.0:0".parse().unwrap());
    let no = ["1", "null", r#""a""#, r#"{"socket_addr":1}"#];
    row!("trust_dns_resolver", NameServerConfig)
        .writes([named.clone()])
        .reads(&[server])
        .refuses(&no)
        .refuses(&["{}", "[]", r#"{"socket_addr":"[::1]:53","protocol":"UDP"}"#, r#"{"socket_addr":"[::1]:53","bind_addr":1}"#])
        .wider(&[r#"{"socket_addr":"a"}"#, r#"{"socket_addr":"[::1]:53","protocol":"mdns"}"#]);
    row!("trust_dns_resolver", NameServerConfigGroup)
        .writes([NameServerConfigGroup::new(), NameServerConfigGroup::google(), vec![named].into()])
        .reads(&[&group])
        .refuses(&no)
        .refuses(&["[1]", "[[],null]", server]);
    let (domain, search) = (parsed("a.b."), vec![parsed("c."), parsed("d.e")]);
    row!("trust_dns_resolver", ResolverConfig)
        .writes([ResolverConfig::new(), ResolverConfig::cloudflare()])
        .writes([ResolverConfig::from_parts(Some(domain), search, NameServerConfigGroup::quad9())])
        .reads(&[&whole])
        .refuses(&no)
        .refuses(&["{}", r#"{"name_servers":{}}"#, r#"{"name_servers":[],"search":"a"}"#, r#"{"name_servers":[],"domain":["a"]}"#]);
    row!("trust_dns_resolver", Protocol)
        .writes([Protocol::Udp, Protocol::Tcp])
        .refuses(&["1", "null", r#""Udp""#, r#""a""#, "{}"])
        .wider(&[r#""mdns""#]);
    #[cfg(feature = "dns_protocols")]
    row!("trust_dns_resolver", Protocol).writes([Protocol::Tls, Protocol::Https, Protocol::Quic]);
    #[cfg(feature = "dns_protocols")]
    row!("trust_dns_resolver", NameServerConfigGroup).writes([
        NameServerConfigGroup::google_https(),
        NameServerConfigGroup::cloudflare_tls(),
        NameServerConfigGroup::quad9_https(),
    ]);
    use LookupIpStrategy::*;
    let no = ["1", "null", r#""ipv4_only""#, r#""""#, "{}"];
    row!("trust_dns_resolver", LookupIpStrategy).writes([Ipv4Only, Ipv6Only, Ipv4AndIpv6, Ipv6thenIpv4, Ipv4thenIpv6]).refuses(&no);
    row!("trust_dns_resolver", ServerOrderingStrategy)
        .writes([ServerOrderingStrategy::QueryStatistics, ServerOrderingStrategy::UserProvidedOrder])
        .refuses(&no);
    let mut all = ResolverOpts::default();
    all.timeout = Duration::MAX;
    all.ip_strategy = Ipv6Only;
    all.positive_min_ttl = Some(Duration::ZERO);
    all.negative_min_ttl = Some(Duration::from_millis(1_500));
    all.positive_max_ttl = Some(Duration::MAX);
    all.negative_max_ttl = Some(Duration::from_nanos(1));
    row!("trust_dns_resolver", ResolverOpts)
        .writes([ResolverOpts::default(), all])
        .reads(&["{}", r#"{"ndots":2,"timeout":{"secs":1,"nanos":0},"positive_max_ttl":null}"#])
        .refuses(&["1", "null", r#"{"ndots":-1}"#, r#"{"timeout":5}"#, r#"{"timeout":{"secs":5}}"#, r#"{"timeout":null}"#])
        .refuses(&[r#"{"timeout":{"secs":5,"nanos":0,"a":0}}"#, r#"{"ip_strategy":"ipv4"}"#, r#"{"rotate":1}"#]);
}

fn keys() {
    use psa_crypto_sys::*;
    let no = [r#""1""#, "null", "1.5", "[1]"];
    row!("psa_crypto_sys", psa_status_t).writes([psa_status_t::MIN, psa_status_t::MAX]).refuses(&no);
    row!("psa_crypto_sys", psa_key_type_t).writes([psa_key_type_t::MIN, psa_key_type_t::MAX]).refuses(&no).refuses(&["-1"]);
    row!("psa_crypto_sys", psa_ecc_family_t).writes([psa_ecc_family_t::MIN, psa_ecc_family_t::MAX]).refuses(&no).refuses(&["-1"]);
    row!("psa_crypto_sys", psa_dh_family_t).writes([psa_dh_family_t::MIN, psa_dh_family_t::MAX]).refuses(&no).refuses(&["-1"]);
    row!("psa_crypto_sys", psa_algorithm_t).writes([psa_algorithm_t::MIN, psa_algorithm_t::MAX]).refuses(&no).refuses(&["-1"]);
    row!("psa_crypto_sys", psa_key_lifetime_t).writes([psa_key_lifetime_t::MIN, psa_key_lifetime_t::MAX]).refuses(&no).refuses(&["-1"]);
    row!("psa_crypto_sys", psa_key_persistence_t)
        .writes([psa_key_persistence_t::MIN, psa_key_persistence_t::MAX])
        .refuses(&no)
        .refuses(&["-1"]);
    row!("psa_crypto_sys", psa_key_location_t).writes([psa_key_location_t::MIN, psa_key_location_t::MAX]).refuses(&no).refuses(&["-1"]);
    row!("psa_crypto_sys", psa_key_id_t).writes([PSA_KEY_ID_USER_MIN, psa_key_id_t::MIN, psa_key_id_t::MAX]).refuses(&no).refuses(&["-1"]);
    row!("psa_crypto_sys", psa_key_usage_t).writes([psa_key_usage_t::MIN, psa_key_usage_t::MAX]).refuses(&no).refuses(&["-1"]);
    row!("psa_crypto_sys", psa_key_derivation_step_t)
        .writes([psa_key_derivation_step_t::MIN, psa_key_derivation_step_t::MAX])
        .refuses(&no)
        .refuses(&["-1"]);
}

fn frames() {
    use pktparse::arp::{ArpPacket, HardwareAddressType, Operation, ProtocolAddressType};
    use pktparse::ethernet::{EtherType, EthernetFrame, MacAddress, VlanEthernetFrame};
    let no = ["1", "null", r#""other""#, r#""Other""#, r#"{"Other":-1}"#, "{}", "[]"];
    let types = (0..=u16::MAX).map(EtherType::from).filter(|it| !matches!(it, EtherType::Other(_)));
    row!("pktparse", EtherType).writes(types).writes([EtherType::Other(0), EtherType::Other(u16::MAX)]).refuses(&no);
    row!("pktparse", Operation).writes([Operation::Request, Operation::Reply, Operation::Other(3)]).refuses(&no);
    row!("pktparse", HardwareAddressType).writes([HardwareAddressType::Ethernet, HardwareAddressType::Other(2)]).refuses(&no);
    row!("pktparse", ProtocolAddressType).writes([ProtocolAddressType::IPv4, ProtocolAddressType::Other(2)]).refuses(&no);
    let (source_mac, dest_mac) = (MacAddress([0; 6]), MacAddress([1, 2, 3, 4, 5, 255]));
    row!("pktparse", MacAddress)
        .writes([source_mac, dest_mac])
        .refuses(&[r#""01:02:03:04:05:06""#, "null", "[-1,0,0,0,0,0]"])
        .wider(&["[1,2,3]"]);
    row!("pktparse", EthernetFrame)
        .writes([EthernetFrame { source_mac, dest_mac, ethertype: EtherType::IPv6 }])
        .refuses(&["1", "null", r#"{"source_mac":[0,0,0,0,0,0],"dest_mac":[0,0,0,0,0,0]}"#])
        .refuses(&[r#"{"source_mac":"a","dest_mac":[0,0,0,0,0,0],"ethertype":"ARP"}"#]);
    let tagged = |vid| VlanEthernetFrame { source_mac, dest_mac, ethertype: EtherType::Other(1), vid };
    row!("pktparse", VlanEthernetFrame)
        .writes([tagged(None), tagged(Some(4095))])
        .refuses(&[r#"{"source_mac":[0,0,0,0,0,0],"dest_mac":[0,0,0,0,0,0],"ethertype":"ARP","vid":-1}"#]);
    let arp = ArpPacket {
        hw_addr_type: HardwareAddressType::Ethernet,
        proto_addr_type: ProtocolAddressType::Other(7),
        hw_addr_size: 6,
        proto_addr_size: 4,
        operation: Operation::Reply,
        src_mac: source_mac,
        src_addr: parsed("10.0.0.1"),
        dest_mac,
        dest_addr: parsed("255.255.255.255"),
    };
    row!("pktparse", ArpPacket).writes([arp]).refuses(&["1", "null", "{}"]);
}

fn packets() {
    use pktparse::icmp::*;
    use pktparse::ip::IPProtocol;
    use pktparse::ipv4::IPv4Header;
    use pktparse::ipv6::IPv6Header;
    use pktparse::tcp::{MaximumSegmentSize, TcpHeader, TcpOption, WindowScale};
    use pktparse::udp::UdpHeader;
    let no = ["1", "null", r#""other""#, r#""Other""#, r#"{"Other":-1}"#, "{}", "[]"];
    let protocols = (0..=u8::MAX).map(IPProtocol::from).filter(|it| !matches!(it, IPProtocol::Other(_)));
    row!("pktparse", IPProtocol).writes(protocols).writes([IPProtocol::Other(255)]).refuses(&no);
    let header = IPv4Header {
        version: 4,
        ihl: 5,
        tos: 0,
        length: u16::MAX,
        id: 1,
        flags: 2,
        fragment_offset: 0,
        ttl: 64,
        protocol: IPProtocol::Other(200),
        chksum: 7,
        source_addr: parsed("10.0.0.1"),
        dest_addr: parsed("10.0.0.2"),
    };
    row!("pktparse", IPv4Header).writes([header]).refuses(&["1", "null", "{}", r#"{"version":4}"#]);
    let header = IPv6Header {
        version: 6,
        ds: 1,
        ecn: 2,
        flow_label: 1 << 19,
        length: 3,
        next_header: IPProtocol::UDP,
        hop_limit: 255,
        source_addr: parsed("::1"),
        dest_addr: parsed("ff02::1"),
    };
    row!("pktparse", IPv6Header).writes([header]).refuses(&["1", "null", "{}", r#"{"version":6}"#]);

    // Each code once, and of those with data what a header holds.
    let mut codes: Vec<IcmpCode> = (0..=u16::MAX).map(IcmpCode::from).filter(|it| !matches!(it, IcmpCode::Other(_))).collect();
    codes.sort_by_key(|it| format!("{it:?}"));
    codes.dedup();
    let headers = codes.iter().map(|&code| header_of(code)).chain([header_of(IcmpCode::Other(u16::MAX))]);
    row!("pktparse", IcmpHeader).writes(headers.clone()).refuses(&["1", "null", "{}", r#"{"code":"EchoReply","checksum":1}"#]);
    row!("pktparse", IcmpData).writes(headers.map(|it| it.data)).refuses(&["1", "null", "{}", r#""none""#, r#"{"Unreachable":{}}"#]);
    row!("pktparse", IcmpCode).writes(codes).refuses(&no).refuses(&[r#"{"Redirect":"Other"}"#, r#"{"Redirect":null}"#, r#""Redirect""#]);
    row!("pktparse", IcmpPayloadPacket).writes([IcmpPayloadPacket::default()]).refuses(&["1", "null", r#""a""#]).wider(&["[1]"]);
    let no = ["1", "null", r#""none""#, "{}"];
    row!("pktparse", Unreachable).writes([Unreachable::PrecedentCutoffInEffect]).refuses(&no);
    row!("pktparse", Redirect).writes([Redirect::Network, Redirect::Host, Redirect::TosAndNetwork, Redirect::TosAndHost]).refuses(&no);
    row!("pktparse", TimeExceeded).writes([TimeExceeded::TTL, TimeExceeded::FragmentReassembly]).refuses(&no);
    row!("pktparse", ParameterProblem)
        .writes([ParameterProblem::Pointer, ParameterProblem::MissingRequiredOption, ParameterProblem::BadLength])
        .refuses(&no);
    use ExtendedEchoReply::*;
    row!("pktparse", ExtendedEchoReply)
        .writes([NoError, MalformedQuery, NoSuchInterface, NoSuchTableEntry, MupltipleInterfacesStatisfyQuery])
        .refuses(&no);

    let (mss, scaling) = (MaximumSegmentSize { mss: 1460 }, WindowScale { scaling: 7 });
    let options = [
        TcpOption::EndOfOptions,
        TcpOption::NoOperation,
        TcpOption::MaximumSegmentSize(mss),
        TcpOption::WindowScale(scaling),
        TcpOption::SackPermitted,
    ];
    row!("pktparse", TcpOption).writes(options).refuses(&no).refuses(&[r#"{"MaximumSegmentSize":1}"#, r#"{"WindowScale":{}}"#]);
    row!("pktparse", MaximumSegmentSize).writes([mss]).refuses(&no);
    row!("pktparse", WindowScale).writes([scaling]).refuses(&no);
    let header =
        TcpHeader { source_port: u16::MAX, sequence_no: u32::MAX, flag_syn: true, options: Some(options.to_vec()), ..Default::default() };
    row!("pktparse", TcpHeader).writes([TcpHeader::default(), header]).refuses(&no).refuses(&[r#"{"source_port":1}"#]);
    let header = UdpHeader { source_port: 0, dest_port: 53, length: 8, checksum: u16::MAX };
    row!("pktparse", UdpHeader).writes([header]).refuses(&no).refuses(&[r#"{"source_port":1,"dest_port":-1,"length":1,"checksum":1}"#]);

    fn header_of(code: IcmpCode) -> IcmpHeader {
        let raw = (0..=u16::MAX).find(|&raw| IcmpCode::from(raw) == code).unwrap();
        let mut bytes = raw.to_be_bytes().to_vec();
        bytes.extend([1, 2, 10, 0, 0, 1]);
        // (the header and the packet that were refused)
        bytes.extend([0x45, 0, 0, 28, 0, 1, 0, 0, 64, 17, 0, 0, 10, 0, 0, 1, 10, 0, 0, 2, 1, 2, 3, 4, 5, 6, 7, 255]);
        pktparse::icmp::parse_icmp_header(&bytes).unwrap().1
    }
}
