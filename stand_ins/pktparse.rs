//! Stand-ins for types of the crate `pktparse`, versions 0.7, with its feature `serde`. Compared with pktparse 0.7.1.
//!
//! Headers name the types of their parts, as `ArpPacket` does `Operation`: where your own files declare one of these, that is taken there.

// ARP.

pub struct ArpPacket {
    pub hw_addr_type: HardwareAddressType,
    pub proto_addr_type: ProtocolAddressType,
    pub hw_addr_size: u8,
    pub proto_addr_size: u8,
    pub operation: Operation,
    /// Six bytes.
    pub src_mac: [u8; 6],
    pub src_addr: String,
    /// Six bytes.
    pub dest_mac: [u8; 6],
    pub dest_addr: String,
}
pub enum HardwareAddressType {
    Ethernet,
    Other(u16),
}
pub enum ProtocolAddressType {
    IPv4,
    Other(u16),
}
pub enum Operation {
    Request,
    Reply,
    Other(u16),
}

// Ethernet.

pub struct EthernetFrame {
    /// Six bytes.
    pub source_mac: [u8; 6],
    /// Six bytes.
    pub dest_mac: [u8; 6],
    pub ethertype: EtherType,
}
pub struct VlanEthernetFrame {
    /// Six bytes.
    pub source_mac: [u8; 6],
    /// Six bytes.
    pub dest_mac: [u8; 6],
    pub ethertype: EtherType,
    pub vid: Option<u16>,
}
/// A MAC address, as its six bytes.
pub struct MacAddress([u8; 6]);
pub enum EtherType {
    LANMIN,
    LANMAX,
    IPv4,
    ARP,
    WOL,
    TRILL,
    DECnet,
    RARP,
    AppleTalk,
    AARP,
    VLAN,
    IPX,
    Qnet,
    IPv6,
    FlowControl,
    CobraNet,
    MPLSuni,
    MPLSmulti,
    PPPoEdiscovery,
    PPPoEsession,
    HomePlug,
    EAPOL,
    PROFINET,
    HyperSCSI,
    ATAOE,
    EtherCAT,
    QinQ,
    Powerlink,
    GOOSE,
    GSE,
    LLDP,
    SERCOS,
    HomePlugAV,
    MRP,
    MACsec,
    PBB,
    PTP,
    PRP,
    CFM,
    FCoE,
    FCoEi,
    RoCE,
    TTE,
    HSR,
    CTP,
    VLANdouble,
    Other(u16),
}

// IP.

pub struct IPv4Header {
    pub version: u8,
    pub ihl: u8,
    pub tos: u8,
    pub length: u16,
    pub id: u16,
    pub flags: u8,
    pub fragment_offset: u16,
    pub ttl: u8,
    pub protocol: IPProtocol,
    pub chksum: u16,
    pub source_addr: String,
    pub dest_addr: String,
}
pub struct IPv6Header {
    pub version: u8,
    pub ds: u8,
    pub ecn: u8,
    pub flow_label: u32,
    pub length: u16,
    pub next_header: IPProtocol,
    pub hop_limit: u8,
    pub source_addr: String,
    pub dest_addr: String,
}
pub enum IPProtocol {
    HOPOPT,
    ICMP,
    IGMP,
    GGP,
    IPINIP,
    ST,
    TCP,
    CBT,
    EGP,
    IGP,
    BBNRCCMON,
    NVPII,
    PUP,
    ARGUS,
    EMCON,
    XNET,
    CHAOS,
    UDP,
    IPV6,
    ICMP6,
    Other(u8),
}

// ICMP.

pub struct IcmpHeader {
    pub code: IcmpCode,
    pub checksum: u16,
    pub data: IcmpData,
}
pub enum IcmpCode {
    EchoReply,
    Reserved,
    DestinationUnreachable(Unreachable),
    SourceQuench,
    Redirect(Redirect),
    EchoRequest,
    RouterAdvertisment,
    RouterSolicication,
    TimeExceeded(TimeExceeded),
    ParameterProblem(ParameterProblem),
    Timestamp,
    TimestampReply,
    ExtendedEchoRequest,
    ExtendedEchoReply(ExtendedEchoReply),
    Other(u16),
}
pub enum Unreachable {
    DestinationNetworkUnreachable,
    DestinationHostUnreachable,
    DestinationProtocolUnreachable,
    DestinationPortUnreachable,
    FragmentationRequired,
    SourceRouteFailed,
    DestinationNetworkUnknown,
    DestinationHostUnknown,
    SourceHostIsolated,
    NetworkAdministrativelyProhibited,
    HostAdministrativelyProhibited,
    NetworkUnreachableForTos,
    HostUnreachableForTos,
    CommunicationAdministrativelyProhibited,
    HostPrecedenceViolation,
    PrecedentCutoffInEffect,
}
pub enum Redirect {
    Network,
    Host,
    TosAndNetwork,
    TosAndHost,
}
pub enum TimeExceeded {
    TTL,
    FragmentReassembly,
}
pub enum ParameterProblem {
    Pointer,
    MissingRequiredOption,
    BadLength,
}
pub enum ExtendedEchoReply {
    NoError,
    MalformedQuery,
    NoSuchInterface,
    NoSuchTableEntry,
    MupltipleInterfacesStatisfyQuery,
}
pub enum IcmpData {
    Unreachable {
        nexthop_mtu: u16,
        header: IPv4Header,
        /// Eight bytes.
        packet: [u8; 8],
    },
    Redirect {
        gateway: String,
        header: IPv4Header,
        /// Eight bytes.
        packet: [u8; 8],
    },
    TimeExceeded {
        header: IPv4Header,
        /// Eight bytes.
        packet: [u8; 8],
    },
    None,
}
/// The first eight bytes of a packet.
pub struct IcmpPayloadPacket([u8; 8]);

// TCP and UDP.

pub struct TcpHeader {
    pub source_port: u16,
    pub dest_port: u16,
    pub sequence_no: u32,
    pub ack_no: u32,
    pub data_offset: u8,
    pub reserved: u8,
    pub flag_urg: bool,
    pub flag_ack: bool,
    pub flag_psh: bool,
    pub flag_rst: bool,
    pub flag_syn: bool,
    pub flag_fin: bool,
    pub window: u16,
    pub checksum: u16,
    pub urgent_pointer: u16,
    pub options: Option<Vec<TcpOption>>,
}
pub enum TcpOption {
    EndOfOptions,
    NoOperation,
    MaximumSegmentSize { mss: u16 },
    WindowScale { scaling: u8 },
    SackPermitted,
}
pub struct MaximumSegmentSize {
    pub mss: u16,
}
pub struct WindowScale {
    pub scaling: u8,
}
pub struct UdpHeader {
    pub source_port: u16,
    pub dest_port: u16,
    pub length: u16,
    pub checksum: u16,
}
