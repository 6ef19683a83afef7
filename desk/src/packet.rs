//! Where a UDP payload stands in a packet: Ethernet, VLAN, Linux cooked (v1, v2) and raw IP; IPv4 and IPv6.

use std::net::{IpAddr, Ipv4Addr, Ipv6Addr};
use std::ops::Range;

/// A UDP datagram to or from the port.
pub struct Datagram {
    pub from: IpAddr,
    pub from_port: u16,
    pub to: IpAddr,
    pub to_port: u16,
    /// where the IP header begins, in the packet
    pub ip: usize,
    /// the UDP header and the payload, in the packet
    pub udp: Range<usize>,
}

impl Datagram {
    pub fn payload(&self) -> Range<usize> {
        self.udp.start + 8..self.udp.end
    }
}

pub enum Found {
    Datagram(Datagram),
    /// a part of a datagram in several packets
    Fragment,
    /// cut off by the capture, or lengths that do not fit
    Cut,
    Other,
}

/// The link types that are read, by libpcap's numbers.
pub fn readable(link: i32) -> bool {
    matches!(link, 0 | 1 | 12 | 14 | 101 | 108 | 113 | 228 | 229 | 276)
}

fn two(packet: &[u8], at: usize) -> Option<u16> {
    Some(u16::from_be_bytes([*packet.get(at)?, *packet.get(at + 1)?]))
}

/// The datagram of a packet, if it is to or from the port.
pub fn find(link: i32, packet: &[u8], port: u16) -> Found {
    find_network(link, packet).map_or(Found::Other, |at| find_ip(packet, at, port).unwrap_or(Found::Cut))
}

/// Where the IP header begins.
fn find_network(link: i32, packet: &[u8]) -> Option<usize> {
    match link {
        1 => behind_tags(packet, 12),
        113 => behind_tags(packet, 14),
        276 => match two(packet, 0)? {
            0x0800 | 0x86dd => Some(20),
            _ => None,
        },
        0 | 108 => Some(4),
        _ => Some(0),
    }
}

/// Behind the protocol's number and any VLAN tags.
fn behind_tags(packet: &[u8], mut at: usize) -> Option<usize> {
    loop {
        match two(packet, at)? {
            0x8100 | 0x88a8 | 0x9100 => at += 4,
            0x0800 | 0x86dd => return Some(at + 2),
            _ => return None,
        }
    }
}

fn find_ip(packet: &[u8], at: usize, port: u16) -> Option<Found> {
    match packet.get(at)? >> 4 {
        4 => find_ipv4(packet, at, port),
        6 => find_ipv6(packet, at, port),
        _ => Some(Found::Other),
    }
}

fn find_ipv4(packet: &[u8], at: usize, port: u16) -> Option<Found> {
    let header = 4 * (packet[at] & 15) as usize;
    let head = packet.get(at..at + header)?;
    if header < 20 || head[9] != 17 {
        return Some(Found::Other);
    }
    if two(head, 6)? & 0x3fff != 0 {
        return Some(Found::Fragment);
    }
    let end = at + two(head, 2)? as usize;
    let from = IpAddr::V4(Ipv4Addr::new(head[12], head[13], head[14], head[15]));
    let to = IpAddr::V4(Ipv4Addr::new(head[16], head[17], head[18], head[19]));
    find_udp(packet, at, at + header..end, from, to, port)
}

fn find_ipv6(packet: &[u8], at: usize, port: u16) -> Option<Found> {
    let head = packet.get(at..at + 40)?;
    let end = at + 40 + two(head, 4)? as usize;
    let address = |i: usize| IpAddr::V6(Ipv6Addr::from(<[u8; 16]>::try_from(&head[i..i + 16]).unwrap()));
    let (from, to, mut next, mut to_next) = (address(8), address(24), head[6], at + 40);
    loop {
        match next {
            17 => return find_udp(packet, at, to_next..end, from, to, port),
            44 => {
                // a fragment header of a whole datagram has offset 0 and no more to come
                if two(packet, to_next + 2)? & 0xfff9 != 0 {
                    return Some(Found::Fragment);
                }
                next = *packet.get(to_next)?;
                to_next += 8;
            }
            0 | 43 | 60 => {
                next = *packet.get(to_next)?;
                to_next += 8 * (1 + *packet.get(to_next + 1)? as usize);
            }
            _ => return Some(Found::Other),
        }
    }
}

/// The datagram in what the IP header, which begins at `ip`, says that it holds.
fn find_udp(packet: &[u8], ip: usize, held: Range<usize>, from: IpAddr, to: IpAddr, port: u16) -> Option<Found> {
    let at = held.start;
    let (from_port, to_port) = (two(packet, at)?, two(packet, at + 2)?);
    if from_port != port && to_port != port {
        return Some(Found::Other);
    }
    let stop = at + two(packet, at + 4)? as usize;
    if stop < at + 8 || stop > held.end || stop > packet.len() {
        return Some(Found::Cut);
    }
    Some(Found::Datagram(Datagram { from, from_port, to, to_port, ip, udp: at..stop }))
}

fn sum(total: u32, octets: &[u8]) -> u32 {
    octets.chunks(2).fold(total, |t, p| t + u32::from(p[0]) * 256 + u32::from(*p.get(1).unwrap_or(&0)))
}

/// Sets the checksum of a datagram; over IPv4, none stays none.
pub fn set_checksum(packet: &mut [u8], d: &Datagram) {
    let at = d.udp.start + 6;
    if d.from.is_ipv4() && packet[at..at + 2] == [0, 0] {
        return;
    }
    packet[at..at + 2].fill(0);
    let addresses = |t, a: &IpAddr| match a {
        IpAddr::V4(a) => sum(t, &a.octets()),
        IpAddr::V6(a) => sum(t, &a.octets()),
    };
    let total = addresses(addresses(17 + d.udp.len() as u32, &d.from), &d.to);
    let checksum = match complement(sum(total, &packet[d.udp.clone()])) {
        0 => 0xffff,
        c => c,
    };
    put(packet, at, checksum.into());
}

/// The checksum of a sum.
fn complement(mut total: u32) -> u16 {
    while total > 0xffff {
        total = (total & 0xffff) + (total >> 16);
    }
    !(total as u16)
}

fn put(packet: &mut [u8], at: usize, number: usize) {
    packet[at..at + 2].copy_from_slice(&(number as u16).to_be_bytes());
}

/// The packet with another payload, not longer than its own: the lengths and checksums of IP and UDP are made right, and the packet ends with
/// the datagram.
pub fn with_payload(packet: &[u8], d: &Datagram, payload: &[u8]) -> Vec<u8> {
    let mut out = [&packet[..d.udp.start + 8], payload].concat();
    let d = Datagram { udp: d.udp.start..out.len(), ..*d };
    put(&mut out, d.udp.start + 4, d.udp.len());
    let of_ip = d.udp.end - d.ip;
    if d.from.is_ipv4() {
        put(&mut out, d.ip + 2, of_ip);
        put(&mut out, d.ip + 10, 0);
        let header = d.ip..d.ip + 4 * (out[d.ip] & 15) as usize;
        let checksum = complement(sum(0, &out[header]));
        put(&mut out, d.ip + 10, checksum.into());
    } else {
        put(&mut out, d.ip + 4, of_ip - 40);
    }
    set_checksum(&mut out, &d);
    out
}
