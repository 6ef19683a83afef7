//! Captures in and out: every link that is read, fragments and cut packets, and the tool itself on a capture of its own making.

mod installed;

use installed::installed;
use std::net::IpAddr;
use std::path::PathBuf;
use std::process::{Command, Output};
use wok::capture;
use wok::packet::{self, Found};

const MESSAGE: &str = "4820001d0000000000010100010008000001012143658 7f94c000100 99";

fn octets(hex: &str) -> Vec<u8> {
    let digits: Vec<u8> = hex.bytes().filter(u8::is_ascii_hexdigit).collect();
    digits.chunks(2).map(|p| u8::from_str_radix(std::str::from_utf8(p).unwrap(), 16).unwrap()).collect()
}

/// A message with an IMSI, whose header says its length.
fn message() -> Vec<u8> {
    let mut m = octets(MESSAGE);
    let n = (m.len() - 4) as u16;
    m[2..4].copy_from_slice(&n.to_be_bytes());
    m
}

fn udp(payload: &[u8], from: u16, to: u16) -> Vec<u8> {
    let mut out = vec![];
    for n in [from, to, payload.len() as u16 + 8, 0xdead] {
        out.extend(n.to_be_bytes());
    }
    out.extend(payload);
    out
}

fn ipv4(inner: &[u8], flags: u16) -> Vec<u8> {
    let mut out = vec![0x45, 0];
    out.extend((inner.len() as u16 + 20).to_be_bytes());
    out.extend([0, 1]);
    out.extend(flags.to_be_bytes());
    out.extend([64, 17, 0, 0, 10, 0, 0, 1, 10, 0, 0, 2]);
    out.extend(inner);
    out
}

fn ipv6(inner: &[u8], extension: &[u8]) -> Vec<u8> {
    let mut out = vec![0x60, 0, 0, 0];
    out.extend(((inner.len() + extension.len()) as u16).to_be_bytes());
    out.extend([if extension.is_empty() { 17 } else { 44 }, 64]);
    out.extend((0..32u8).map(|i| i.wrapping_mul(7)));
    out.extend(extension);
    out.extend(inner);
    out
}

fn ethernet(inner: &[u8], tags: &[u16]) -> Vec<u8> {
    let mut out = vec![2; 12];
    for tag in tags {
        out.extend(tag.to_be_bytes());
    }
    out.extend(if inner[0] >> 4 == 4 { [8, 0] } else { [0x86, 0xdd] });
    out.extend(inner);
    out
}

fn file(link: u32, packets: &[Vec<u8>]) -> Vec<u8> {
    let mut out = vec![];
    for n in [0xa1b2c3d4u32, 2 | 4 << 16, 0, 0, 65535, link] {
        out.extend(n.to_le_bytes());
    }
    for (i, packet) in packets.iter().enumerate() {
        for n in [1_700_000_000 + i as u32, 123456, packet.len() as u32, packet.len() as u32] {
            out.extend(n.to_le_bytes());
        }
        out.extend(packet);
    }
    out
}

#[test]
fn every_link() {
    let m = message();
    let (four, six) = (ipv4(&udp(&m, 2123, 30000), 0x4000), ipv6(&udp(&m, 30000, 2123), &[]));
    for ip in [&four, &six] {
        let cooked = |n: usize| [vec![0; n], if ip[0] >> 4 == 4 { vec![8, 0] } else { vec![0x86, 0xdd] }].concat();
        let cooked2 = [cooked(0), vec![0; 18]].concat();
        for (link, packet) in [
            (1, ethernet(ip, &[])),
            (1, ethernet(ip, &[0x8100, 5])),
            (1, ethernet(ip, &[0x88a8, 7, 0x8100, 5])),
            (113, [cooked(14), ip.clone()].concat()),
            (276, [cooked2, ip.clone()].concat()),
            (101, ip.clone()),
        ] {
            let read = capture::read(&file(link, &[packet]), 2123).unwrap();
            assert_eq!(read.messages.len(), 1, "link {link}");
            assert_eq!(read.messages[0].octets(), m);
            assert_eq!((read.messages[0].seconds, read.messages[0].nanoseconds), (1_700_000_000, 123_456_000));
        }
    }
}

#[test]
fn what_is_left_out() {
    let whole = udp(&message(), 2123, 2123);
    let fragment = [17, 0, 0, 1, 0, 0, 0, 9];
    let atomic = [17, 0, 0, 0, 0, 0, 0, 9];
    let mut long = ipv4(&whole, 0);
    long.truncate(long.len() - 3);
    let packets =
        [ipv4(&whole, 0x2000), ipv4(&whole, 3), ipv6(&whole, &fragment), ipv6(&whole, &atomic), long, ipv4(&udp(b"x", 53, 53), 0), vec![0x45]];
    let read = capture::read(&file(101, &packets), 2123).unwrap();
    assert_eq!((read.messages.len(), read.fragments, read.cut, read.others), (1, vec![1, 2, 3], vec![5, 7], 1));
    assert_eq!(capture::read(&file(101, &packets), 53).unwrap().messages.len(), 1);
    assert!(capture::read(&file(105, &packets), 2123).is_err_and(|e| e.contains("link type")));
    let broken = capture::read(&file(101, &packets[3..])[..24 + 16 + packets[3].len() + 20], 2123).unwrap();
    assert!(broken.messages.len() == 1 && broken.broken.is_some_and(|b| b.starts_with("packet 2 ")));
    assert!(capture::read(&file(101, &packets)[..20], 2123).is_err());
}

fn wok(words: &[&str]) -> Output {
    Command::new(env!("CARGO_BIN_EXE_wok")).args(words).output().unwrap()
}

fn kept(name: &str, octets: &[u8]) -> PathBuf {
    let path = PathBuf::from(env!("CARGO_TARGET_TMPDIR")).join(name);
    std::fs::write(&path, octets).unwrap();
    path
}

/// The one's complement sum over a datagram with its checksum, which is 0xffff if that is right.
fn summed(d: &packet::Datagram, packet: &[u8]) -> u32 {
    let mut all = vec![];
    for a in [d.from, d.to] {
        match a {
            IpAddr::V4(a) => all.extend(a.octets()),
            IpAddr::V6(a) => all.extend(a.octets()),
        }
    }
    all.extend([0, 17]);
    all.extend((d.udp.len() as u16).to_be_bytes());
    all.extend(&packet[d.udp.clone()]);
    let total: u32 = all.chunks(2).map(|p| u32::from(p[0]) << 8 | u32::from(*p.get(1).unwrap_or(&0))).sum();
    (total & 0xffff) + (total >> 16)
}

#[test]
fn masked_capture() {
    let m = message();
    let cut = octets("48420011000000010000020048000500490001000500"); // its length is wrong: it is not masked
    let mut none = ipv4(&udp(&m, 2123, 2123), 0);
    none[26..28].fill(0); // no checksum
    let padded = [ethernet(&ipv4(&udp(&m, 2123, 2123), 0), &[]), vec![0xaa; 6]].concat();
    let packets =
        [ethernet(&ipv6(&udp(&m, 2123, 9), &[]), &[]), ethernet(&ipv4(&udp(&cut, 2123, 2123), 0), &[]), padded, ethernet(&none, &[]), vec![9; 40]];
    let (input, output) = (kept("in.pcap", &file(1, &packets)), PathBuf::from(env!("CARGO_TARGET_TMPDIR")).join("out.pcap"));
    let ran = wok(&["mask", "S11", input.to_str().unwrap(), "-o", output.to_str().unwrap()]);
    let said = String::from_utf8(ran.stderr).unwrap();
    assert_eq!(ran.status.code(), Some(1), "{said}");
    assert!(
        said.contains("message 2 (packet 2) is not masked: refused by check 6")
            && said.contains("packets with no message on UDP port 2123 are left out: 1"),
        "{said}"
    );
    let out = std::fs::read(&output).unwrap();
    assert!(!out.windows(8).any(|w| w == &m[16..24]) && !out.windows(6).any(|w| w == [0xaa; 6]));
    let read = capture::read(&out, 2123).unwrap();
    assert_eq!(read.messages.len(), 3);
    for (masked, number) in read.messages.iter().zip([0, 2, 3]) {
        let before = &packets[number];
        assert_eq!((masked.packet.len(), masked.seconds, masked.nanoseconds), (before.len(), 1_700_000_000 + number as i64, 123_456_000));
        let d = &masked.datagram;
        assert_eq!(masked.packet[..d.udp.start + 6], before[..d.udp.start + 6]);
        assert_eq!(masked.octets()[..16], m[..16]);
        assert_eq!(masked.octets()[16..24], [0; 8]);
        let checksum = &masked.packet[d.udp.start + 6..d.udp.start + 8];
        assert!(if number == 3 { checksum == [0, 0] } else { summed(d, &masked.packet) == 0xffff });
        assert!(matches!(packet::find(1, &masked.packet, 2123), Found::Datagram(_)));
    }
    // tshark, where it is installed, reads as many messages in what came out
    if installed("tshark") {
        let seen = Command::new("tshark").args(["-r", output.to_str().unwrap(), "-T", "fields", "-e", "gtpv2.message_type"]).output().unwrap();
        assert_eq!(String::from_utf8_lossy(&seen.stdout).lines().filter(|l| *l == "32").count(), 3);
    }
}

/// The one's complement sum over octets.
fn sum_of(octets: &[u8]) -> u32 {
    let total: u32 = octets.chunks(2).map(|p| u32::from(p[0]) << 8 | u32::from(*p.get(1).unwrap_or(&0))).sum();
    (total & 0xffff) + (total >> 16)
}

/// Packets of every sort with a message from which 6 octets go, and one that is refused: what comes out has lengths and checksums that are right
/// for the copy and nothing else that is new.
#[test]
fn cleaned_capture() {
    let m = octets("40 01 000f 000001 00 0300010007 c8000200 1234");
    let clean = octets("40 01 0009 000001 00 0300010007");
    let short = octets("40 01 0008 000001 00 03000000"); // 3/0 is mandatory and short
    let mut none = ipv4(&udp(&m, 2123, 2123), 0);
    none[26..28].fill(0); // no checksum
    let mut options = ipv4(&[&[1; 8], &udp(&m, 2123, 2123)[..]].concat(), 0); // an IPv4 header of 28 octets
    options[0] = 0x47;
    let padded = [ethernet(&ipv4(&udp(&m, 2123, 2123), 0x4000), &[0x8100, 5]), vec![0xaa; 6]].concat();
    let atomic = [17, 0, 0, 0, 0, 0, 0, 9];
    let packets = [
        ethernet(&ipv6(&udp(&m, 2123, 9), &[]), &[]),
        ethernet(&ipv6(&udp(&m, 9, 2123), &atomic), &[]),
        ethernet(&ipv4(&udp(&short, 2123, 2123), 0), &[]),
        padded,
        ethernet(&none, &[]),
        ethernet(&options, &[]),
        ethernet(&ipv4(&udp(&clean, 2123, 2123), 0), &[]),
        vec![9; 40],
    ];
    let (input, output) = (kept("clean-in.pcap", &file(1, &packets)), PathBuf::from(env!("CARGO_TARGET_TMPDIR")).join("clean-out.pcap"));
    let ran = wok(&["clean", "S11", input.to_str().unwrap(), "-o", output.to_str().unwrap()]);
    let said = String::from_utf8(ran.stderr).unwrap();
    assert_eq!((ran.status.code(), ran.stdout.len()), (Some(1), 0), "{said}");
    assert!(said.contains("message 3 (packet 3) is not cleaned: refused by check 11"), "{said}");
    assert!(said.contains("no row is set aside in 1 of 6 messages"), "{said}");
    let read = capture::read(&std::fs::read(&output).unwrap(), 2123).unwrap();
    assert_eq!(read.messages.len(), 6);
    for (cleaned, number) in read.messages.iter().zip([0, 1, 3, 4, 5, 6]) {
        let (d, packet, before) = (&cleaned.datagram, &cleaned.packet, &packets[number]);
        assert_eq!(cleaned.octets(), clean, "packet {}", number + 1);
        assert_eq!((d.udp.end, cleaned.seconds), (packet.len(), 1_700_000_000 + number as i64));
        let of_ip = packet.len() - d.ip;
        let (at, length) = if d.from.is_ipv4() { (d.ip + 2, of_ip) } else { (d.ip + 4, of_ip - 40) };
        assert_eq!(usize::from(u16::from_be_bytes([packet[at], packet[at + 1]])), length);
        assert!(d.from.is_ipv6() || sum_of(&packet[d.ip..d.udp.start]) == 0xffff);
        assert!(if number == 4 { packet[d.udp.start + 6..d.udp.start + 8] == [0, 0] } else { summed(d, packet) == 0xffff });
        let same = |from: usize, to: usize| packet[from..to] == before[from..to];
        let checksum = if d.from.is_ipv4() { d.ip + 10 } else { at };
        assert!(same(0, at) && same(at + 2, checksum.max(at + 2)) && same(checksum + 2, d.udp.start + 4), "packet {}", number + 1);
    }
    if installed("tshark") {
        let seen = Command::new("tshark").args(["-r", output.to_str().unwrap(), "-T", "fields", "-e", "gtpv2.message_type"]).output().unwrap();
        assert_eq!(String::from_utf8_lossy(&seen.stdout).lines().filter(|l| *l == "1").count(), 6);
    }
}

#[test]
fn shown_capture() {
    let m = message();
    let input = kept("show.pcap", &file(101, &[ipv4(&udp(&m, 2123, 2123), 0), ipv4(&udp(&m[..12], 2123, 2123), 0)]));
    let lines = String::from_utf8(wok(&["show", "S11", input.to_str().unwrap()]).stdout).unwrap();
    let lines: Vec<_> = lines.lines().collect();
    assert_eq!(lines.len(), 2);
    assert!(lines[0].starts_with("    1 2023-11-14T22:13:20.123456Z 10.0.0.1:2123 > 10.0.0.2:2123 Create Session Request (32): "), "{}", lines[0]);
    let page = wok(&["show", "S11", "--message", "2", input.to_str().unwrap()]);
    assert!(String::from_utf8(page.stdout).unwrap().starts_with("Create Session Request (32) on S11, 12 octets\nrefused by check 6"));
    assert_eq!(wok(&["show", "S11", "--message", "3", input.to_str().unwrap()]).status.code(), Some(2));
    assert_eq!(wok(&["show", "S11", "--port", "9", input.to_str().unwrap()]).status.code(), Some(2));
    // what is there of a capture that is cut off is shown, and the rest is said
    let whole = std::fs::read(&input).unwrap();
    let cut = wok(&["show", "S11", kept("cut.pcap", &whole[..whole.len() - 1]).to_str().unwrap()]);
    assert_eq!((cut.status.code(), cut.stdout.iter().filter(|&&o| o == b'\n').count()), (Some(2), 1));
    assert!(String::from_utf8_lossy(&cut.stderr).contains("packet 2 and what follows cannot be read"));
    let zipped = wok(&["show", "S11", kept("zipped", &[0x1f, 0x8b, 8, 0]).to_str().unwrap()]);
    assert_eq!(zipped.status.code(), Some(2));
}

#[test]
fn a_hundred_thousand() {
    let packet = ethernet(&ipv4(&udp(&message(), 2123, 2123), 0), &[]);
    let input = kept("many.pcap", &file(1, &vec![packet; 100_000]));
    let output = PathBuf::from(env!("CARGO_TARGET_TMPDIR")).join("many-masked.pcap");
    let began = std::time::Instant::now();
    let ran = wok(&["mask", "S11", input.to_str().unwrap(), "-o", output.to_str().unwrap()]);
    println!("100,000 messages masked in {:?}", began.elapsed());
    assert_eq!(ran.status.code(), Some(0));
    assert!(began.elapsed().as_secs() < 10);
    assert_eq!(std::fs::metadata(&output).unwrap().len(), std::fs::metadata(&input).unwrap().len());
}
