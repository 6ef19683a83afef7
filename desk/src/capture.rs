//! Captures, read by libpcap, which is bound when a capture is given and not before: without it the tool does everything else.

use crate::packet::{self, Datagram, Found};
use std::ffi::{c_char, c_int, c_uint, c_void, CStr, CString};
use std::ptr;

#[link(name = "dl")]
extern "C" {
    fn dlopen(name: *const c_char, flags: c_int) -> *mut c_void;
    fn dlsym(library: *mut c_void, name: *const c_char) -> *mut c_void;
}

extern "C" {
    fn fmemopen(octets: *mut c_void, size: usize, mode: *const c_char) -> *mut c_void;
    fn fclose(file: *mut c_void) -> c_int;
}

const RTLD_NOW: c_int = 2;
const NANOSECONDS: c_uint = 1;
const ERROR_SIZE: usize = 256;

/// What libpcap says of a packet.
#[repr(C)]
struct Header {
    seconds: i64,
    parts: i64,
    captured: u32,
    length: u32,
}

type Open = unsafe extern "C" fn(*mut c_void, c_uint, *mut c_char) -> *mut c_void;
type Link = unsafe extern "C" fn(*mut c_void) -> c_int;
type Next = unsafe extern "C" fn(*mut c_void, *mut *mut Header, *mut *const u8) -> c_int;
type Say = unsafe extern "C" fn(*mut c_void) -> *mut c_char;
type Close = unsafe extern "C" fn(*mut c_void);

struct Pcap {
    open: Open,
    link: Link,
    next: Next,
    say: Say,
    close: Close,
}

/// A message of a capture, and the packet it came in.
pub struct Message {
    /// counted from 1 among the packets
    pub packet_number: usize,
    pub seconds: i64,
    pub nanoseconds: u32,
    pub packet: Vec<u8>,
    pub datagram: Datagram,
}

impl Message {
    pub fn octets(&self) -> &[u8] {
        &self.packet[self.datagram.payload()]
    }
}

/// What a capture has.
pub struct Capture {
    pub link: i32,
    pub messages: Vec<Message>,
    /// the packets that hold a part of a datagram, and those that are cut off
    pub fragments: Vec<usize>,
    pub cut: Vec<usize>,
    /// how many packets are none of the port's
    pub others: usize,
    /// why it could not be read to its end
    pub broken: Option<String>,
}

/// Whether octets begin as a capture does: pcap in either order and precision, or pcapng.
pub fn is_capture(octets: &[u8]) -> bool {
    const FIRST: [[u8; 4]; 5] =
        [[0xa1, 0xb2, 0xc3, 0xd4], [0xd4, 0xc3, 0xb2, 0xa1], [0xa1, 0xb2, 0x3c, 0x4d], [0x4d, 0x3c, 0xb2, 0xa1], [0x0a, 0x0d, 0x0d, 0x0a]];
    FIRST.iter().any(|f| octets.starts_with(f))
}

fn bind(names: &[&str]) -> Result<Pcap, String> {
    for name in names {
        let name = CString::new(*name).unwrap();
        // SAFETY: the names are C strings; each function has the type that pcap.h declares.
        unsafe {
            let library = dlopen(name.as_ptr(), RTLD_NOW);
            if library.is_null() {
                continue;
            }
            let symbol = |name: &CStr| match dlsym(library, name.as_ptr()) {
                p if p.is_null() => Err(format!("libpcap has no {}: install the Debian package libpcap0.8", name.to_string_lossy())),
                p => Ok(p),
            };
            return Ok(Pcap {
                open: std::mem::transmute::<*mut c_void, Open>(symbol(c"pcap_fopen_offline_with_tstamp_precision")?),
                link: std::mem::transmute::<*mut c_void, Link>(symbol(c"pcap_datalink")?),
                next: std::mem::transmute::<*mut c_void, Next>(symbol(c"pcap_next_ex")?),
                say: std::mem::transmute::<*mut c_void, Say>(symbol(c"pcap_geterr")?),
                close: std::mem::transmute::<*mut c_void, Close>(symbol(c"pcap_close")?),
            });
        }
    }
    Err("a capture is read with libpcap, which is not there: install the Debian package libpcap0.8".into())
}

/// Reads a capture from memory.
pub fn read(octets: &[u8], port: u16) -> Result<Capture, String> {
    read_with(&["libpcap.so.0.8", "libpcap.so.1", "libpcap.so"], octets, port)
}

fn read_with(names: &[&str], octets: &[u8], port: u16) -> Result<Capture, String> {
    let pcap = bind(names)?;
    let mut error = [0 as c_char; ERROR_SIZE];
    // SAFETY: the octets outlive the file, which libpcap closes with the capture; what it lends is copied before it is asked again.
    unsafe {
        let file = fmemopen(octets.as_ptr() as *mut c_void, octets.len(), c"r".as_ptr());
        if file.is_null() {
            return Err("no memory".into());
        }
        let handle = (pcap.open)(file, NANOSECONDS, error.as_mut_ptr());
        if handle.is_null() {
            fclose(file);
            return Err(CStr::from_ptr(error.as_ptr()).to_string_lossy().into_owned());
        }
        let read = packets(&pcap, handle, port);
        (pcap.close)(handle);
        read
    }
}

unsafe fn packets(pcap: &Pcap, handle: *mut c_void, port: u16) -> Result<Capture, String> {
    let link = (pcap.link)(handle);
    if !packet::readable(link) {
        return Err(format!("link type {link} is not read: Ethernet, Linux cooked and raw IP are"));
    }
    let mut capture = Capture { link, messages: vec![], fragments: vec![], cut: vec![], others: 0, broken: None };
    let (mut header, mut data) = (ptr::null_mut::<Header>(), ptr::null());
    for number in 1.. {
        match (pcap.next)(handle, &mut header, &mut data) {
            1 => {}
            -2 => break,
            _ => {
                capture.broken =
                    Some(format!("packet {number} and what follows cannot be read: {}", CStr::from_ptr((pcap.say)(handle)).to_string_lossy()));
                break;
            }
        }
        let octets = std::slice::from_raw_parts(data, (*header).captured as usize);
        match packet::find(link, octets, port) {
            Found::Datagram(datagram) => capture.messages.push(Message {
                packet_number: number,
                seconds: (*header).seconds,
                nanoseconds: (*header).parts as u32,
                packet: octets.to_vec(),
                datagram,
            }),
            Found::Fragment => capture.fragments.push(number),
            Found::Cut => capture.cut.push(number),
            Found::Other => capture.others += 1,
        }
    }
    Ok(capture)
}

/// The beginning of a capture file (pcap, nanoseconds) of a link type.
pub fn file_header(link: i32) -> Vec<u8> {
    // raw IP is 12 or 14 for libpcap, and 101 in a file
    let link = if link == 12 || link == 14 { 101 } else { link };
    let mut out = vec![];
    for n in [0xa1b23c4du32, 2 | 4 << 16, 0, 0, 262144, link as u32] {
        out.extend(n.to_le_bytes());
    }
    out
}

/// A packet in such a file.
pub fn add_packet(out: &mut Vec<u8>, m: &Message, packet: &[u8]) {
    for n in [m.seconds as u32, m.nanoseconds, packet.len() as u32, packet.len() as u32] {
        out.extend(n.to_le_bytes());
    }
    out.extend(packet);
}

#[cfg(test)]
mod tests {
    use super::*;

    #[test]
    fn without_libpcap_the_package_is_named() {
        let refused = read_with(&["libnothing.so.0"], &file_header(1), 2123);
        assert!(refused.is_err_and(|e| e.contains("libpcap0.8")));
    }
}
