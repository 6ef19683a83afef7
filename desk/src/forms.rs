//! How messages are written: pages, lines, numbers, JSON, CSV, hex.

use crate::capture::Message;
use crate::library::{Five, Judged, Library, VOID};
use std::fmt::Write;

/// Where a message comes from.
pub struct Origin<'a> {
    pub file: &'a str,
    pub kind: &'a str,
    /// counted from 1 in its file
    pub number: usize,
    pub packet: Option<&'a Message>,
}

/// A message's name and its verdict in words, as its page has them.
pub fn words(page: &str) -> (&str, &str) {
    let title = page.lines().next().unwrap_or("");
    let verdict = page.lines().find(|l| l.starts_with("accepted") || l.starts_with("refused"));
    (title.split(" on ").next().unwrap_or(title), verdict.unwrap_or(""))
}

/// A time in UTC, to the microsecond.
pub fn time(seconds: i64, nanoseconds: u32) -> String {
    let (days, rest) = (seconds.div_euclid(86400), seconds.rem_euclid(86400));
    // days from the first of March of year 0, in eras of 400 years
    let z = days + 719468;
    let (era, day) = (z.div_euclid(146097), z.rem_euclid(146097));
    let year = (day - day / 1460 + day / 36524 - day / 146096) / 365;
    let of_year = day - (365 * year + year / 4 - year / 100);
    let month = (5 * of_year + 2) / 153;
    let (d, m) = (of_year - (153 * month + 2) / 5 + 1, if month < 10 { month + 3 } else { month - 9 });
    let y = year + era * 400 + i64::from(m <= 2);
    format!("{y:04}-{m:02}-{d:02}T{:02}:{:02}:{:02}.{:06}Z", rest / 3600, rest / 60 % 60, rest % 60, nanoseconds / 1000)
}

/// From whom to whom.
pub fn peers(m: &Message) -> (String, String) {
    let d = &m.datagram;
    (std::net::SocketAddr::new(d.from, d.from_port).to_string(), std::net::SocketAddr::new(d.to, d.to_port).to_string())
}

/// The line of a message in a capture.
pub fn line(number: usize, m: &Message, page: &str) -> String {
    let (name, verdict) = words(page);
    let (from, to) = peers(m);
    format!("{number:5} {} {from} > {to} {name}: {verdict}\n", time(m.seconds, m.nanoseconds))
}

/// The verdict and the rows in numbers.
pub fn numbers(judged: &Judged) -> String {
    let joined = |n: &[u16]| n.iter().map(u16::to_string).collect::<Vec<_>>().join(" ");
    if judged.five[0] != 0 {
        return format!("refuse {}\n", joined(&judged.five));
    }
    let mut out = format!("accept {} {}\n", judged.rows.len(), judged.kept);
    for row in &judged.rows {
        out += &joined(row);
        out.push('\n');
    }
    out
}

/// Octets in lines of 16 with their offsets, as text2pcap reads them.
pub fn dump(octets: &[u8]) -> String {
    let mut out = String::new();
    for (i, line) in octets.chunks(16).enumerate() {
        let _ = write!(out, "{:04x} ", 16 * i);
        for octet in line {
            let _ = write!(out, " {octet:02x}");
        }
        out.push('\n');
    }
    out
}

pub fn hex(octets: &[u8]) -> String {
    octets.iter().fold(String::new(), |mut s, o| {
        let _ = write!(s, "{o:02x}");
        s
    })
}

/// What a viewer may see of a message: the message itself with the right, or the masked copy, or nothing if it could not be masked.
pub struct View {
    pub judged: Judged,
    pub name: String,
    pub sentence: String,
    octets: usize,
    pub seen: Option<Vec<u8>>,
}

impl View {
    pub fn of(library: &mut Library, right: bool, message: &[u8]) -> View {
        let judged = library.judge(message);
        let (name, sentence) = words(library.show(right, false, message));
        let (name, sentence) = (name.to_owned(), sentence.to_owned());
        let seen = if right && judged.copy.is_some() { Some(message.to_vec()) } else { judged.copy.clone() };
        View { judged, name, sentence, octets: message.len(), seen }
    }

    /// A row's value in hex, and how many octets at its end are covered. A group that has rows has no value of its own: they have it. Of a void group
    /// the values inside are covered, and nothing is shown without the right.
    fn value(&self, library: &mut Library, right: bool, row: usize) -> (Option<String>, usize) {
        let (Some(copy), Some(seen)) = (&self.judged.copy, &self.seen) else { return (None, 0) };
        if self.judged.rows.get(row + 1).is_some_and(|next| next[0] as usize == row + 1) {
            return (None, 0);
        }
        let [_, _, _, place, length, standing] = self.judged.rows[row].map(usize::from);
        if standing == usize::from(VOID) && !right {
            return (None, copy.get(place..place + length).map_or(0, inner));
        }
        let covered = if right { 0 } else { library.covered(copy, place, length) };
        let open = seen.get(place..place + length - covered).unwrap_or(&[]);
        (if covered == length && length > 0 { None } else { Some(hex(open)) }, covered)
    }
}

/// How many octets the values of the elements directly inside a group have, by their headers.
fn inner(group: &[u8]) -> usize {
    let (mut at, mut values) = (0, 0);
    while let Some(header) = group.get(at..at + 4) {
        let length = usize::from(u16::from_be_bytes([header[1], header[2]]));
        (at, values) = (at + 4 + length, values + length);
    }
    values
}

fn quoted(text: &str) -> String {
    let mut out = String::from('"');
    for c in text.chars() {
        match c {
            '"' | '\\' => out.extend(['\\', c]),
            c if (c as u32) < 32 => {
                let _ = write!(out, "\\u{:04x}", c as u32);
            }
            c => out.push(c),
        }
    }
    out.push('"');
    out
}

fn five_of(five: &Five) -> String {
    format!(r#"{{"code":{},"cause":{},"place":{},"type":{},"instance":{}}}"#, five[0], five[1], five[2], five[3], five[4])
}

/// The header's fields, of a message that passes checks 1 to 9.
pub struct Header {
    pub teid: Option<[u8; 4]>,
    pub sequence: u32,
    /// its length
    pub octets: usize,
}

impl Header {
    pub fn of(seen: &[u8]) -> Header {
        let t = seen[0] & 8 != 0;
        let at = if t { 8 } else { 4 };
        let teid = t.then(|| [seen[4], seen[5], seen[6], seen[7]]);
        Header { teid, sequence: u32::from_be_bytes([0, seen[at], seen[at + 1], seen[at + 2]]), octets: at + 4 }
    }
}

fn header_of(seen: &[u8]) -> String {
    let Header { teid, sequence, .. } = Header::of(seen);
    let teid = teid.map_or("null".into(), |t| quoted(&hex(&t)));
    let length = u16::from_be_bytes([seen[2], seen[3]]);
    format!(r#"{{"version":{},"type":{},"length":{length},"teid":{teid},"sequence":{sequence}}}"#, seen[0] >> 5, seen[1])
}

/// One object, on a line.
pub fn json(library: &mut Library, right: bool, origin: &Origin, view: &View) -> String {
    let mut out = format!(r#"{{"file":{},"message":{},"kind":{}"#, quoted(origin.file), origin.number, quoted(origin.kind));
    if let Some(m) = origin.packet {
        let (from, to) = peers(m);
        let _ = write!(
            out,
            r#","packet":{},"time":{},"from":{},"to":{}"#,
            m.packet_number,
            quoted(&time(m.seconds, m.nanoseconds)),
            quoted(&from),
            quoted(&to)
        );
    }
    let header = view.seen.as_deref().map_or("null".into(), header_of);
    let _ = write!(
        out,
        r#","octets":{},"name":{},"verdict":{},"sentence":{},"header":{header},"rows":["#,
        view.octets,
        quoted(&view.name),
        five_of(&view.judged.five),
        quoted(&view.sentence)
    );
    for (i, &[parent, kind, instance, place, length, standing]) in view.judged.rows.iter().enumerate() {
        let (value, covered) = view.value(library, right, i);
        let value = value.map_or("null".into(), |v| quoted(&v));
        let name = quoted(&library.name(kind as u8));
        let comma = if i == 0 { "" } else { "," };
        let _ = write!(
            out,
            r#"{comma}{{"row":{},"parent":{parent},"type":{kind},"name":{name},"instance":{instance},"place":{place},"length":{length},"standing":{standing},"value":{value},"covered":{covered}}}"#,
            i + 1
        );
    }
    out + "]}\n"
}

pub const CSV_HEAD: &str =
    "file,message,time,from,to,kind,octets,code,cause,at,at_type,at_instance,row,parent,type,name,instance,place,length,standing,value,covered\n";

fn cell(text: &str) -> String {
    if text.contains([',', '"', '\n', '\r']) {
        format!("\"{}\"", text.replace('"', "\"\""))
    } else {
        text.into()
    }
}

/// A line a row; one line with no row if there is none.
pub fn csv(library: &mut Library, right: bool, origin: &Origin, view: &View) -> String {
    let (mut when, mut from, mut to) = (String::new(), String::new(), String::new());
    if let Some(m) = origin.packet {
        when = time(m.seconds, m.nanoseconds);
        (from, to) = peers(m);
    }
    let [code, cause, place, kind, instance] = view.judged.five;
    let head = format!(
        "{},{},{when},{from},{to},{},{},{code},{cause},{place},{kind},{instance}",
        cell(origin.file),
        origin.number,
        origin.kind,
        view.octets
    );
    if view.judged.rows.is_empty() {
        return head + ",,,,,,,,,,\n";
    }
    let mut out = String::new();
    for (i, &[parent, kind, instance, place, length, standing]) in view.judged.rows.iter().enumerate() {
        let (value, covered) = view.value(library, right, i);
        let name = cell(&library.name(kind as u8));
        let _ =
            writeln!(out, "{head},{},{parent},{kind},{name},{instance},{place},{length},{standing},{},{covered}", i + 1, value.unwrap_or_default());
    }
    out
}
