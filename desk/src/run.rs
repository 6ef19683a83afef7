//! The commands. Status: 0 accepted, counted or made, 1 refused, 2 bad use or a file that cannot be read or written.

use crate::args::{self, Args, Command, Form, Instead};
use crate::build::{self, Refused};
use crate::capture::{self, Capture, Message};
use crate::clean::{self, Unchanged};
use crate::edit;
use crate::forms::{self, Origin, View};
use crate::input::{self, Content};
use crate::library::Library;
use crate::packet;
use crate::rows;
use std::ffi::{OsStr, OsString};
use std::io::{IsTerminal, Write};
use std::time::Instant;

fn say(text: impl std::fmt::Display) {
    let _ = writeln!(std::io::stderr(), "wok: {text}");
}

pub fn run(words: Vec<OsString>) -> u8 {
    match args::parse(words) {
        Err(Instead::Say(text)) => write_out(text.as_bytes(), None, 0),
        Err(Instead::Refuse(why)) => {
            say(format!("{why} (wok --help)"));
            2
        }
        Ok(args) => {
            let mut job =
                Job { library: Library::new(args.kind), out: vec![], status: 0, shown: 0, colour: coloured(), unchanged: Unchanged::default(), args };
            job.files();
            job.finish()
        }
    }
}

/// Colour on a terminal alone, unless NO_COLOR says otherwise.
fn coloured() -> bool {
    std::io::stdout().is_terminal() && std::env::var_os("NO_COLOR").is_none_or(|v| v.is_empty())
}

/// Writes what was made; a write that fails is said.
fn write_out(octets: &[u8], to: Option<&OsString>, status: u8) -> u8 {
    let written = match to {
        Some(name) => std::fs::write(name, octets),
        None => {
            let mut out = std::io::stdout().lock();
            out.write_all(octets).and_then(|_| out.flush())
        }
    };
    match written {
        Ok(()) => status,
        Err(e) => {
            let name = to.map_or("standard output".into(), |n| n.to_string_lossy().into_owned());
            say(format!("{name} cannot be written: {e}"));
            2
        }
    }
}

struct Job {
    args: Args,
    library: Library,
    out: Vec<u8>,
    status: u8,
    shown: usize,
    colour: bool,
    unchanged: Unchanged,
}

impl Job {
    fn fail(&mut self, why: impl std::fmt::Display) {
        say(why);
        self.status = 2;
    }

    fn refused(&mut self) {
        self.status = self.status.max(1);
    }

    fn files(&mut self) {
        if self.args.form == Form::Csv {
            self.out.extend(forms::CSV_HEAD.bytes());
        }
        for file in self.args.files.clone() {
            let name = if file == "-" { "standard input".into() } else { file.to_string_lossy().into_owned() };
            if self.args.out.as_ref().is_some_and(|o| same_file(o, &file)) {
                return self.fail(format!("{name} is read, and would be written over: give -o another name"));
            }
            if self.args.command == Command::Build {
                self.build(&name, &file);
            } else {
                self.load(&name, &file);
            }
        }
    }

    fn load(&mut self, name: &str, file: &OsStr) {
        match input::load(file, self.args.port) {
            Err(why) => self.fail(format!("{name}: {why}")),
            Ok(Content::Messages(messages)) => self.messages(name, &messages),
            Ok(Content::Capture(capture)) => self.capture(name, &capture),
        }
        if let Some(sentence) = std::mem::take(&mut self.unchanged).sentence() {
            say(format!("{name}: {sentence}"));
        }
    }

    fn finish(self) -> u8 {
        if !self.args.command.lists() && self.out.is_empty() {
            return self.status;
        }
        write_out(&self.out, self.args.out.as_ref(), self.status)
    }

    /// The messages of a file that were asked for, with their numbers.
    fn wanted<'a, T>(&self, messages: &'a [T]) -> impl Iterator<Item = (usize, &'a T)> {
        let only = self.args.message;
        (1..).zip(messages).filter(move |(n, _)| only.is_none_or(|m| m == *n))
    }

    /// Whether the message that was asked for is there.
    fn there(&mut self, name: &str, count: usize) -> bool {
        match self.args.message {
            Some(n) if n > count => {
                self.fail(format!("{name}: there is no message {n}: it has {count}"));
                false
            }
            _ => true,
        }
    }

    fn too_many(&mut self, name: &str, count: usize) {
        let hex = if self.args.command.copies() { "--hex, or " } else { "" };
        self.fail(format!("{name} has {count} messages: give {hex}--message N"));
    }

    fn messages(&mut self, name: &str, messages: &[Vec<u8>]) {
        let many = (messages.len() > 1 && self.args.message.is_none()) || self.args.files.len() > 1;
        if !self.there(name, messages.len()) {
            return;
        }
        if many && !self.args.command.lists() && !self.args.hex {
            return self.too_many(name, messages.len());
        }
        for (number, message) in self.wanted(messages) {
            let heading = many.then(|| format!("{name}: message {number} of {}\n", messages.len()));
            self.message(&Origin { file: name, kind: self.args.kind_name, number, packet: None }, heading, message);
        }
    }

    /// One message, whatever it came in.
    fn message(&mut self, origin: &Origin, heading: Option<String>, message: &[u8]) {
        if self.args.command == Command::Rows {
            return self.rows(heading, message);
        }
        let plain = self.args.form == Form::Page && self.args.command.lists();
        if self.shown > 0 && plain {
            self.out.push(b'\n');
        }
        self.shown += 1;
        if let Some(heading) = heading.filter(|_| plain) {
            self.out.extend(heading.bytes());
        }
        match self.args.command {
            Command::Judge => {
                let judged = self.library.judge(message);
                self.out.extend(forms::numbers(&judged).bytes());
                if judged.five[0] != 0 {
                    self.refused();
                }
            }
            Command::Show => self.show(origin, message),
            Command::Mask | Command::Clean => self.copy(origin, message),
            Command::Edit => self.edit(origin, message),
            // a line each; and it reads texts
            Command::Rows | Command::Build => {}
        }
    }

    /// The line of a message: its rows, or why it is refused in the library's words; behind the heading where there are several.
    fn rows(&mut self, heading: Option<String>, message: &[u8]) {
        let said = match rows::count(self.args.kind, message) {
            Ok(rows) => rows::sentence(rows),
            Err(_) => {
                self.refused();
                forms::words(self.library.show(false, false, message)).1.to_owned()
            }
        };
        let heading = heading.map_or(String::new(), |h| format!("{}: ", h.trim_end()));
        self.paint(&format!("{heading}{said}\n"));
    }

    fn show(&mut self, origin: &Origin, message: &[u8]) {
        let right = self.args.right;
        if self.args.form == Form::Page {
            let page = self.library.show(right, self.args.long, message).to_owned();
            self.paint(&page);
            if self.library.judge(message).five[0] != 0 {
                self.refused();
            }
            return;
        }
        let view = View::of(&mut self.library, right, message);
        if view.judged.five[0] != 0 {
            self.refused();
        }
        let text = if self.args.form == Form::Json {
            forms::json(&mut self.library, right, origin, &view)
        } else {
            forms::csv(&mut self.library, right, origin, &view)
        };
        self.out.extend(text.bytes());
    }

    /// A page or a line, with its verdict in colour on a terminal.
    fn paint(&mut self, text: &str) {
        for line in text.split_inclusive('\n') {
            let colour = match () {
                _ if !self.colour => None,
                _ if line.starts_with("accepted") || line.contains(": accepted") => Some("32"),
                _ if line.starts_with("refused") || line.contains(": refused") => Some("31"),
                _ => None,
            };
            match colour {
                Some(c) => self.out.extend(format!("\x1b[{c}m{}\x1b[0m\n", line.trim_end()).bytes()),
                None => self.out.extend(line.bytes()),
            }
        }
    }

    /// The masked or the cleaned copy of a message, if it has one.
    fn copied(&mut self, message: &[u8]) -> Option<Vec<u8>> {
        if self.args.command == Command::Clean {
            let copy = clean::cleaned(self.args.kind, message).ok()?;
            self.unchanged.count(message, &copy);
            return Some(copy);
        }
        self.library.mask(message)
    }

    fn copy(&mut self, origin: &Origin, message: &[u8]) {
        match self.copied(message) {
            Some(copy) => self.put(copy),
            None => self.left_out(origin, message),
        }
    }

    fn put(&mut self, copy: Vec<u8>) {
        if self.args.hex {
            // a blank line between copies, and none for a message that has no copy
            if !self.out.is_empty() {
                self.out.push(b'\n');
            }
            self.out.extend(forms::dump(&copy).bytes());
        } else if self.args.out.is_none() && std::io::stdout().is_terminal() {
            self.fail("raw octets do not go to a terminal: give -o OUT or --hex");
        } else {
            self.out.extend(copy);
        }
    }

    fn edit(&mut self, origin: &Origin, message: &[u8]) {
        match edit::text(&mut self.library, self.args.right, origin.kind, message) {
            Some(text) => self.out.extend(text.bytes()),
            None => self.left_out(origin, message),
        }
    }

    /// The message of a text; or what is wrong with its lines.
    fn build(&mut self, name: &str, file: &OsStr) {
        let text = match input::text(file) {
            Ok(text) => text,
            Err(why) => return self.fail(format!("{name}: {why}")),
        };
        match build::message(&text) {
            Ok(message) => self.put(message),
            Err(Refused::Line(f)) => self.fail(format!("{name}: line {}: {}", f.line, f.why)),
            Err(Refused::Message(faults)) => {
                faults.iter().for_each(|f| say(format!("{name}: line {}: {}", f.line, f.why)));
                self.refused();
            }
        }
    }

    /// Says why a message has no copy, in the library's words.
    fn left_out(&mut self, origin: &Origin, message: &[u8]) {
        let sentence = forms::words(self.library.show(false, false, message)).1.to_owned();
        let packet = origin.packet.map_or(String::new(), |m| format!(" (packet {})", m.packet_number));
        say(format!("{}: message {}{packet} is not {}: {sentence}", origin.file, origin.number, self.args.command.done()));
        self.refused();
    }

    fn capture(&mut self, name: &str, capture: &Capture) {
        let count = capture.messages.len();
        let list = |numbers: &[usize]| numbers.iter().map(usize::to_string).collect::<Vec<_>>().join(" ");
        if !capture.fragments.is_empty() {
            say(format!("{name}: parts of datagrams are left out: packets {}", list(&capture.fragments)));
        }
        if !capture.cut.is_empty() {
            say(format!("{name}: packets that are cut off are left out: {}", list(&capture.cut)));
        }
        if let Some(why) = &capture.broken {
            self.fail(format!("{name}: {why}"));
        }
        if count == 0 {
            return self.fail(format!("{name}: no message on UDP port {} in {} packets", self.args.port, capture.others));
        }
        if !self.there(name, count) {
            return;
        }
        if self.args.command == Command::Edit && count > 1 && self.args.message.is_none() {
            return self.too_many(name, count);
        }
        if self.args.command.copies() && !self.args.hex {
            return self.copy_capture(name, capture);
        }
        let many = self.args.message.is_none() || self.args.files.len() > 1;
        let lines = self.args.command == Command::Show && self.args.form == Form::Page && self.args.message.is_none();
        let mut progress = Progress::new(count);
        for (number, m) in self.wanted(&capture.messages) {
            progress.at(number);
            if lines {
                self.line(number, m);
            } else {
                let heading = many.then(|| format!("{name}: message {number} of {count}\n"));
                self.message(&Origin { file: name, kind: self.args.kind_name, number, packet: Some(m) }, heading, m.octets());
            }
        }
    }

    fn line(&mut self, number: usize, m: &Message) {
        let text = forms::line(number, m, self.library.show(false, false, m.octets()));
        self.paint(&text);
        if self.library.judge(m.octets()).five[0] != 0 {
            self.refused();
        }
    }

    /// The same packets with the copies of their messages.
    fn copy_capture(&mut self, name: &str, capture: &Capture) {
        if self.args.out.is_none() && std::io::stdout().is_terminal() {
            return self.fail("a capture does not go to a terminal: give -o OUT or --hex");
        }
        if capture.others > 0 {
            say(format!("{name}: packets with no message on UDP port {} are left out: {}", self.args.port, capture.others));
        }
        self.out = capture::file_header(capture.link);
        let mut progress = Progress::new(capture.messages.len());
        for (number, m) in self.wanted(&capture.messages) {
            progress.at(number);
            let Some(copy) = self.copied(m.octets()) else {
                self.left_out(&Origin { file: name, kind: "", number, packet: Some(m) }, m.octets());
                continue;
            };
            let packet =
                if self.args.command == Command::Clean { packet::with_payload(&m.packet, &m.datagram, &copy) } else { masked_packet(m, &copy) };
            capture::add_packet(&mut self.out, m, &packet);
        }
        if self.out.len() == capture::file_header(capture.link).len() {
            self.out.clear();
        }
    }
}

/// The packet of a masked message, which is as long as it was.
fn masked_packet(m: &Message, copy: &[u8]) -> Vec<u8> {
    let mut packet = m.packet.clone();
    packet[m.datagram.payload()].copy_from_slice(copy);
    // what a short frame is filled up with is none of the message
    packet[m.datagram.udp.end..].fill(0);
    packet::set_checksum(&mut packet, &m.datagram);
    packet
}

fn same_file(a: &OsString, b: &OsString) -> bool {
    match (std::fs::canonicalize(a), std::fs::canonicalize(b)) {
        (Ok(a), Ok(b)) => a == b && a.is_file(),
        _ => false,
    }
}

/// How far a long file is, on a terminal.
struct Progress {
    count: usize,
    since: Instant,
    shown: bool,
}

impl Progress {
    fn new(count: usize) -> Progress {
        Progress { count, since: Instant::now(), shown: false }
    }

    fn at(&mut self, i: usize) {
        if i.is_multiple_of(1024) && self.since.elapsed().as_secs() > 0 && std::io::stderr().is_terminal() {
            eprint!("\rwok: {} of {} messages", i, self.count);
            (self.since, self.shown) = (Instant::now(), true);
        }
    }
}

impl Drop for Progress {
    fn drop(&mut self) {
        if self.shown {
            eprintln!("\rwok: {0} of {0} messages", self.count);
        }
    }
}
