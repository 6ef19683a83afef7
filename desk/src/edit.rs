//! A message as text that a person can change (`text`): its fields, and a line a row. Rows set aside stand there as comments.

use crate::build;
use crate::forms::{Header, View};
use crate::library::{Judged, Library, Row, VOID};
use crate::text;

/// The text of a message: of itself with the right, of the masked copy without; none of a message that checks 1 to 9 refuse.
pub fn text(library: &mut Library, right: bool, kind: &str, message: &[u8]) -> Option<String> {
    let view = View::of(library, right, message);
    let seen = view.seen?;
    let judged = library.read(&seen)?;
    let mut edit = Edit { library, right, seen, judged };
    let (rows, covered) = edit.rows();
    Some(edit.notes(&view.sentence, covered) + &edit.fields(kind) + "\n" + &rows)
}

struct Edit<'a> {
    library: &'a mut Library,
    right: bool,
    seen: Vec<u8>,
    judged: Judged,
}

/// A line and its comment.
fn line(said: &str, comment: &str) -> String {
    format!("{said:<30}  # {comment}\n")
}

impl Edit<'_> {
    /// What stands over the fields.
    fn notes(&self, sentence: &str, covered: bool) -> String {
        let mut out = format!("# wok edit: change what is needed, then wok build\n# {sentence}\n");
        out += match (self.right, covered) {
            (true, _) => "# with the subscriber's values: not for people outside\n",
            (_, true) => "# MASKED: what is covered is zero here. Do not send it on: wok edit --subscriber has the values\n",
            _ => "# masked: nothing written here is covered\n",
        };
        let spare: Vec<String> = self.spare().iter().map(usize::to_string).collect();
        if !spare.is_empty() {
            out += &format!("# bits that nothing reads are set in octets {} of the message: wok build makes them zero\n", spare.join(" "));
        }
        out
    }

    /// Whether a row is the mandatory one that is short: it is no comment, since it is to be made longer.
    fn wanted(&self, row: &Row) -> bool {
        self.judged.five[0] == 11 && self.judged.five[2] + 4 == row[3]
    }

    fn left_out(&self, row: &Row) -> bool {
        row[5] != 0 && !self.wanted(row)
    }

    /// The octets with bits set that nothing reads, in the header and in the headers of rows that are not left out.
    fn spare(&self) -> Vec<usize> {
        let header = [(0, 7), (Header::of(&self.seen).octets - 1, 255)];
        let rows = self.judged.rows.iter().filter(|row| !self.left_out(row)).map(|row| (usize::from(row[3]) - 1, 240));
        header.into_iter().chain(rows).filter(|(at, bits)| self.seen[*at] & bits != 0).map(|(at, _)| at).collect()
    }

    fn fields(&self, kind: &str) -> String {
        let Header { teid, sequence, .. } = Header::of(&self.seen);
        let teid = teid.map_or(String::new(), |t| format!("teid 0x{:08X}\n", u32::from_be_bytes(t)));
        let typ = line(&format!("type {}", self.seen[1]), &self.library.message_name(self.seen[1]));
        format!("kind {kind}\n{typ}{teid}{}", line(&format!("sequence {sequence}"), &format!("0x{sequence:06X}")))
    }

    /// The lines of the rows, and whether something in them is covered.
    fn rows(&mut self) -> (String, bool) {
        let (mut out, mut any, mut levels) = (self.missing(0, 0), false, vec![]);
        for row in &self.judged.rows.clone() {
            let level = usize::from(row[0]).checked_sub(1).map_or(0, |parent| levels[parent] + 1);
            let (said, covered) = self.row(row, level);
            out += &said;
            out += &self.missing(usize::from(row[3]) - 4, level + 1);
            any |= covered;
            levels.push(level);
        }
        (out, any)
    }

    /// The line of a row, which is a comment if the row is left out; and whether something in it is covered.
    fn row(&mut self, row: &Row, level: usize) -> (String, bool) {
        let &[_, typ, instance, place, length, standing] = row;
        let (typ, place, length) = (typ as u8, usize::from(place), usize::from(length));
        let value = (!build::is_group(typ)).then(|| &self.seen[place..place + length]);
        let covered = if self.right || value.is_none() { 0 } else { self.library.covered(&self.seen, place, length) };
        let mut comment = self.library.name(typ);
        let inside = if value.is_none() { " with its inside" } else { "" };
        match standing {
            0 => {}
            _ if self.wanted(row) => comment += "; short, and mandatory",
            1 => comment += &format!("; left out{inside}: not listed"),
            2 => comment += &format!("; left out{inside}: repeated"),
            3 => comment += "; left out: short",
            VOID => comment += &format!("; left out{inside}: more than ten APNs"),
            _ => comment += "; left out",
        }
        match covered {
            0 => {}
            n if n == length => comment += "; covered: zeros",
            _ => comment += "; covered: zeros after the first octet",
        }
        let mark = if self.left_out(row) { "#" } else { "" };
        let said = format!("{}{mark}{}", "  ".repeat(level), text::element(typ, instance as u8, value));
        (line(&said, &comment), covered > 0)
    }

    /// A comment for the mandatory element that is missing in the group at this place, or in the message if that is 0.
    fn missing(&self, place: usize, level: usize) -> String {
        let [code, _, at, typ, instance] = self.judged.five;
        if code != 12 || usize::from(at) != place {
            return String::new();
        }
        let value: Option<&[u8]> = if build::is_group(typ as u8) { None } else { Some(&[]) };
        let said = format!("{}#{}", "  ".repeat(level), text::element(typ as u8, instance as u8, value));
        line(&said, &format!("{}; missing, and mandatory", self.library.name(typ as u8)))
    }
}
