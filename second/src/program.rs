//! The judge program: what it prints for its standard input, and the same
//! input for a masked and for a cleaned copy.

use std::fmt::Write;

use crate::rules::{Check, Rules};
use crate::table::COLUMNS;
use crate::verdict::Verdict;

impl Rules {
    /// What the judge program prints.
    pub fn program(&self, input: &[u8]) -> String {
        let (kind, message) = self.split(input);
        let (verdict, table, _) = self.lent(kind, message);
        if verdict.accepted() {
            self.accept(&table)
        } else {
            refuse(verdict)
        }
    }

    /// The masked copy, which 11 and 12 leave too, or the line of the refusal.
    pub fn mask_program(&self, input: &[u8]) -> Result<Vec<u8>, String> {
        const COPIED: [u16; 3] = [0, Check::Short as u16, Check::Missing as u16];
        let (kind, message) = self.split(input);
        let (verdict, _, mut copy) = self.lent(kind, message);
        if COPIED.contains(&verdict.code) {
            copy.truncate(message.len());
            Ok(copy)
        } else {
            Err(refuse(verdict))
        }
    }

    /// The verdict, the table and the copy, lent as the judge program lends them.
    fn lent(&self, kind: u32, message: &[u8]) -> (Verdict, Vec<u16>, Vec<u8>) {
        let mut table = vec![0; self.used(self.sizes.most_rows)];
        let mut copy = vec![0; self.sizes.program_copy];
        let verdict = self.judge_copy(kind, message, &mut table, &mut copy);
        (verdict, table, copy)
    }

    /// The cleaned copy, or the line of the refusal.
    pub fn clean_program(&self, input: &[u8]) -> Result<Vec<u8>, String> {
        let (kind, message) = self.split(input);
        let mut clean = vec![0; message.len()];
        let answer = self.clean(kind, message, &mut clean);
        if answer.verdict.accepted() {
            clean.truncate(usize::from(answer.length));
            Ok(clean)
        } else {
            Err(refuse(answer.verdict))
        }
    }

    /// Kind and message. One octet past the longest message is enough to
    /// refuse it.
    fn split<'a>(&self, input: &'a [u8]) -> (u32, &'a [u8]) {
        match input {
            [] => (0, &[]),
            [kind, message @ ..] => {
                let length = message.len().min(self.sizes.longest + 1);
                (u32::from(*kind), &message[..length])
            }
        }
    }

    fn accept(&self, table: &[u16]) -> String {
        let rows = usize::from(table[0]);
        let mut text = format!("accept {rows} {}\n", table[1]);
        for row in 0..rows {
            push_line(&mut text, &table[self.place_of(row)..][..COLUMNS]);
        }
        text
    }
}

fn refuse(verdict: Verdict) -> String {
    let mut text = String::from("refuse ");
    push_line(&mut text, &verdict.numbers());
    text
}

/// Numbers in decimal with single blanks, and the line's end.
fn push_line(text: &mut String, numbers: &[u16]) {
    for (position, number) in numbers.iter().enumerate() {
        let blank = if position == 0 { "" } else { " " };
        write!(text, "{blank}{number}").expect("a string takes all text");
    }
    text.push('\n');
}
