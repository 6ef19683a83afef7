//! The proved library as Rust sees it: its C exports behind safe functions.

use second::generate::{Buffers, Build, Call as Fed, Case, Feed, Left, Rooms, What};
use second::{Head, DOCUMENT};
use std::sync::atomic::AtomicU8;

mod exports {
    extern "C" {
        pub fn wok_judge_copy(
            kind: u32,
            message: *const u8,
            message_len: usize,
            table: *mut u8,
            table_len: usize,
            copy: *mut u8,
            copy_len: usize,
            five: *mut u8,
            five_len: usize,
        ) -> u16;
        pub fn wok_rows(kind: u32, message: *const u8, message_len: usize, answer: *mut u8, answer_len: usize) -> u16;
        pub fn wok_clean(
            kind: u32,
            message: *const u8,
            message_len: usize,
            clean: *mut u8,
            clean_len: usize,
            answer: *mut u8,
            answer_len: usize,
        ) -> u16;
        pub fn wok_build(
            teid: u32,
            sequence: u32,
            table: *const u8,
            table_len: usize,
            values: *const u8,
            values_len: usize,
            room: *mut u8,
            room_len: usize,
            answer: *mut u8,
            answer_len: usize,
        ) -> u16;
        pub fn wok_start(kind: u32, state: *mut u8, state_len: usize, table: *mut u8, table_len: usize) -> u16;
        pub fn wok_part(
            state: *mut u8,
            state_len: usize,
            part: *const u8,
            part_len: usize,
            table: *mut u8,
            table_len: usize,
            five: *mut u8,
            five_len: usize,
        ) -> u16;
        pub fn wok_end(state: *mut u8, state_len: usize, table: *mut u8, table_len: usize, five: *mut u8, five_len: usize) -> u16;
    }
}

/// Judge and copy on octets: the code is the result. It asks nothing of its caller.
pub fn judge_copy(kind: u32, message: &[u8], table: &mut [u8], copy: &mut [u8], five: &mut [u8]) -> u16 {
    // SAFETY: each pointer is valid for its length, and the written slices overlap nothing.
    unsafe { judge_copy_at(kind, message.as_ptr(), message.len(), table, copy, five) }
}

/// The same on octets that other threads may change meanwhile.
pub fn judge_copy_shared(kind: u32, message: &[AtomicU8], table: &mut [u8], copy: &mut [u8], five: &mut [u8]) -> u16 {
    // SAFETY: as above. The library's code is no Rust: of an octet that changes as it is read it has the one value or the other.
    unsafe { judge_copy_at(kind, message.as_ptr().cast(), message.len(), table, copy, five) }
}

/// # Safety
/// `message` is valid for `len` octets, and nothing that is written overlaps them.
unsafe fn judge_copy_at(kind: u32, message: *const u8, len: usize, table: &mut [u8], copy: &mut [u8], five: &mut [u8]) -> u16 {
    exports::wok_judge_copy(
        kind,
        message,
        len,
        table.as_mut_ptr(),
        table.len(),
        copy.as_mut_ptr(),
        copy.len(),
        five.as_mut_ptr(),
        five.len(),
    )
}

/// The count of rows on octets: the code is the result. It asks nothing of its caller.
pub fn rows(kind: u32, message: &[u8], answer: &mut [u8]) -> u16 {
    // SAFETY: as above.
    unsafe { exports::wok_rows(kind, message.as_ptr(), message.len(), answer.as_mut_ptr(), answer.len()) }
}

/// The cleaner on octets: the code is the result. It asks nothing of its caller.
pub fn clean(kind: u32, message: &[u8], clean: &mut [u8], answer: &mut [u8]) -> u16 {
    // SAFETY: as above.
    unsafe {
        exports::wok_clean(
            kind,
            message.as_ptr(),
            message.len(),
            clean.as_mut_ptr(),
            clean.len(),
            answer.as_mut_ptr(),
            answer.len(),
        )
    }
}

/// The builder on octets: the code is the result. It asks nothing of its caller.
pub fn build(head: Head, table: &[u8], values: &[u8], room: &mut [u8], answer: &mut [u8]) -> u16 {
    // SAFETY: as above.
    unsafe {
        exports::wok_build(
            head.teid,
            head.sequence,
            table.as_ptr(),
            table.len(),
            values.as_ptr(),
            values.len(),
            room.as_mut_ptr(),
            room.len(),
            answer.as_mut_ptr(),
            answer.len(),
        )
    }
}

/// The start of the pieces form: the code is the result. It asks nothing of its caller.
pub fn start(kind: u32, state: &mut [u8], table: &mut [u8]) -> u16 {
    // SAFETY: as above.
    unsafe { exports::wok_start(kind, state.as_mut_ptr(), state.len(), table.as_mut_ptr(), table.len()) }
}

/// A part: the code is the result. It asks nothing of its caller, and of the state least of all.
pub fn part(state: &mut [u8], part: &[u8], table: &mut [u8], five: &mut [u8]) -> u16 {
    // SAFETY: as above.
    unsafe {
        exports::wok_part(
            state.as_mut_ptr(),
            state.len(),
            part.as_ptr(),
            part.len(),
            table.as_mut_ptr(),
            table.len(),
            five.as_mut_ptr(),
            five.len(),
        )
    }
}

/// The end: as a part.
pub fn end(state: &mut [u8], table: &mut [u8], five: &mut [u8]) -> u16 {
    // SAFETY: as above.
    unsafe { exports::wok_end(state.as_mut_ptr(), state.len(), table.as_mut_ptr(), table.len(), five.as_mut_ptr(), five.len()) }
}

/// Octets that a state needs.
pub fn state_octets() -> usize {
    DOCUMENT.sizes.state
}

/// The code of a part or an end that is not taken.
pub const NOT_TAKEN: u16 = 17;

/// The code of a message that is listed, and not on the kind. It is one of "1 to 9".
pub const OFF_KIND: u16 = 21;

/// Octets that show whether they were written over.
pub fn filled(length: usize, seed: usize) -> Vec<u8> {
    let octet = |at: usize| (at.wrapping_mul(31).wrapping_add(seed.wrapping_mul(97)) % 251) as u8 | 1;
    (0..length).map(octet).collect()
}

/// Judge and copy, of the library or of the second program: kind, message, table, copy, five numbers.
pub type JudgeCopyCall = fn(u32, &[u8], &mut [u8], &mut [u8], &mut [u8]) -> u16;

/// The count of rows, of either: kind, message, answer.
pub type RowsCall = fn(u32, &[u8], &mut [u8]) -> u16;

/// The cleaner, of either: kind, message, copy, answer.
pub type CleanCall = fn(u32, &[u8], &mut [u8], &mut [u8]) -> u16;

/// The builder, of either: head, table, values, room, answer.
pub type BuildCall = fn(Head, &[u8], &[u8], &mut [u8], &mut [u8]) -> u16;

/// The code of judge and copy, and the whole of what was lent to it.
#[derive(Debug, Clone, PartialEq, Eq)]
pub struct Judged {
    pub code: u16,
    pub table: Vec<u8>,
    pub copy: Vec<u8>,
    pub five: Vec<u8>,
}

impl Judged {
    /// What is lent, before a call.
    pub fn before(lent: Buffers) -> Self {
        let Buffers { table, copy, five, .. } = lent;
        Self { code: 0, table: filled(table, copy), copy: filled(copy, five), five: filled(five, table) }
    }

    /// What a call leaves in these buffers.
    pub fn of(call: JudgeCopyCall, case: &Case, lent: Buffers) -> Self {
        let mut judged = Self::before(lent);
        judged.code = call(case.kind, &case.message, &mut judged.table, &mut judged.copy, &mut judged.five);
        judged
    }
}

/// Whether a message that 1 to 9 let pass has an element in a group in a group.
pub fn is_deep(case: &Case) -> bool {
    let rows = DOCUMENT.rows(case.kind, &case.message).unwrap_or_default();
    rows.iter().any(|row| row.parent != 0 && rows[usize::from(row.parent) - 1].parent != 0)
}

/// What differs between the two programs in the rows of a message, with an answer of so many octets, if anything does.
pub fn rows_difference(case: &Case, octets: usize) -> Option<String> {
    let calls: [RowsCall; 2] = [rows, second::rows_octets];
    let [ours, theirs] = calls.map(|call| {
        let mut answer = filled(octets, case.message.len());
        (call(case.kind, &case.message, &mut answer), answer)
    });
    (ours != theirs).then(|| format!("rows: kind {} with {octets} octets: {ours:?} against {theirs:?}", case.kind))
}

/// What differs between the two programs on one message with these buffers, if anything does: judge and copy, the rows, clean.
pub fn difference(case: &Case, lent: Buffers) -> Option<String> {
    let calls: [JudgeCopyCall; 2] = [judge_copy, second::judge_copy_octets];
    let [ours, theirs] = calls.map(|call| Judged::of(call, case, lent));
    let differs = |name: &str, ours: u16, theirs: u16| format!("{name}: kind {} with {lent:?}: {ours} against {theirs}", case.kind);
    if ours != theirs {
        return Some(differs("judge and copy", ours.code, theirs.code));
    }
    if let Some(what) = rows_difference(case, lent.answer) {
        return Some(what);
    }
    let calls: [CleanCall; 2] = [clean, second::clean_octets];
    let [ours, theirs] = calls.map(|call| {
        let (mut cleaned, mut answer) = (filled(lent.clean, lent.answer), filled(lent.answer, lent.clean));
        (call(case.kind, &case.message, &mut cleaned, &mut answer), cleaned, answer)
    });
    (ours != theirs).then(|| differs("clean", ours.0, theirs.0))
}

/// What differs between the two programs in what they build with these lengths, if anything does.
pub fn build_difference(what: &Build, lent: Rooms) -> Option<String> {
    let table = what.table_octets(lent.table);
    let calls: [BuildCall; 2] = [build, second::build_octets];
    let [ours, theirs] = calls.map(|build| {
        let (mut room, mut answer) = (filled(lent.room, lent.answer), filled(lent.answer, lent.room));
        (build(what.head, &table, &what.values, &mut room, &mut answer), room, answer)
    });
    (ours != theirs).then(|| format!("build: with {lent:?}: {} against {}", ours.0, theirs.0))
}

/// One call of the pieces form with octets for a state.
fn fed(call: &Fed, state: &mut [u8], table: &mut [u8], five: &mut [u8]) -> u16 {
    match call.what {
        What::Start(kind) => start(kind, state, table),
        What::Part(octets) => part(state, octets, table, five),
        What::End => end(state, table, five),
    }
}

/// What differs between the two programs in these calls, if anything does: answers, tables after a start and after an end, and what may not be
/// written. A state that is not taken stays whole, and any stays past the octets that it needs.
pub fn feed_difference(feed: &Feed) -> Option<String> {
    let longest = feed.calls.iter().map(|call| call.state).max().unwrap_or(0);
    let mut state = filled(longest + 3, feed.calls.len());
    let mut spoilt = Vec::new();
    let ours = feed.run(|call, table, five| {
        let before = state.clone();
        let code = fed(call, &mut state[..call.state], table, five);
        let own = if code == NOT_TAKEN { 0 } else { state_octets() };
        spoilt.push(state[own..] != before[own..]);
        code
    });
    let theirs = feed.left_by(&DOCUMENT);
    let differs = |at: &usize| spoilt[*at] || ours[*at] != theirs[*at];
    let at = (0..feed.calls.len()).find(differs)?;
    let [ours, theirs] = [&ours[at], &theirs[at]].map(|left: &Left| format!("{} {:?}", left.code, left.five));
    let what = if spoilt[at] { "the state is written where it may not be, " } else { "" };
    Some(format!("pieces, call {at} {:?}: {what}{ours} against {theirs}", feed.calls[at]))
}

/// What a call on a state of any octets does that it may not, if anything: it answers something, and writes no octet but of the state that it needs
/// and of the table's numbers; where it is not taken, none.
pub fn rubbish_fault(call: &Fed, state: &[u8], table: &[u8]) -> Option<String> {
    let (state_len, table_len) = (call.state.min(state.len()), call.table.min(table.len()));
    let (mut state_after, mut table_after, mut five) = (state.to_vec(), table.to_vec(), [0xEE; 13]);
    let code = fed(call, &mut state_after[..state_len], &mut table_after[..table_len], &mut five);
    let is_taken = code != NOT_TAKEN;
    let (own, numbers) = if is_taken { (state_octets(), table_len / 2 * 2) } else { (0, 0) };
    let is_end = matches!(call.what, What::End);
    let is_told = code == 0 || is_end && (code <= 12 || code == OFF_KIND);
    let is_start = matches!(call.what, What::Start(_));
    let told = if is_start { [0xEE, 0xEE] } else { code.to_be_bytes() };
    let checks = [
        ("no such code", !is_taken || is_told),
        ("a short state is taken", !is_taken || state_len >= state_octets()),
        ("the state is written where it may not be", state_after.get(own..) == state.get(own..)),
        ("the table is written where it may not be", table_after[numbers..] == table[numbers..]),
        ("the five numbers are not those of the code", five[..2] == told && five[10..] == [0xEE; 3]),
    ];
    let (what, _) = checks.iter().find(|(_, good)| !good)?;
    Some(format!("{:?} answers {code}: {what}", call))
}
