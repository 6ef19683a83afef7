//! Builds made of one accepted message: as it is, told in another way, or with
//! one fault.

use super::{is_group, Build};
use crate::generate::random::Random;
use crate::generate::tables::{make_old, Row, KIND, TYPE};
use crate::generate::Case;
use crate::rules::Listed;
use crate::DOCUMENT;

type Shape = fn(&mut Random, &mut Build);

/// On the rows of a cleaned copy. What comes of each by itself: first those that
/// stay acceptable, then 1, 7 and 21, then 14, then what may be 16 or nothing.
const OF_KEPT: [Shape; 40] = [
    as_it_is,
    moved,
    other_group_numbers,
    far,
    at_the_edge,
    longer_table,
    last_instance,
    filled,
    other_kind,
    other_type,
    kind_and_type,
    kind_and_table,
    type_and_table,
    off_kind,
    off_kind_and_table,
    off_kind_and_room,
    off_kind_and_short_table,
    old_table,
    tiny_table,
    tiny_table_with_faults,
    any_number,
    header_number,
    cut_table,
    standing,
    standing_uncounted,
    over_type,
    over_instance,
    parent,
    closed_parent,
    outside,
    empty_outside,
    past_16_bits,
    sequence,
    overfilled,
    dropped,
    shortened,
    repeated,
    unexpected,
    group_unlisted,
    filled_up,
];

/// Those, and two on the rows of a message with what it has set aside.
pub const SHAPES: usize = OF_KEPT.len() + 2;

/// The build of that shape from an accepted message.
pub fn shaped(random: &mut Random, case: &Case, shape: usize) -> Build {
    match OF_KEPT.get(shape) {
        Some(shape) => {
            let mut build = Build::of_kept(case);
            shape(random, &mut build);
            build
        }
        None if shape == OF_KEPT.len() => Build::of(case),
        None => as_if_kept(case),
    }
}

/// With every row of a message said to be kept.
fn as_if_kept(case: &Case) -> Build {
    let mut build = Build::of(case);
    let mut rows = build.rows().to_vec();
    rows.iter_mut().for_each(|row| row[5] = 0);
    build.put_rows(&rows);
    build
}

fn as_it_is(_: &mut Random, _: &mut Build) {}

/// The number of some row.
fn some_row(random: &mut Random, build: &Build) -> Option<usize> {
    some_of(random, build, |_| true)
}

/// The number of some row that is no group's.
fn some_plain(random: &mut Random, build: &Build) -> Option<usize> {
    some_of(random, build, |row| !is_group(row))
}

fn some_of(random: &mut Random, build: &Build, wanted: fn(&Row) -> bool) -> Option<usize> {
    let rows = build.rows().iter().enumerate();
    let rows = rows.filter(|(_, row)| wanted(row)).map(|(at, _)| at);
    let rows = rows.collect::<Vec<_>>();
    (!rows.is_empty()).then(|| *random.pick(&rows))
}

/// Changes some row.
fn change(random: &mut Random, build: &mut Build, column: usize, number: u16) {
    if let Some(at) = some_row(random, build) {
        build.rows_mut()[at][column] = number;
    }
}

/// The values in a buffer of their own, in another order and with gaps; equal
/// ones may share their octets.
fn moved(random: &mut Random, build: &mut Build) {
    let message = std::mem::take(&mut build.values);
    let mut order = (0..build.rows().len()).collect::<Vec<_>>();
    random.shuffle(&mut order);
    for at in order {
        let row = build.rows()[at];
        if is_group(&row) {
            continue;
        }
        let gap = random.below(3);
        build.values.extend(random.octets(gap));
        build.rows_mut()[at][3] = build.values.len() as u16;
        let place = usize::from(row[3]);
        let value = &message[place..place + usize::from(row[4])];
        build.values.extend(value);
    }
}

/// Places and lengths of groups that mean nothing.
fn other_group_numbers(random: &mut Random, build: &mut Build) {
    for row in build.rows_mut().iter_mut().filter(|row| is_group(row)) {
        let any = random.number() as u16;
        row[3] = *random.pick(&[0, u16::MAX, any]);
        row[4] = *random.pick(&[0, 1, u16::MAX, any]);
    }
}

/// One value as far behind as a place can say, all of it in the buffer.
fn far(random: &mut Random, build: &mut Build) {
    if let Some(at) = some_plain(random, build) {
        let row = build.rows()[at];
        let place = usize::from(row[3]);
        let value = build.values[place..place + usize::from(row[4])].to_vec();
        build.values.resize(usize::from(u16::MAX), 0);
        build.values.extend(value);
        build.rows_mut()[at][3] = u16::MAX;
    }
}

/// The same with its last octet past the buffer's end.
fn past_16_bits(random: &mut Random, build: &mut Build) {
    far(random, build);
    build.values.pop();
}

/// An empty private extension at the buffer's very end is short, a whole one is
/// not; either is in the buffer.
fn at_the_edge(random: &mut Random, build: &mut Build) {
    let end = build.values.len() as u16;
    let mut rows = build.rows().to_vec();
    let length = if random.percent(50) { 0 } else { 2 };
    rows.push([0, 255, 1, end - length, length, 0]);
    build.put_rows(&rows);
}

fn empty_outside(_: &mut Random, build: &mut Build) {
    let end = build.values.len() as u16;
    let mut rows = build.rows().to_vec();
    rows.push([0, 255, 1, end + 1, 0, 0]);
    build.put_rows(&rows);
}

/// Some value ends after the buffer does, mostly by one octet.
fn outside(random: &mut Random, build: &mut Build) {
    if let Some(at) = some_plain(random, build) {
        let end = build.values.len() as u16;
        let row = &mut build.rows_mut()[at];
        match random.below(4) {
            0 => row[3] = end + 1 - row[4],
            1 => row[4] = end + 1 - row[3],
            2 => row[3] = u16::MAX,
            _ => row[4] = u16::MAX,
        }
    }
}

/// Numbers after those used are not read.
fn longer_table(random: &mut Random, build: &mut Build) {
    for _ in 0..random.between(1, 8) {
        build.table.push(random.number() as u16);
    }
}

/// A private extension of instance 15.
fn last_instance(_: &mut Random, build: &mut Build) {
    let mut rows = build.rows().to_vec();
    rows.push([0, 255, 15, 0, 2, 0]);
    build.put_rows(&rows);
}

/// Adds a private extension that makes the message so long.
fn fill(build: &mut Build, length: usize) {
    let mut rows = build.rows().to_vec();
    let rest = length.saturating_sub(build.need() + 4).max(2);
    let place = build.values.len() as u16;
    rows.push([0, 255, 0, place, rest as u16, 0]);
    build.values.resize(build.values.len() + rest, 0x5A);
    build.put_rows(&rows);
}

fn filled(_: &mut Random, build: &mut Build) {
    fill(build, DOCUMENT.sizes.longest);
}

fn overfilled(_: &mut Random, build: &mut Build) {
    fill(build, DOCUMENT.sizes.longest + 1);
}

/// A kind beside those that there are, and kinds past an octet.
fn other_kind(random: &mut Random, build: &mut Build) {
    let own = build.table[KIND];
    build.table[KIND] = *random.pick(&[0, 5, own + 256, own | 1 << 15, u16::MAX]);
}

/// Another listed type, one that is not listed, and types past an octet.
fn other_type(random: &mut Random, build: &mut Build) {
    let own = build.table[TYPE];
    let listed = random.pick(&DOCUMENT.messages).typ;
    let any = random.octet();
    let types = [
        own + 256,
        own | 1 << 15,
        256,
        u16::MAX,
        any.into(),
        listed.into(),
    ];
    build.table[TYPE] = *random.pick(&types);
}

fn unlisted_type(random: &mut Random, build: &mut Build) {
    let own = build.table[TYPE];
    build.table[TYPE] = *random.pick(&[0, 3, 70, 130, 256, own + 256]);
}

fn kind_and_type(random: &mut Random, build: &mut Build) {
    other_kind(random, build);
    unlisted_type(random, build);
}

/// A bad kind, and a table that is not short of its header.
fn kind_and_table(random: &mut Random, build: &mut Build) {
    other_kind(random, build);
    standing_uncounted(random, build);
}

fn type_and_table(random: &mut Random, build: &mut Build) {
    unlisted_type(random, build);
    cut_table(random, build);
}

/// A kind that the message is not on; one that is on all of them gets another type.
fn off_kind(random: &mut Random, build: &mut Build) {
    let own = u8::try_from(build.table[TYPE]).unwrap_or_default();
    let listed = DOCUMENT.message_of(own).expect("an accepted message");
    match random.kind_off(listed) {
        Some(kind) => build.table[KIND] = kind as u16,
        None => {
            let kind = random.kind();
            build.table[KIND] = kind as u16;
            build.table[TYPE] = random.type_off(kind).into();
        }
    }
}

fn off_kind_and_table(random: &mut Random, build: &mut Build) {
    let faults: [Shape; 4] = [standing_uncounted, over_type, parent, outside];
    random.pick(&faults)(random, build);
    off_kind(random, build);
}

fn off_kind_and_room(random: &mut Random, build: &mut Build) {
    overfilled(random, build);
    off_kind(random, build);
}

/// One that has a header, or has not.
fn off_kind_and_short_table(random: &mut Random, build: &mut Build) {
    off_kind(random, build);
    cut_table(random, build);
}

/// A table with a header of four, and perhaps some numbers after it.
fn old_table(random: &mut Random, build: &mut Build) {
    make_old(&mut build.table);
    for _ in 0..random.below(4) {
        build.table.push(random.number() as u16);
    }
}

/// No more than a header, of rows or of none; the whole one more often.
fn tiny_table(random: &mut Random, build: &mut Build) {
    if random.percent(50) {
        build.put_rows(&[]);
    }
    let header = DOCUMENT.sizes.table_header;
    build
        .table
        .truncate(random.between(0, header + 2).min(header));
}

/// The same of a bad kind, of a bad type, or of both.
fn tiny_table_with_faults(random: &mut Random, build: &mut Build) {
    let faults: [Shape; 3] = [other_kind, unlisted_type, kind_and_type];
    random.pick(&faults)(random, build);
    tiny_table(random, build);
}

/// Any number by one, or any other.
fn any_number(random: &mut Random, build: &mut Build) {
    let at = random.below(build.table.len());
    let number = &mut build.table[at];
    *number = match random.below(5) {
        0 => 0,
        1 => number.wrapping_add(1),
        2 => number.wrapping_sub(1),
        3 => u16::MAX,
        _ => random.number() as u16,
    };
}

fn header_number(random: &mut Random, build: &mut Build) {
    let at = random.below(DOCUMENT.sizes.table_header);
    // By two less they are those of a header of four.
    let by = *random.pick(&[1, 2, 6, u16::MAX, u16::MAX - 1]);
    build.table[at] = build.table[at].wrapping_add(by);
}

/// One number less, no more than a header, or even less.
fn cut_table(random: &mut Random, build: &mut Build) {
    let length = build.table.len();
    let header = DOCUMENT.sizes.table_header;
    let cut = [length - 1, length - 1, header, header - 1, 0];
    build.table.truncate(*random.pick(&cut).min(&(length - 1)));
}

/// A standing that is not 0, in a header that says so.
fn standing(random: &mut Random, build: &mut Build) {
    let mut rows = build.rows().to_vec();
    if let Some(at) = some_row(random, build) {
        rows[at][5] = *random.pick(&[1, 2, 3, 4, 256, u16::MAX]);
        build.put_rows(&rows);
    }
}

/// The same in a header that counts the row as kept.
fn standing_uncounted(random: &mut Random, build: &mut Build) {
    let other = random.between(1, 3) as u16;
    change(random, build, 5, other);
}

fn over_type(random: &mut Random, build: &mut Build) {
    if let Some(at) = some_row(random, build) {
        let own = build.rows()[at][1];
        build.rows_mut()[at][1] = *random.pick(&[256, own + 256, u16::MAX]);
    }
}

fn over_instance(random: &mut Random, build: &mut Build) {
    if let Some(at) = some_row(random, build) {
        let own = build.rows()[at][2];
        build.rows_mut()[at][2] = *random.pick(&[16, own + 16, own + 256, u16::MAX]);
    }
}

/// Some row's parent is itself, the row after it, one that is not there, or any.
fn parent(random: &mut Random, build: &mut Build) {
    if let Some(at) = some_row(random, build) {
        let rows = build.rows().len();
        let any = random.between(0, rows);
        let others = [at + 1, at + 2, rows + 1, at, any, usize::from(u16::MAX)];
        build.rows_mut()[at][0] = *random.pick(&others) as u16;
    }
}

/// A row at the end whose parent is some group that is closed by then, or is open
/// still.
fn closed_parent(random: &mut Random, build: &mut Build) {
    if let Some(group) = some_of(random, build, is_group) {
        let mut rows = build.rows().to_vec();
        rows.push([group as u16 + 1, 73, 1, 0, 1, 0]);
        build.put_rows(&rows);
    }
}

/// At the edge of what three octets hold.
fn sequence(random: &mut Random, build: &mut Build) {
    let largest = DOCUMENT.builds.sequence;
    build.head.sequence = *random.pick(&[largest, largest + 1, u32::MAX, 0]);
}

/// Takes out a row with all that is inside it, and numbers the rest anew.
fn remove(rows: &mut Vec<Row>, at: usize) {
    let is_inside = |rows: &[Row], mut row: usize| loop {
        match usize::from(rows[row][0]) {
            0 => return false,
            parent if parent == at + 1 => return true,
            parent => row = parent - 1,
        }
    };
    let until = (at + 1..rows.len()).find(|&row| !is_inside(rows, row));
    let gone = until.unwrap_or(rows.len()) - at;
    rows.drain(at..at + gone);
    for row in &mut rows[at..] {
        if usize::from(row[0]) > at {
            row[0] -= gone as u16;
        }
    }
}

/// Puts a row before the one at that position, and numbers the rest anew.
fn insert(rows: &mut Vec<Row>, at: usize, row: Row) {
    for later in &mut rows[at..] {
        if usize::from(later[0]) > at {
            later[0] += 1;
        }
    }
    rows.insert(at, row);
}

fn dropped(random: &mut Random, build: &mut Build) {
    if let Some(at) = some_row(random, build) {
        let mut rows = build.rows().to_vec();
        remove(&mut rows, at);
        build.put_rows(&rows);
    }
}

/// Some value is cut.
fn shortened(random: &mut Random, build: &mut Build) {
    if let Some(at) = some_plain(random, build) {
        let length = usize::from(build.rows()[at][4]);
        build.rows_mut()[at][4] = random.below(length.max(1)) as u16;
    }
}

/// Some row that is no group's stands twice.
fn repeated(random: &mut Random, build: &mut Build) {
    if let Some(at) = some_plain(random, build) {
        let mut rows = build.rows().to_vec();
        let row = rows[at];
        insert(&mut rows, at + 1, row);
        build.put_rows(&rows);
    }
}

/// A row beside some other that its level hardly lists.
fn unexpected(random: &mut Random, build: &mut Build) {
    if let Some(at) = some_row(random, build) {
        let mut rows = build.rows().to_vec();
        let typ = *random.pick(&[200, 255, 73, 86, 93, 109, 180]);
        let inst = random.below(16) as u16;
        let row = [rows[at][0], typ, inst, 0, 4, 0];
        insert(&mut rows, at, row);
        build.put_rows(&rows);
    }
}

/// A group with its rows, of an instance that is not listed.
fn group_unlisted(random: &mut Random, build: &mut Build) {
    if let Some(at) = some_of(random, build, is_group) {
        build.rows_mut()[at][2] = 5;
    }
}

/// Some group that has a limit holds about as many rows as it may, and perhaps
/// more.
fn filled_up(random: &mut Random, build: &mut Build) {
    let Some((group, line, most)) = limited(build) else {
        return;
    };
    let mut rows = build.rows().to_vec();
    let number = group as u16 + 1;
    let row = [number, line.typ.into(), line.inst.number().into(), 0, 1, 0];
    let held = rows.iter().filter(|other| other[..3] == row[..3]).count();
    for _ in held..random.between(most - 1, most + 3) {
        insert(&mut rows, group + 1, row);
    }
    build.put_rows(&rows);
}

/// The number of the first row of a group with a limit, the line that has it and
/// the limit.
fn limited(build: &Build) -> Option<(usize, &'static Listed, usize)> {
    let typ = u8::try_from(build.table[TYPE]).ok()?;
    let body = &DOCUMENT.message_of(typ)?.body;
    build.rows().iter().enumerate().find_map(|(at, row)| {
        let (typ, inst) = (row[1] as u8, row[2] as u8);
        let group = body.iter().find(|listed| listed.is(typ, inst))?;
        let (line, most) = group.limits().next()?;
        (row[0] == 0).then_some((at, &group.inside[line], most))
    })
}
