//! Rows read off a page. The judge's table says the same of an accepted message; of one that 11 or 12 refuse the page alone has them.

use crate::library::Row;

/// What a page calls the standings 0 to 4.
const STANDINGS: [&str; 5] = ["kept", "not listed", "repeat", "short", "void"];

/// The rows of a page, each number below its heading; none if this is no page with rows.
pub fn rows(page: &str) -> Option<Vec<Row>> {
    let mut lines = page.lines().skip_while(|l| !l.starts_with(" row parent "));
    let heads = lines.next()?;
    lines.map(|line| row(heads, line)).collect()
}

fn row(heads: &str, line: &str) -> Option<Row> {
    let end = |head: &str| heads.find(head).map(|at| at + head.len());
    let number = |from: usize, to: usize| line.get(from..to)?.trim().parse().ok();
    let (row, parent, instance, place, length) = (end(" row")?, end(" parent")?, end(" inst")?, end(" place")?, end(" len")?);
    let typ = line.get(parent..)?.split_whitespace().next()?.parse().ok()?;
    let said = line.get(length..)?.trim_start();
    let standing = STANDINGS.iter().position(|s| said.starts_with(s))?;
    Some([number(row, parent)?, typ, number(heads.find("inst")?, instance)?, number(instance, place)?, number(place, length)?, standing as u16])
}
