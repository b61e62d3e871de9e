//! A list of edits: they are made one after another, and the first that is refused ends it.

use super::edits::{edit, refused};
use super::keys::Keys;
use super::EDITS;
use crate::calls::{Counts, Listed};

/// An edit of a list.
pub struct Request<'a> {
    pub operation: u32,
    pub place: u64,
    pub piece: &'a [u32],
}

/// The edits of a list, or what is wrong with it: empty, or it ends inside an edit (4); one edit too many is begun (5).
pub fn requests(list: &[u32]) -> Result<Vec<Request<'_>>, u32> {
    let mut requests = Vec::new();
    let mut rest = list;
    while !rest.is_empty() {
        if requests.len() == EDITS {
            return Err(5);
        }
        let (request, behind) = first(rest).ok_or(4u32)?;
        requests.push(request);
        rest = behind;
    }
    if requests.is_empty() {
        Err(4)
    } else {
        Ok(requests)
    }
}

/// The edit with which a list begins, and what stands behind it. `None` if the list ends inside it.
fn first(list: &[u32]) -> Option<(Request<'_>, &[u32])> {
    match *list {
        [operation, place, count, ref rest @ ..] if count as usize <= rest.len() => {
            let (piece, behind) = rest.split_at(count as usize);
            Some((Request { operation, place: u64::from(place), piece }, behind))
        }
        _ => None,
    }
}

pub fn list(table: &[u64], buffer: &mut [u32], used: u64, list: &[u32], counts: &mut Counts, keys: Keys) -> Listed {
    let requests = match requests(list) {
        Ok(requests) => requests,
        Err(number) => return Listed { last: refused(number.into(), used), done: 0 },
    };
    let mut listed = Listed { last: refused(0.into(), used), done: 0 };
    for Request { operation, place, piece } in requests {
        listed.last = edit(table, buffer, listed.last.used, operation, place, piece, None, counts, keys);
        if listed.last.number != 0 {
            break;
        }
        listed.done += 1;
    }
    listed
}
