//! The building calls: the refusal table is judged by its rows, the upper first, over all fields of a record.

use crate::book::{Book, Entity, Line, Member, Place, Right, ACCOUNT, CONTAINER, PROCEDURE, RIGHTS, ROLE, TABLE};
use std::fmt;

pub enum Refusal {
    /// 1 to 6.
    Row(usize),
    /// 7, part, record.
    Fault { part: usize, record: usize },
    /// 8, step.
    Step(usize),
}

impl fmt::Display for Refusal {
    fn fmt(&self, to: &mut fmt::Formatter) -> fmt::Result {
        match self {
            Refusal::Row(row) => write!(to, "{row}"),
            Refusal::Fault { part, record } => write!(to, "7 {part} {record}"),
            Refusal::Step(step) => write!(to, "8 {step}"),
        }
    }
}

/// The number of the record that stands after the call.
pub type Answer = Result<usize, Refusal>;

pub const CALLER: u8 = 255;

pub const MOST_LINKS: usize = 64;
pub const MOST_RIGHTS: usize = 256;
pub const MOST_MEMBERS: usize = 128;
pub const MOST_LINES: usize = 256;

pub fn refuse(row: usize, applies: bool) -> Result<(), Refusal> {
    if applies {
        Err(Refusal::Row(row))
    } else {
        Ok(())
    }
}

pub fn most_of_kind(kind: u8) -> usize {
    if kind == PROCEDURE {
        32
    } else {
        16
    }
}

/// Kind, parent, owner, mode.
pub fn declare(book: &mut Book, fields: [u8; 4]) -> Answer {
    let number = book.entities.len();
    let (kind, parent, owner, mode) = (fields[0], fields[1] as usize, fields[2] as usize, fields[3]);
    let own = kind == ACCOUNT && owner == number;
    refuse(1, kind > ROLE || mode > 1 || (mode == 1 && kind != CONTAINER))?;
    refuse(1, !book.stands(parent) || !(book.stands(owner) || own))?;
    refuse(2, !book.is(parent, CONTAINER) || !(book.is_principal(owner) || own))?;
    refuse(3, !given(book, kind, parent, owner, own))?;
    refuse(5, book.of_kind(kind).len() >= most_of_kind(kind))?;
    book.entities.push(Entity { kind, parent, owner, mode });
    Ok(number)
}

/// Whether the rules give this parent and this owner, both of a kind that fits.
fn given(book: &Book, kind: u8, parent: usize, owner: usize, own: bool) -> bool {
    let above = &book.entities[parent];
    match kind {
        ACCOUNT => parent == 0 && own,
        ROLE => parent == 0,
        CONTAINER => above.mode == 0 || owner == above.owner,
        _ => above.mode == 1 && owner == above.owner,
    }
}

/// Lower, upper.
pub fn link(book: &mut Book, fields: [u8; 2]) -> Answer {
    let (lower, upper) = (fields[0] as usize, fields[1] as usize);
    refuse(1, !book.stands(lower) || !book.stands(upper))?;
    refuse(2, !book.is(lower, ROLE) || !book.is(upper, ROLE))?;
    refuse(4, book.roles_below(lower).contains(&upper))?;
    if let Some(standing) = book.links.iter().position(|&l| l == (lower, upper)) {
        return Ok(standing);
    }
    refuse(5, book.links.len() >= MOST_LINKS)?;
    book.links.push((lower, upper));
    Ok(book.links.len() - 1)
}

/// Principal, entity, right, option, judged by rows 1 and 2.
pub fn right_of(book: &Book, fields: [u8; 4]) -> Result<Right, Refusal> {
    let (principal, entity, right) = (fields[0] as usize, fields[1] as usize, fields[2] as usize);
    refuse(1, right >= RIGHTS || fields[3] > 1 || !book.stands(principal) || !book.stands(entity))?;
    refuse(2, !book.is_principal(principal))?;
    Ok((principal, entity, right, fields[3] == 1))
}

pub fn grant(book: &mut Book, fields: [u8; 4]) -> Answer {
    let record = right_of(book, fields)?;
    let same = |r: &Right| (r.0, r.1, r.2) == (record.0, record.1, record.2);
    if let Some(standing) = book.rights.iter().position(same) {
        book.rights[standing].3 |= record.3;
        return Ok(standing);
    }
    refuse(5, book.rights.len() >= MOST_RIGHTS)?;
    book.rights.push(record);
    Ok(book.rights.len() - 1)
}

/// Account, role, judged by rows 1 and 2.
pub fn member_of(book: &Book, fields: [u8; 2]) -> Result<Member, Refusal> {
    let (account, role) = (fields[0] as usize, fields[1] as usize);
    refuse(1, !book.stands(account) || !book.stands(role))?;
    refuse(2, !book.is(account, ACCOUNT) || !book.is(role, ROLE))?;
    Ok((account, role))
}

pub fn join(book: &mut Book, fields: [u8; 2]) -> Answer {
    let record = member_of(book, fields)?;
    if let Some(standing) = book.members.iter().position(|&m| m == record) {
        return Ok(standing);
    }
    refuse(5, book.members.len() >= MOST_MEMBERS)?;
    book.members.push(record);
    Ok(book.members.len() - 1)
}

/// Object kind, entity, right; runner; called kind, entity, right.
pub fn line(book: &mut Book, fields: [u8; 7]) -> Answer {
    let place = (fields[0], fields[1] as usize, fields[2] as usize);
    let called = (fields[4], fields[5] as usize, fields[6] as usize);
    let runner = (fields[3] != CALLER).then_some(fields[3] as usize);
    refuse(1, !listed(book, place) || !listed(book, called) || runner.is_some_and(|r| !book.stands(r)))?;
    refuse(2, !fits(book, place) || !fits(book, called) || runner.is_some_and(|r| !book.is(r, ACCOUNT)))?;
    let same = |l: &Line| (l.place, l.runner, l.called) == (place, runner, called);
    if let Some(standing) = book.lines.iter().position(same) {
        return Ok(standing);
    }
    refuse(5, book.lines.len() >= MOST_LINES)?;
    book.lines.push(Line { place, runner, called });
    Ok(book.lines.len() - 1)
}

fn listed(book: &Book, (kind, entity, right): Place) -> bool {
    let numbers = match kind {
        0 => right == 0,
        1 => (1..=3).contains(&right),
        _ => false,
    };
    numbers && book.stands(entity)
}

fn fits(book: &Book, (kind, entity, _): Place) -> bool {
    book.is(entity, if kind == 0 { PROCEDURE } else { TABLE })
}
