//! The questions about a session, each answered from the end that every step leads to (runs.rs), and replay.

use crate::book::{Book, ACCOUNT, IMPERSONATE, RIGHTS};
use crate::calls::{refuse, Refusal};
use crate::replay::{State, Step};
use crate::runs::{self, End, Extent};

pub const MOST_STEPS: usize = 4096;

pub type Row = [u8; 96];

/// Whether the opener's session uses the right (sense 0), or the opener holds it (sense 1).
#[derive(Clone, Copy)]
pub struct Question {
    pub opener: usize,
    hold: bool,
    entity: usize,
    right: usize,
}

impl Question {
    /// Account, sense, entity, right.
    pub fn of(book: &Book, fields: [u8; 4]) -> Result<Question, Refusal> {
        let (opener, entity, right) = (fields[0] as usize, fields[2] as usize, fields[3] as usize);
        refuse(1, !book.stands(opener) || fields[1] > 1 || !book.stands(entity) || right >= RIGHTS)?;
        refuse(2, !book.is(opener, ACCOUNT))?;
        Ok(Question { opener, hold: fields[1] == 1, entity, right })
    }

    pub fn stands(&self, state: &State) -> bool {
        let holds = |account: usize| state.holds(account, self.right, self.entity);
        if self.hold {
            holds(self.opener)
        } else {
            state.acted.iter().any(|&account| holds(account))
        }
    }

    fn stands_at(&self, end: &End) -> bool {
        if self.hold {
            end.powers.holds(self.opener, self.right, self.entity)
        } else {
            uses(end, self.right, self.entity)
        }
    }
}

fn uses(end: &End, right: usize, entity: usize) -> bool {
    end.acted.iter().any(|&account| end.powers.holds(account, right, entity))
}

pub fn can(book: &Book, fields: [u8; 4], extent: Extent) -> Result<bool, Refusal> {
    let question = Question::of(book, fields)?;
    Ok(question.stands_at(&runs::close(book, question.opener, extent)))
}

pub fn replay(book: &Book, fields: [u8; 4], steps: &[Step]) -> Result<(), Refusal> {
    let question = Question::of(book, fields)?;
    refuse(6, steps.len() > MOST_STEPS)?;
    let mut state = State::open(book, question.opener);
    if let Some(wrong) = steps.iter().position(|&step| !state.make(step)) {
        return Err(Refusal::Step(wrong));
    }
    if question.stands(&state) {
        Ok(())
    } else {
        Err(Refusal::Step(steps.len()))
    }
}

/// The accounts of a question about one or two rows.
pub fn accounts<const N: usize>(book: &Book, fields: [u8; N]) -> Result<[usize; N], Refusal> {
    let accounts = fields.map(usize::from);
    refuse(1, accounts.iter().any(|&a| !book.stands(a)))?;
    refuse(2, accounts.iter().any(|&a| !book.is(a, ACCOUNT)))?;
    Ok(accounts)
}

/// Of each entity a byte, the sum of 2^right over the rights that a session of the account can come to use.
pub fn row(book: &Book, account: usize, extent: Extent) -> Row {
    let end = runs::close(book, account, extent);
    let mut row = [0; 96];
    for entity in 0..book.entities.len() {
        for right in (0..RIGHTS).filter(|&right| uses(&end, right, entity)) {
            row[entity] += 1 << right;
        }
    }
    row
}

pub fn unite(one: &Row, other: &Row) -> Row {
    std::array::from_fn(|e| one[e] | other[e])
}

pub fn contains(one: &Row, other: &Row) -> bool {
    unite(one, other) == *one
}

pub fn exposure(book: &Book, row: &Row) -> usize {
    let ones: usize = row.iter().map(|byte| byte.count_ones() as usize).sum();
    ones * 1000 / (RIGHTS * book.entities.len())
}

pub fn listing(book: &Book, extent: Extent) -> String {
    let accounts = book.of_kind(ACCOUNT);
    let mut text = String::new();
    for &account in &accounts {
        let row = row(book, account, extent);
        text += &format!("{account:02} ");
        for &other in &accounts {
            text.push(if row[other] >> IMPERSONATE & 1 == 1 { '1' } else { '0' });
        }
        text += &format!(" {:04}\n", exposure(book, &row));
    }
    text
}
