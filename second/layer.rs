//! Proposals above a book.

use crate::book::{Book, Member, Right};
use crate::calls::{member_of, refuse, right_of, Answer};

enum Proposal {
    Right(Right),
    Member(Member),
}

const MOST: usize = 16;

pub struct Layer {
    pub book: Book,
    proposals: Vec<Proposal>,
}

impl Layer {
    pub fn new() -> Layer {
        Layer { book: Book::new(), proposals: Vec::new() }
    }

    pub fn propose(&mut self, fields: [u8; 4]) -> Answer {
        let record = right_of(&self.book, fields)?;
        self.put(Proposal::Right(record))
    }

    pub fn propose_member(&mut self, fields: [u8; 2]) -> Answer {
        let record = member_of(&self.book, fields)?;
        self.put(Proposal::Member(record))
    }

    fn put(&mut self, proposal: Proposal) -> Answer {
        refuse(5, self.proposals.len() >= MOST)?;
        self.proposals.push(proposal);
        Ok(self.proposals.len() - 1)
    }

    /// Whether there was a proposal.
    pub fn withdraw(&mut self) -> bool {
        self.proposals.pop().is_some()
    }

    /// The lists of the book, each followed by the proposals of its kind.
    pub fn meaning(&self) -> Book {
        let mut lists = self.book.clone();
        for proposal in &self.proposals {
            match *proposal {
                Proposal::Right(record) => lists.rights.push(record),
                Proposal::Member(record) => lists.members.push(record),
            }
        }
        lists
    }
}
