//! The catalogue as plain lists, and what its records allow at one moment.

use std::collections::BTreeSet;

pub const CONTAINER: u8 = 0;
pub const TABLE: u8 = 1;
pub const PROCEDURE: u8 = 2;
pub const ACCOUNT: u8 = 3;
pub const ROLE: u8 = 4;

pub const ALTER: usize = 4;
pub const EXECUTE: usize = 5;
pub const IMPERSONATE: usize = 6;
pub const RIGHTS: usize = 7;

pub const PUBLIC: usize = 1;
pub const SYSADMIN: usize = 2;

#[derive(Clone)]
pub struct Entity {
    pub kind: u8,
    pub parent: usize,
    pub owner: usize,
    pub mode: u8,
}

/// Principal, entity, right, option.
pub type Right = (usize, usize, usize, bool);
/// Account, role.
pub type Member = (usize, usize);

/// An object of a catalogue line: its kind (0 for P, 1 for T), entity and right.
pub type Place = (u8, usize, usize);

#[derive(Clone)]
pub struct Line {
    pub place: Place,
    /// None is the caller.
    pub runner: Option<usize>,
    pub called: Place,
}

#[derive(Clone, Default)]
pub struct Book {
    pub entities: Vec<Entity>,
    pub links: Vec<(usize, usize)>,
    pub rights: Vec<Right>,
    pub members: Vec<Member>,
    pub lines: Vec<Line>,
}

impl Book {
    /// The root, owned by sysadmin, and the roles public and sysadmin.
    pub fn new() -> Book {
        let first = |kind| Entity { kind, parent: 0, owner: SYSADMIN, mode: 0 };
        Book { entities: vec![first(CONTAINER), first(ROLE), first(ROLE)], ..Book::default() }
    }

    pub fn stands(&self, entity: usize) -> bool {
        entity < self.entities.len()
    }

    pub fn of_kind(&self, kind: u8) -> Vec<usize> {
        (0..self.entities.len()).filter(|&e| self.entities[e].kind == kind).collect()
    }

    pub fn is(&self, entity: usize, kind: u8) -> bool {
        self.stands(entity) && self.entities[entity].kind == kind
    }

    pub fn is_principal(&self, entity: usize) -> bool {
        self.is(entity, ACCOUNT) || self.is(entity, ROLE)
    }

    /// The entity itself, its parent, and so on up to the root.
    pub fn upward(&self, entity: usize) -> Vec<usize> {
        let mut way = vec![entity];
        let mut at = entity;
        while at != 0 {
            at = self.entities[at].parent;
            way.push(at);
        }
        way
    }

    /// All roles at or below a role.
    pub fn roles_below(&self, role: usize) -> BTreeSet<usize> {
        if role == SYSADMIN {
            return self.of_kind(ROLE).into_iter().collect();
        }
        let mut found = BTreeSet::from([role]);
        let mut open = vec![role];
        while let Some(upper) = open.pop() {
            for &(low, up) in &self.links {
                if up == upper && found.insert(low) {
                    open.push(low);
                }
            }
        }
        found
    }
}

/// Which rights each account holds, and may grant, under given records.
pub struct Powers {
    holds: Vec<bool>,
    grants: Vec<bool>,
    entities: usize,
}

impl Powers {
    pub fn new(book: &Book, rights: &BTreeSet<Right>, members: &BTreeSet<Member>) -> Powers {
        let n = book.entities.len();
        let none = vec![false; n * RIGHTS * n];
        let mut powers = Powers { holds: none.clone(), grants: none, entities: n };
        for account in book.of_kind(ACCOUNT) {
            let mut names = book.roles_below(PUBLIC);
            for &(member, role) in members {
                if member == account {
                    names.extend(book.roles_below(role));
                }
            }
            names.insert(account);
            powers.account(book, account, &names, rights);
        }
        powers
    }

    fn account(&mut self, book: &Book, account: usize, names: &BTreeSet<usize>, rights: &BTreeSet<Right>) {
        let mut recorded = vec![[(false, false); RIGHTS]; self.entities];
        for &(principal, entity, right, option) in rights {
            if names.contains(&principal) {
                let (any, with_option) = &mut recorded[entity][right];
                *any = true;
                *with_option |= option;
            }
        }
        for entity in 0..self.entities {
            let way = book.upward(entity);
            let owns = way.iter().any(|&at| names.contains(&book.entities[at].owner));
            for right in 0..RIGHTS {
                let place = self.place(account, right, entity);
                self.holds[place] = owns || way.iter().any(|&at| recorded[at][right].0);
                self.grants[place] = owns || recorded[entity][right].1;
            }
        }
    }

    fn place(&self, account: usize, right: usize, entity: usize) -> usize {
        (account * RIGHTS + right) * self.entities + entity
    }

    pub fn holds(&self, account: usize, right: usize, entity: usize) -> bool {
        self.holds[self.place(account, right, entity)]
    }

    pub fn may_grant(&self, account: usize, right: usize, entity: usize) -> bool {
        self.grants[self.place(account, right, entity)]
    }
}
