//! What a session can come to: every step is tried, again and again, until none adds anything.

use crate::book::{Book, Member, Place, Powers, Right, ACCOUNT, ALTER, CONTAINER, EXECUTE, IMPERSONATE, PROCEDURE};
use crate::book::{PUBLIC, RIGHTS, ROLE, TABLE};
use std::collections::BTreeSet;

/// Which grants are tried, as steps and in planted lines.
#[derive(Clone, Copy, PartialEq)]
pub enum Extent {
    /// To every principal, with either option.
    Full,
    /// To public with the option only: every account then has what any other such grant would give to anyone.
    Short,
    /// Full where there are few lines that a session could plant, else short.
    BySize,
}

const FEW_LINES: usize = 1_000_000;

#[derive(Clone, Copy)]
struct Object {
    entity: usize,
    owner: usize,
    /// The right that it takes to enter.
    right: usize,
}

#[derive(Clone, Copy)]
enum Action {
    Call(usize),
    Grant(Right),
    Join(Member),
}

/// The state when no step adds anything.
pub struct End {
    pub acted: BTreeSet<usize>,
    pub powers: Powers,
}

/// Objects are named by their places in `objects`, actions by theirs in `actions`, a runner by its place in `runners`.
struct Session<'a> {
    book: &'a Book,
    accounts: Vec<usize>,
    objects: Vec<Object>,
    actions: Vec<Action>,
    runners: Vec<Option<usize>>,
    acted: BTreeSet<usize>,
    rights: BTreeSet<Right>,
    members: BTreeSet<Member>,
    /// Of each action that is a grant or a join: whether its record stands.
    recorded: Vec<bool>,
    /// Object, runner, action: whether the line stands, by number.
    planted: Vec<bool>,
    /// Of each object, the accounts that entered it.
    entered: Vec<Vec<bool>>,
    added: bool,
}

pub fn close(book: &Book, opener: usize, extent: Extent) -> End {
    let mut session = Session::open(book, opener, extent);
    loop {
        // Powers only grow, so those of the start of a sweep allow nothing that is not allowed later in it.
        let powers = Powers::new(book, &session.rights, &session.members);
        session.added = false;
        session.switches(&powers);
        session.grants(&powers);
        session.joins(&powers);
        session.plants(&powers);
        session.calls(&powers);
        session.follows(&powers);
        if !session.added {
            return End { acted: session.acted, powers };
        }
    }
}

impl<'a> Session<'a> {
    fn open(book: &'a Book, opener: usize, extent: Extent) -> Session<'a> {
        let accounts = book.of_kind(ACCOUNT);
        let mut objects = Vec::new();
        for entity in book.of_kind(PROCEDURE) {
            objects.push(Object { entity, owner: book.entities[entity].owner, right: EXECUTE });
        }
        for entity in book.of_kind(TABLE) {
            for right in 1..=3 {
                objects.push(Object { entity, owner: book.entities[entity].owner, right });
            }
        }
        for entity in book.of_kind(CONTAINER) {
            if book.entities[entity].mode == 1 {
                objects.push(Object { entity, owner: book.entities[entity].owner, right: EXECUTE });
            }
        }
        let mut runners = vec![None];
        runners.extend(accounts.iter().map(|&a| Some(a)));
        let mut actions = actions(book, &accounts, objects.len(), true);
        let many = objects.len() * runners.len() * actions.len() > FEW_LINES;
        if extent == Extent::Short || (extent == Extent::BySize && many) {
            actions = self::actions(book, &accounts, objects.len(), false);
        }
        Session {
            book,
            acted: BTreeSet::from([opener]),
            rights: book.rights.iter().copied().collect(),
            members: book.members.iter().copied().collect(),
            recorded: vec![false; actions.len()],
            planted: vec![false; objects.len() * runners.len() * actions.len()],
            entered: vec![vec![false; book.entities.len()]; objects.len()],
            added: false,
            accounts,
            objects,
            actions,
            runners,
        }
    }

    fn object(&self, place: Place) -> usize {
        let right = if place.0 == 0 { EXECUTE } else { place.2 };
        self.objects.iter().position(|o| o.entity == place.1 && o.right == right).expect("an object of the book")
    }

    fn may_enter(&self, powers: &Powers, account: usize, object: usize) -> bool {
        powers.holds(account, self.objects[object].right, self.objects[object].entity)
    }

    fn line(&self, object: usize, runner: usize, action: usize) -> usize {
        (object * self.runners.len() + runner) * self.actions.len() + action
    }

    fn switches(&mut self, powers: &Powers) {
        for a in self.acted.clone() {
            for &v in &self.accounts {
                if powers.holds(a, IMPERSONATE, v) {
                    self.added |= self.acted.insert(v);
                }
            }
        }
    }

    fn grants(&mut self, powers: &Powers) {
        for number in 0..self.actions.len() {
            if let Action::Grant(record) = self.actions[number] {
                if self.acted.iter().any(|&a| powers.may_grant(a, record.2, record.1)) {
                    self.record(number);
                }
            }
        }
    }

    fn joins(&mut self, powers: &Powers) {
        for number in 0..self.actions.len() {
            if let Action::Join(member) = self.actions[number] {
                if self.acted.iter().any(|&a| powers.holds(a, ALTER, member.1)) {
                    self.record(number);
                }
            }
        }
    }

    fn enter(&mut self, object: usize, account: usize) {
        self.added |= !self.entered[object][account];
        self.entered[object][account] = true;
    }

    fn record(&mut self, number: usize) {
        self.recorded[number] = true;
        self.added |= match self.actions[number] {
            Action::Grant(record) => self.rights.insert(record),
            Action::Join(member) => self.members.insert(member),
            Action::Call(_) => false,
        };
    }

    fn plants(&mut self, powers: &Powers) {
        for a in self.acted.clone() {
            for object in 0..self.objects.len() {
                if !powers.holds(a, ALTER, self.objects[object].entity) {
                    continue;
                }
                for runner in 0..self.runners.len() {
                    let may_name = match self.runners[runner] {
                        None => true,
                        Some(account) => powers.holds(a, IMPERSONATE, account),
                    };
                    if !may_name {
                        continue;
                    }
                    for action in 0..self.actions.len() {
                        let line = self.line(object, runner, action);
                        self.added |= !self.planted[line];
                        self.planted[line] = true;
                    }
                }
            }
        }
    }

    fn calls(&mut self, powers: &Powers) {
        for a in self.acted.clone() {
            for object in 0..self.objects.len() {
                if self.may_enter(powers, a, object) {
                    self.enter(object, a);
                }
            }
        }
    }

    fn follows(&mut self, powers: &Powers) {
        let book = self.book;
        for line in &book.lines {
            let (x, y) = (self.object(line.place), self.object(line.called));
            for v in self.inside(x) {
                self.follow_call(powers, x, line.runner.unwrap_or(v), y);
            }
        }
        for x in 0..self.objects.len() {
            for v in self.inside(x) {
                for runner in 0..self.runners.len() {
                    for action in 0..self.actions.len() {
                        if self.planted[self.line(x, runner, action)] {
                            self.follow(powers, x, self.runners[runner].unwrap_or(v), action);
                        }
                    }
                }
            }
        }
    }

    fn inside(&self, object: usize) -> Vec<usize> {
        self.accounts.iter().copied().filter(|&v| self.entered[object][v]).collect()
    }

    /// A planted line of x that runs under w is followed, if w may do its action.
    fn follow(&mut self, powers: &Powers, x: usize, w: usize, number: usize) {
        let may = match self.actions[number] {
            Action::Call(y) => return self.follow_call(powers, x, w, y),
            _ if self.recorded[number] => false,
            Action::Grant(record) => powers.may_grant(w, record.2, record.1),
            Action::Join(member) => powers.holds(w, ALTER, member.1),
        };
        if may {
            self.record(number);
        }
    }

    fn follow_call(&mut self, powers: &Powers, x: usize, w: usize, y: usize) {
        let chained = self.objects[x].owner == self.objects[y].owner;
        if chained || self.may_enter(powers, w, y) {
            self.enter(y, w);
        }
    }
}

fn actions(book: &Book, accounts: &[usize], objects: usize, full: bool) -> Vec<Action> {
    let mut all: Vec<Action> = (0..objects).map(Action::Call).collect();
    for entity in 0..book.entities.len() {
        for right in 0..RIGHTS {
            if !full {
                all.push(Action::Grant((PUBLIC, entity, right, true)));
                continue;
            }
            for principal in (0..book.entities.len()).filter(|&p| book.is_principal(p)) {
                for option in [false, true] {
                    all.push(Action::Grant((principal, entity, right, option)));
                }
            }
        }
    }
    for &account in accounts {
        for role in book.of_kind(ROLE) {
            all.push(Action::Join((account, role)));
        }
    }
    all
}
