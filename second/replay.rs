//! Steps of a session, each judged by the table of steps, on plain lists.

use crate::book::{Book, Member, Place, Right, ACCOUNT, ALTER, CONTAINER, EXECUTE, IMPERSONATE, PROCEDURE};
use crate::book::{PUBLIC, ROLE, TABLE};
use crate::calls::CALLER;
use std::fmt;

/// Kind (0 for P, 1 for T, 2 for N), entity, and for T the right of the event.
pub type Object = Place;

#[derive(Clone, Copy, PartialEq)]
pub enum Action {
    Call(Object),
    Grant(Right),
    Join(Member),
}

#[derive(Clone, Copy, PartialEq)]
pub struct Line {
    pub object: Object,
    /// None is the caller.
    pub runner: Option<usize>,
    pub action: Action,
}

/// An object as it is written in a command.
fn object_text((kind, entity, right): Object) -> String {
    format!("{kind} {entity} {right}")
}

impl fmt::Display for Action {
    fn fmt(&self, to: &mut fmt::Formatter) -> fmt::Result {
        match *self {
            Action::Call(object) => write!(to, "call {}", object_text(object)),
            Action::Grant((p, e, right, option)) => write!(to, "grant {p} {e} {right} {}", u8::from(option)),
            Action::Join((account, role)) => write!(to, "join {account} {role}"),
        }
    }
}

impl fmt::Display for Line {
    fn fmt(&self, to: &mut fmt::Formatter) -> fmt::Result {
        write!(to, "{} {} {}", object_text(self.object), self.runner.unwrap_or(CALLER.into()), self.action)
    }
}

/// The first number of a step is the account that makes it, or of a follow that of the entered pair.
#[derive(Clone, Copy)]
pub enum Step {
    Switch(usize, usize),
    Grant(usize, Right),
    Join(usize, Member),
    Plant(usize, Line),
    Call(usize, Object),
    Follow(usize, Line),
}

impl fmt::Display for Step {
    fn fmt(&self, to: &mut fmt::Formatter) -> fmt::Result {
        match *self {
            Step::Switch(a, v) => write!(to, "switch {a} {v}"),
            Step::Grant(a, (p, e, right, option)) => write!(to, "grant {a} {p} {e} {right} {}", u8::from(option)),
            Step::Join(a, (account, role)) => write!(to, "join {a} {account} {role}"),
            Step::Plant(a, line) => write!(to, "plant {a} {line}"),
            Step::Call(a, object) => write!(to, "call {a} {}", object_text(object)),
            Step::Follow(v, line) => write!(to, "follow {v} {line}"),
        }
    }
}

#[derive(Clone)]
pub struct State<'a> {
    book: &'a Book,
    pub acted: Vec<usize>,
    rights: Vec<Right>,
    members: Vec<Member>,
    lines: Vec<Line>,
    pub entered: Vec<(Object, usize)>,
}

fn add<T: PartialEq>(list: &mut Vec<T>, new: T) {
    if !list.contains(&new) {
        list.push(new);
    }
}

impl<'a> State<'a> {
    pub fn open(book: &'a Book, opener: usize) -> State<'a> {
        let line = |l: &crate::book::Line| Line { object: l.place, runner: l.runner, action: Action::Call(l.called) };
        State {
            book,
            acted: vec![opener],
            rights: book.rights.clone(),
            members: book.members.clone(),
            lines: book.lines.iter().map(line).collect(),
            entered: Vec::new(),
        }
    }

    pub fn lines(&self) -> &[Line] {
        &self.lines
    }

    /// Whether an action that runs under an account would add anything.
    pub fn is_new(&self, account: usize, action: Action) -> bool {
        match action {
            Action::Call(object) => !self.entered.contains(&(object, account)),
            Action::Grant(record) => !self.rights.contains(&record),
            Action::Join(record) => !self.members.contains(&record),
        }
    }

    /// Makes the step if it is allowed, and says whether it is.
    pub fn make(&mut self, step: Step) -> bool {
        let allowed = self.allowed(step);
        if allowed {
            self.done(step);
        }
        allowed
    }

    fn done(&mut self, step: Step) {
        match step {
            Step::Switch(_, to) => add(&mut self.acted, to),
            Step::Grant(a, record) => self.acting(a, Action::Grant(record)),
            Step::Join(a, record) => self.acting(a, Action::Join(record)),
            Step::Plant(_, line) => add(&mut self.lines, line),
            Step::Call(a, object) => self.acting(a, Action::Call(object)),
            Step::Follow(v, line) => self.acting(line.runner.unwrap_or(v), line.action),
        }
    }

    /// What an action adds that runs under an account.
    fn acting(&mut self, account: usize, action: Action) {
        match action {
            Action::Call(object) => add(&mut self.entered, (object, account)),
            Action::Grant(record) => add(&mut self.rights, record),
            Action::Join(record) => add(&mut self.members, record),
        }
    }

    pub fn allowed(&self, step: Step) -> bool {
        let acts = |a: usize| self.acted.contains(&a);
        match step {
            Step::Switch(a, to) => acts(a) && self.book.is(to, ACCOUNT) && self.holds(a, IMPERSONATE, to),
            Step::Grant(a, record) => acts(a) && self.may_do(a, Action::Grant(record)),
            Step::Join(a, record) => acts(a) && self.may_do(a, Action::Join(record)),
            Step::Plant(a, line) => acts(a) && self.may_plant(a, line),
            Step::Call(a, object) => acts(a) && self.may_do(a, Action::Call(object)),
            Step::Follow(v, line) => {
                self.entered.contains(&(line.object, v)) && self.lines.contains(&line) && self.may_follow(v, line)
            }
        }
    }

    /// Whether what an action names stands and fits.
    fn fits(&self, action: Action) -> bool {
        match action {
            Action::Call(object) => self.is_object(object),
            Action::Grant((principal, entity, right, _)) => {
                self.book.is_principal(principal) && self.book.stands(entity) && right <= IMPERSONATE
            }
            Action::Join((account, role)) => self.book.is(account, ACCOUNT) && self.book.is(role, ROLE),
        }
    }

    fn is_object(&self, (kind, entity, right): Object) -> bool {
        match kind {
            0 => right == 0 && self.book.is(entity, PROCEDURE),
            1 => (1..=3).contains(&right) && self.book.is(entity, TABLE),
            2 => right == 0 && self.book.is(entity, CONTAINER) && self.book.entities[entity].mode == 1,
            _ => false,
        }
    }

    fn may_do(&self, account: usize, action: Action) -> bool {
        self.fits(action)
            && match action {
                Action::Call(object) => self.may_enter(account, object),
                Action::Grant((_, entity, right, _)) => self.may_grant(account, right, entity),
                Action::Join((_, role)) => self.holds(account, ALTER, role),
            }
    }

    fn may_enter(&self, account: usize, (kind, entity, event): Object) -> bool {
        self.holds(account, if kind == 1 { event } else { EXECUTE }, entity)
    }

    fn may_plant(&self, a: usize, line: Line) -> bool {
        self.is_object(line.object)
            && self.fits(line.action)
            && self.holds(a, ALTER, line.object.1)
            && line.runner.is_none_or(|r| self.book.is(r, ACCOUNT) && self.holds(a, IMPERSONATE, r))
    }

    pub fn may_follow(&self, v: usize, line: Line) -> bool {
        let owner = |object: Object| self.book.entities[object.1].owner;
        let chained = matches!(line.action, Action::Call(y) if owner(line.object) == owner(y));
        chained || self.may_do(line.runner.unwrap_or(v), line.action)
    }

    /// The account itself and all roles that it is in.
    fn names(&self, account: usize) -> Vec<usize> {
        let mut names = vec![account];
        names.extend(self.book.roles_below(PUBLIC));
        for &(member, role) in &self.members {
            if member == account {
                names.extend(self.book.roles_below(role));
            }
        }
        names
    }

    pub fn holds(&self, account: usize, right: usize, entity: usize) -> bool {
        let names = self.names(account);
        let has = |at: usize| {
            let recorded = |r: &Right| r.1 == at && r.2 == right && names.contains(&r.0);
            names.contains(&self.book.entities[at].owner) || self.rights.iter().any(recorded)
        };
        self.book.upward(entity).into_iter().any(has)
    }

    pub fn may_grant(&self, account: usize, right: usize, entity: usize) -> bool {
        let names = self.names(account);
        let owns = |at: usize| names.contains(&self.book.entities[at].owner);
        let recorded = |r: &Right| r.1 == entity && r.2 == right && r.3 && names.contains(&r.0);
        self.book.upward(entity).into_iter().any(owns) || self.rights.iter().any(recorded)
    }
}
