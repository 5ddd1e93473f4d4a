//! Steps that lead to a right, found by trying steps one by one; those that can be left out are then left out.

use crate::book::{Book, Right, ACCOUNT, CONTAINER, PROCEDURE, PUBLIC, RIGHTS, ROLE, TABLE};
use crate::questions::Question;
use crate::replay::{Action, Line, Object, State, Step};

pub fn find(book: &Book, question: &Question) -> Option<Vec<Step>> {
    let mut state = State::open(book, question.opener);
    let names = Names::of(book, &state);
    let mut steps = Vec::new();
    while !question.stands(&state) {
        let more = names.simple(&state).or_else(|| names.planted(&state))?;
        for &step in &more {
            assert!(state.make(step), "only allowed steps are tried");
        }
        steps.extend(more);
    }
    shorten(book, question, &mut steps);
    Some(steps)
}

fn leads(book: &Book, question: &Question, steps: &[Step]) -> bool {
    let mut state = State::open(book, question.opener);
    steps.iter().all(|&step| state.make(step)) && question.stands(&state)
}

fn shorten(book: &Book, question: &Question, steps: &mut Vec<Step>) {
    let mut before = usize::MAX;
    while steps.len() < before {
        before = steps.len();
        for place in (0..before).rev() {
            let step = steps.remove(place);
            if !leads(book, question, steps) {
                steps.insert(place, step);
            }
        }
    }
}

/// Everything that a step may name, where grants go to public with the option.
struct Names {
    accounts: Vec<usize>,
    actions: Vec<Action>,
    lines: Vec<Line>,
}

impl Names {
    fn of(book: &Book, start: &State) -> Names {
        let accounts = book.of_kind(ACCOUNT);
        let mut objects: Vec<Object> = book.of_kind(PROCEDURE).into_iter().map(|o| (0, o, 0)).collect();
        objects.extend(book.of_kind(TABLE).into_iter().flat_map(|t| (1..=3).map(move |right| (1, t, right))));
        let made_in = book.of_kind(CONTAINER).into_iter().filter(|&c| book.entities[c].mode == 1);
        objects.extend(made_in.map(|c| (2, c, 0)));
        let mut actions: Vec<Action> = objects.iter().map(|&object| Action::Call(object)).collect();
        for &account in &accounts {
            actions.extend(book.of_kind(ROLE).into_iter().map(|role| Action::Join((account, role))));
        }
        let to_public = |entity| (0..RIGHTS).map(move |right| -> Right { (PUBLIC, entity, right, true) });
        actions.extend((0..book.entities.len()).flat_map(to_public).map(Action::Grant));
        Names { accounts, actions, lines: start.lines().to_vec() }
    }

    /// A single step that adds something, with no line planted.
    fn simple(&self, state: &State) -> Option<Vec<Step>> {
        for &a in &state.acted {
            let others = self.accounts.iter().filter(|v| !state.acted.contains(v));
            let switches = others.map(|&to| Step::Switch(a, to));
            let fresh = self.actions.iter().filter(|&&action| state.is_new(a, action));
            let steps = fresh.map(|&action| match action {
                Action::Call(object) => Step::Call(a, object),
                Action::Grant(record) => Step::Grant(a, record),
                Action::Join(record) => Step::Join(a, record),
            });
            if let Some(step) = switches.chain(steps).find(|&step| state.allowed(step)) {
                return Some(vec![step]);
            }
        }
        for &(object, v) in &state.entered {
            let here = self.lines.iter().filter(|l| l.object == object);
            let mut fresh = here.filter(|l| state.is_new(l.runner.unwrap_or(v), l.action));
            if let Some(&line) = fresh.find(|&&line| state.allowed(Step::Follow(v, line))) {
                return Some(vec![Step::Follow(v, line)]);
            }
        }
        None
    }

    /// A line planted in an object that is entered, and followed.
    fn planted(&self, state: &State) -> Option<Vec<Step>> {
        for &(object, v) in &state.entered {
            for runner in std::iter::once(None).chain(self.accounts.iter().map(|&a| Some(a))) {
                let blank = Line { object, runner, action: Action::Call(object) };
                let Some(&a) = state.acted.iter().find(|&&a| state.allowed(Step::Plant(a, blank))) else {
                    continue;
                };
                let fresh = self.actions.iter().filter(|&&action| state.is_new(runner.unwrap_or(v), action));
                let mut lines = fresh.map(|&action| Line { action, ..blank });
                if let Some(line) = lines.find(|&line| state.may_follow(v, line)) {
                    return Some(vec![Step::Plant(a, line), Step::Follow(v, line)]);
                }
            }
        }
        None
    }
}
