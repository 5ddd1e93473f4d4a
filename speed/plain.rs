//! The listing of an image by plain Rust, with the method of the proved program. It takes the image to be a good one.
//! An argument is how many times the listing is made from the image once it is read; it is printed once.

use std::hint::black_box;
use std::io::{Read, Write};

/// A set of entities or of objects, by their numbers, which are below 96.
type Set = u128;

/// A set of entities for each right.
type Row = [Set; RIGHTS];

const CONTAINER: u8 = 0;
const TABLE: u8 = 1;
const PROCEDURE: u8 = 2;
const ACCOUNT: u8 = 3;
const ROLE: u8 = 4;

const ALTER: usize = 4;
const EXECUTE: usize = 5;
const IMPERSONATE: usize = 6;
const RIGHTS: usize = 7;

const PUBLIC: usize = 1;
const SYSADMIN: usize = 2;
const CALLER: u8 = 255;

const ENTITIES: usize = 96;
const ACCOUNTS: usize = 16;

#[derive(Clone, Copy)]
struct Entity {
    kind: u8,
    parent: usize,
    owner: usize,
    mode: u8,
}

struct Right {
    principal: usize,
    entity: usize,
    right: usize,
    option: bool,
}

/// The right that lets an account enter an object, and its entity.
type Object = (usize, usize);

struct Line {
    at: Object,
    runner: u8,
    called: Object,
}

/// An image as lists of records.
struct Book {
    entities: Vec<Entity>,
    links: Vec<(usize, usize)>,
    rights: Vec<Right>,
    members: Vec<(usize, usize)>,
    lines: Vec<Line>,
}

impl Book {
    fn read(bytes: &[u8]) -> Book {
        let number = |at: usize| usize::from(bytes[at]) << 8 | usize::from(bytes[at + 1]);
        let body = |k: usize, size: usize| bytes[number(4 * k)..].chunks_exact(size).take(number(4 * k + 2));
        let pair = |r: &[u8]| (r[0] as usize, r[1] as usize);
        let entity = |r: &[u8]| Entity { kind: r[0], parent: r[1] as usize, owner: r[2] as usize, mode: r[3] };
        let right = |r: &[u8]| Right {
            principal: r[0] as usize,
            entity: r[1] as usize,
            right: r[2] as usize,
            option: r[3] == 1,
        };
        let object = |r: &[u8]| (if r[0] == 0 { EXECUTE } else { r[2] as usize }, r[1] as usize);
        let line = |r: &[u8]| Line { at: object(&r[..3]), runner: r[3], called: object(&r[4..]) };
        Book {
            entities: body(0, 4).map(entity).collect(),
            links: body(1, 2).map(pair).collect(),
            rights: body(2, 4).map(right).collect(),
            members: body(3, 2).map(pair).collect(),
            lines: body(4, 7).map(line).collect(),
        }
    }

    fn of_kind(&self, kind: u8) -> impl Iterator<Item = usize> {
        self.entities.iter().enumerate().filter(move |(_, e)| e.kind == kind).map(|(n, _)| n)
    }

    fn set_of(&self, kind: u8) -> Set {
        self.of_kind(kind).fold(0, |all, n| all | 1 << n)
    }

    /// All objects, in the order of their numbers.
    fn objects(&self) -> Vec<Object> {
        let mut objects = Vec::new();
        for (n, entity) in self.entities.iter().enumerate() {
            match entity.kind {
                TABLE => objects.extend([(1, n), (2, n), (3, n)]),
                PROCEDURE => objects.push((EXECUTE, n)),
                CONTAINER if entity.mode == 1 => objects.push((EXECUTE, n)),
                _ => {}
            }
        }
        objects
    }
}

/// The members of a set, from the lowest up.
struct Members(Set);

impl Iterator for Members {
    type Item = usize;

    fn next(&mut self) -> Option<usize> {
        if self.0 == 0 {
            return None;
        }
        let lowest = self.0.trailing_zeros() as usize;
        self.0 &= self.0 - 1;
        Some(lowest)
    }
}

/// Adds to each entity what those in it have.
fn spread(entities: &[Entity], sets: &mut [Set; ENTITIES]) {
    for (n, entity) in entities.iter().enumerate().skip(1).rev() {
        sets[entity.parent] |= sets[n];
    }
}

/// What is at or below each entity: entities, and the objects that each right lets an account enter or, for alter, alter.
struct Places {
    entities: [Set; ENTITIES],
    objects: [[Set; ENTITIES]; RIGHTS],
}

impl Places {
    fn new(book: &Book, objects: &[Object]) -> Places {
        let mut places = Places { entities: [0; ENTITIES], objects: [[0; ENTITIES]; RIGHTS] };
        for n in 0..book.entities.len() {
            places.entities[n] = 1 << n;
        }
        for (number, &(right, entity)) in objects.iter().enumerate() {
            places.objects[right][entity] |= 1 << number;
            places.objects[ALTER][entity] |= 1 << number;
        }
        spread(&book.entities, &mut places.entities);
        for right in [1, 2, 3, ALTER, EXECUTE] {
            spread(&book.entities, &mut places.objects[right]);
        }
        places
    }
}

/// What a principal holds and may grant, and which objects it may enter and alter.
#[derive(Clone, Copy, Default)]
struct Rows {
    holds: Row,
    grants: Row,
    enters: Set,
    alters: Set,
}

impl Rows {
    fn add(&mut self, more: &Rows) {
        for right in 0..RIGHTS {
            self.holds[right] |= more.holds[right];
            self.grants[right] |= more.grants[right];
        }
        self.enters |= more.enters;
        self.alters |= more.alters;
    }

    /// Adds a right on an entity and on what is in it.
    fn give(&mut self, places: &Places, right: usize, entity: usize) {
        self.holds[right] |= places.entities[entity];
        if right == ALTER {
            self.alters |= places.objects[ALTER][entity];
        } else {
            self.enters |= places.objects[right][entity];
        }
    }

    /// Adds all on an entity and on what is in it.
    fn own(&mut self, places: &Places, entity: usize) {
        for right in 0..RIGHTS {
            self.give(places, right, entity);
            self.grants[right] |= places.entities[entity];
        }
    }
}

/// A line that a session may follow: the place of its runner, if it is not the caller, the numbers of its object and of
/// the one called, and whether both have one owner.
struct Call {
    runner: Option<usize>,
    at: u8,
    called: u8,
    chained: bool,
}

/// What the sessions of all accounts look up.
struct Tables {
    accounts: Vec<usize>,
    account_set: Set,
    roles: Set,
    /// For each role, those at or below it.
    below: [Set; ENTITIES],
    places: Places,
    /// For each owner, its objects.
    owned: Vec<Set>,
    /// What each principal has and can grant by itself.
    own: Vec<Rows>,
    /// What each account, by its place among the accounts, holds and may grant by the catalogue.
    first: Vec<Rows>,
    /// For each object, the places of the accounts that may enter it by the catalogue.
    enterers: [u16; ENTITIES],
    /// The rights that the catalogue gives everyone with the option.
    given: Row,
    calls: Vec<Call>,
}

fn roles_below(roles: Set, links: &[(usize, usize)]) -> [Set; ENTITIES] {
    let mut below = [0; ENTITIES];
    for role in Members(roles) {
        below[role] = 1 << role;
    }
    below[SYSADMIN] = roles;
    for &(lower, upper) in links {
        let more = below[lower];
        for role in Members(roles) {
            if below[role] >> upper & 1 == 1 {
                below[role] |= more;
            }
        }
    }
    below
}

/// What each principal has and can grant by its own records and by what it owns.
fn own_rows(book: &Book, places: &Places) -> Vec<Rows> {
    let mut rows = vec![Rows::default(); book.entities.len()];
    for right in &book.rights {
        let row = &mut rows[right.principal];
        row.give(places, right.right, right.entity);
        if right.option {
            row.grants[right.right] |= 1 << right.entity;
        }
    }
    for (n, entity) in book.entities.iter().enumerate() {
        rows[entity.owner].own(places, n);
    }
    rows
}

fn objects_owned(book: &Book, objects: &[Object]) -> Vec<Set> {
    let mut owned = [0; ENTITIES];
    for (number, &(_, entity)) in objects.iter().enumerate() {
        owned[book.entities[entity].owner] |= 1 << number;
    }
    owned.into_iter().filter(|&set| set != 0).collect()
}

impl Tables {
    fn new(book: &Book) -> Tables {
        let objects = book.objects();
        let places = Places::new(book, &objects);
        let mut tables = Tables {
            accounts: book.of_kind(ACCOUNT).collect(),
            account_set: book.set_of(ACCOUNT),
            roles: book.set_of(ROLE),
            below: roles_below(book.set_of(ROLE), &book.links),
            owned: objects_owned(book, &objects),
            own: own_rows(book, &places),
            places,
            first: Vec::new(),
            enterers: [0; ENTITIES],
            given: [0; RIGHTS],
            calls: Vec::new(),
        };
        tables.add_rights(book);
        tables.add_enterers();
        tables.add_calls(book, &objects);
        tables
    }

    fn add_rights(&mut self, book: &Book) {
        for right in book.rights.iter().filter(|r| r.option && r.principal == PUBLIC) {
            self.given[right.right] |= 1 << right.entity;
        }
        let mut roles = [self.below[PUBLIC]; ENTITIES];
        for &(account, role) in &book.members {
            roles[account] |= self.below[role];
        }
        for &account in &self.accounts {
            let mut rows = self.own[account];
            for role in Members(roles[account]) {
                rows.add(&self.own[role]);
            }
            self.first.push(rows);
        }
    }

    fn add_enterers(&mut self) {
        for (place, rows) in self.first.iter().enumerate() {
            for object in Members(rows.enters) {
                self.enterers[object] |= 1 << place;
            }
        }
    }

    fn add_calls(&mut self, book: &Book, objects: &[Object]) {
        let mut numbers = [[0; ENTITIES]; RIGHTS];
        for (number, &(right, entity)) in objects.iter().enumerate() {
            numbers[right][entity] = number as u8;
        }
        let mut places = [0; ENTITIES];
        for (place, &account) in self.accounts.iter().enumerate() {
            places[account] = place;
        }
        for Line { at, runner, called } in &book.lines {
            self.calls.push(Call {
                runner: (*runner != CALLER).then(|| places[*runner as usize]),
                at: numbers[at.0][at.1],
                called: numbers[called.0][called.1],
                chained: book.entities[at.1].owner == book.entities[called.1].owner,
            });
        }
    }
}

/// The state of a session. It only grows.
struct Session<'a> {
    tables: &'a Tables,
    acted: Set,
    /// The rights that everyone is given with the option, and the roles that every account was put into.
    given: Row,
    joined: Set,
    /// What the records of the session add to the rows of every account, and how often it grew.
    more: Rows,
    growths: usize,
    /// The objects that each account entered, by its place, and those that some account entered.
    entered: [Set; ACCOUNTS],
    anyone: Set,
    /// For each object, the places of the accounts that entered it.
    entrants: [u16; 256],
    /// Whether something was added in the sweep.
    added: bool,
}

impl<'a> Session<'a> {
    fn open(tables: &'a Tables, account: usize) -> Session<'a> {
        Session {
            tables,
            acted: 1 << account,
            given: tables.given,
            joined: 0,
            more: Rows::default(),
            growths: 0,
            entered: [0; ACCOUNTS],
            anyone: 0,
            entrants: [0; 256],
            added: false,
        }
    }

    fn acts(&self, account: usize) -> bool {
        self.acted >> account & 1 == 1
    }

    fn switch(&mut self, accounts: Set) {
        self.added |= accounts & !self.acted != 0;
        self.acted |= accounts;
    }

    /// Gives everyone a right on entities, with the option.
    fn grant(&mut self, right: usize, entities: Set) {
        let new = entities & !self.given[right];
        if new == 0 {
            return;
        }
        self.added = true;
        self.growths += 1;
        self.given[right] |= new;
        self.more.grants[right] |= new;
        for entity in Members(new) {
            self.more.give(&self.tables.places, right, entity);
        }
    }

    /// Puts every account into roles.
    fn join(&mut self, roles: Set) {
        for role in Members(roles & !self.joined) {
            self.added = true;
            self.growths += 1;
            self.joined |= 1 << role;
            for lower in Members(self.tables.below[role]) {
                self.more.add(&self.tables.own[lower]);
            }
        }
    }

    fn enter(&mut self, place: usize, objects: Set) {
        let new = objects & !self.entered[place];
        if new == 0 {
            return;
        }
        self.added = true;
        self.entered[place] |= new;
        self.anyone |= new;
        for object in Members(new) {
            self.entrants[object] |= 1 << place;
        }
    }

    /// The single steps that an account begins.
    fn begin(&mut self, place: usize, rows: &Rows) {
        self.switch(rows.holds[IMPERSONATE] & self.tables.account_set);
        for right in 0..RIGHTS {
            self.grant(right, rows.grants[right]);
        }
        self.join(rows.holds[ALTER] & self.tables.roles);
        self.enter(place, rows.enters);
    }

    /// The places of the accounts that may enter the object that a line calls.
    fn allowed(&self, call: &Call) -> u16 {
        if call.chained || self.more.enters >> call.called & 1 == 1 {
            u16::MAX
        } else {
            self.tables.enterers[call.called as usize]
        }
    }

    /// Follows a line for the accounts that entered its object, where those under which it runs did not enter the other.
    fn follow(&mut self, call: &Call) {
        let entrants = self.entrants[call.at as usize];
        let workers = match call.runner {
            None => entrants,
            Some(place) => u16::from(entrants != 0) << place,
        };
        let new = workers & !self.entrants[call.called as usize];
        if new == 0 {
            return;
        }
        for place in Members((new & self.allowed(call)).into()) {
            self.enter(place, 1 << call.called);
        }
    }

    /// Follows all lines, forward and backward, until going forward enters nothing more.
    fn follow_all(&mut self) {
        let calls = &self.tables.calls;
        loop {
            self.added = false;
            calls.iter().for_each(|call| self.follow(call));
            if !self.added {
                return;
            }
            calls.iter().rev().for_each(|call| self.follow(call));
        }
    }

    /// Takes over each account that entered an object in which the account can plant.
    fn take(&mut self, alters: Set) {
        for (place, &other) in self.tables.accounts.iter().enumerate() {
            if self.entered[place] & alters != 0 && !self.acts(other) {
                self.switch(1 << other);
            }
        }
    }

    /// Lets each account acted as enter what belongs to the owners of entered objects that some account acted as may alter.
    fn lend(&mut self, alters: Set) {
        let held = self.anyone & alters;
        if held == 0 {
            return;
        }
        let reached = self.tables.owned.iter().filter(|&&set| set & held != 0).fold(0, |all, set| all | set);
        for (place, &other) in self.tables.accounts.iter().enumerate() {
            if self.acts(other) {
                self.enter(place, reached);
            }
        }
    }

    /// Adds what one account begins.
    fn turn(&mut self, place: usize, rows: &Rows) {
        self.begin(place, rows);
        if self.anyone & rows.alters != 0 {
            self.take(rows.alters);
        }
    }

    /// Adds to the rows of an account what records of the session added since.
    fn renew(&self, rows: &mut Rows, seen: &mut usize) {
        if *seen != self.growths {
            *seen = self.growths;
            rows.add(&self.more);
        }
    }

    /// Turns of the accounts acted as, and what they lend one another.
    fn begin_all(&mut self, rows: &mut [Rows], seen: &mut [usize; ACCOUNTS]) {
        let mut alters = 0;
        for place in 0..rows.len() {
            if self.acts(self.tables.accounts[place]) {
                self.renew(&mut rows[place], &mut seen[place]);
                self.turn(place, &rows[place]);
                alters |= rows[place].alters;
            }
        }
        self.lend(alters);
    }

    /// Turns, and then sweeps of lines and turns until the turns add nothing.
    fn saturate(&mut self) {
        let mut rows = self.tables.first.clone();
        let mut seen = [0; ACCOUNTS];
        self.begin_all(&mut rows, &mut seen);
        loop {
            self.follow_all();
            self.added = false;
            self.begin_all(&mut rows, &mut seen);
            if !self.added {
                return;
            }
        }
    }

    /// What some account acted as holds.
    fn uses(&self) -> Row {
        let mut uses = self.more.holds;
        for (rows, &account) in self.tables.first.iter().zip(&self.tables.accounts) {
            if self.acts(account) {
                for (all, set) in uses.iter_mut().zip(&rows.holds) {
                    *all |= set;
                }
            }
        }
        uses
    }
}

fn put_digits(text: &mut Vec<u8>, number: usize, places: &[usize]) {
    text.extend(places.iter().map(|place| b'0' + (number / place % 10) as u8));
}

fn listing(book: &Book) -> Vec<u8> {
    let tables = Tables::new(book);
    let mut text = Vec::new();
    for &account in &tables.accounts {
        let mut session = Session::open(&tables, account);
        session.saturate();
        let uses = session.uses();
        put_digits(&mut text, account, &[10, 1]);
        text.push(b' ');
        text.extend(tables.accounts.iter().map(|&other| b'0' + (uses[IMPERSONATE] >> other & 1) as u8));
        text.push(b' ');
        let ones: u32 = uses.iter().map(|set| set.count_ones()).sum();
        put_digits(&mut text, ones as usize * 1000 / (RIGHTS * book.entities.len()), &[1000, 100, 10, 1]);
        text.push(b'\n');
    }
    text
}

fn main() {
    let times = std::env::args().nth(1).map_or(1, |word| word.parse().expect("a number"));
    let mut bytes = Vec::new();
    std::io::stdin().read_to_end(&mut bytes).expect("standard input");
    let book = Book::read(&bytes);
    let mut text = Vec::new();
    for _ in 0..times {
        text = black_box(listing(black_box(&book)));
    }
    std::io::stdout().write_all(&text).expect("standard output");
}
