//! Writes the image of a book; reads an image, or names its first fault.

use crate::book::{Book, Place};
use crate::calls::{self, Answer, Refusal, CALLER};

const SIZES: [usize; 5] = [4, 2, 4, 2, 7];
const MOST: [usize; 5] = [96, calls::MOST_LINKS, calls::MOST_RIGHTS, calls::MOST_MEMBERS, calls::MOST_LINES];
const CONTENTS: usize = 20;

pub fn read(bytes: &[u8]) -> Result<Book, Refusal> {
    let bodies = bodies(bytes)?;
    let mut book = Book::new();
    for (list, body) in bodies.iter().enumerate() {
        for (record, fields) in body.chunks(SIZES[list]).enumerate() {
            if !taken(&mut book, list, record, fields) {
                return Err(Refusal::Fault { part: list + 1, record });
            }
        }
    }
    Ok(book)
}

/// The bytes of one list of an image that reads.
pub fn body(bytes: &[u8], list: usize) -> Result<&[u8], Refusal> {
    read(bytes)?;
    Ok(bodies(bytes)?[list])
}

fn bodies(bytes: &[u8]) -> Result<[&[u8]; 5], Refusal> {
    let wrong = |record| Err(Refusal::Fault { part: 0, record });
    if bytes.len() < CONTENTS {
        return wrong(5);
    }
    let number = |at: usize| bytes[at] as usize * 256 + bytes[at + 1] as usize;
    let mut end = CONTENTS;
    let mut ends = [0; 5];
    for k in 0..5 {
        let (start, count) = (number(4 * k), number(4 * k + 2));
        if start != end || count > MOST[k] || (k == 0 && count < 3) {
            return wrong(k);
        }
        end += count * SIZES[k];
        ends[k] = end;
    }
    if bytes.len() != end {
        return wrong(5);
    }
    let mut start = CONTENTS;
    Ok(ends.map(|end| {
        let body = &bytes[start..end];
        start = end;
        body
    }))
}

/// Whether the record is the next one that its list gets.
fn taken(book: &mut Book, list: usize, record: usize, fields: &[u8]) -> bool {
    if list == 0 && record < book.entities.len() {
        return fields == entity_bytes(book, record);
    }
    matches!(call(book, list, fields), Ok(number) if number == record)
}

fn call(book: &mut Book, list: usize, fields: &[u8]) -> Answer {
    match list {
        0 => calls::declare(book, exactly(fields)),
        1 => calls::link(book, exactly(fields)),
        2 => calls::grant(book, exactly(fields)),
        3 => calls::join(book, exactly(fields)),
        _ => calls::line(book, exactly(fields)),
    }
}

fn exactly<const N: usize>(fields: &[u8]) -> [u8; N] {
    fields.try_into().expect("as many fields as the record has")
}

pub fn write(book: &Book) -> Vec<u8> {
    let bodies = [
        (0..book.entities.len()).flat_map(|e| entity_bytes(book, e)).collect(),
        book.links.iter().flat_map(|l| [l.0 as u8, l.1 as u8]).collect(),
        book.rights.iter().flat_map(|r| [r.0 as u8, r.1 as u8, r.2 as u8, r.3 as u8]).collect(),
        book.members.iter().flat_map(|m| [m.0 as u8, m.1 as u8]).collect(),
        lines(book),
    ];
    let mut bytes = Vec::new();
    let mut start = CONTENTS;
    for (list, body) in bodies.iter().enumerate() {
        bytes.extend((start as u16).to_be_bytes());
        bytes.extend(((body.len() / SIZES[list]) as u16).to_be_bytes());
        start += body.len();
    }
    bytes.extend(bodies.concat());
    bytes
}

fn entity_bytes(book: &Book, number: usize) -> [u8; 4] {
    let entity = &book.entities[number];
    [entity.kind, entity.parent as u8, entity.owner as u8, entity.mode]
}

fn lines(book: &Book) -> Vec<u8> {
    let three = |place: Place| [place.0, place.1 as u8, place.2 as u8];
    let mut bytes = Vec::new();
    for line in &book.lines {
        bytes.extend(three(line.place));
        bytes.push(line.runner.map_or(CALLER, |account| account as u8));
        bytes.extend(three(line.called));
    }
    bytes
}
