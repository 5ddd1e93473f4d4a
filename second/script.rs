//! The commands: reads a script of them and gives the answers.

use crate::book::Book;
use crate::calls::{self, Answer, Refusal};
use crate::image;
use crate::layer::Layer;
use crate::questions::{self, Question, Row};
use crate::replay::{Action, Line, Object, Step};
use crate::runs::Extent;
use crate::steps;
use std::fmt::Write;

pub struct Console {
    layer: Layer,
    steps: Vec<Step>,
    extent: Extent,
    /// Whether `witness` is answered, with steps of this program's own finding.
    finding: bool,
}

impl Console {
    pub fn new(extent: Extent, finding: bool) -> Console {
        Console { layer: Layer::new(), steps: Vec::new(), extent, finding }
    }

    /// What is printed for a line of a script that is given without its line feed.
    pub fn line(&mut self, line: &[u8]) -> Vec<u8> {
        if line.starts_with(b"#") {
            return [line, b"\n"].concat();
        }
        if line.iter().all(|&byte| byte == b' ') {
            return Vec::new();
        }
        let text = std::str::from_utf8(line).ok();
        let words = text.map(|text| text.split(' ').filter(|word| !word.is_empty()).collect::<Vec<_>>());
        match words.and_then(|words| self.answer(&words)) {
            None => b"?\n".to_vec(),
            Some(Err(refusal)) => format!("refused {refusal}\n").into_bytes(),
            Some(Ok(answer)) => answer.into_bytes(),
        }
    }

    /// None where the words are no command.
    fn answer(&mut self, words: &[&str]) -> Option<Result<String, Refusal>> {
        let (&name, rest) = words.split_first()?;
        self.building(name, rest).or_else(|| self.asking(name, rest)).or_else(|| self.others(name, rest))
    }

    fn building(&mut self, name: &str, rest: &[&str]) -> Option<Result<String, Refusal>> {
        let book = &mut self.layer.book;
        Some(number(match name {
            "declare" => calls::declare(book, numbers(rest)?),
            "link" => calls::link(book, numbers(rest)?),
            "grant" => calls::grant(book, numbers(rest)?),
            "join" => calls::join(book, numbers(rest)?),
            "line" => calls::line(book, numbers(rest)?),
            "propose" => self.layer.propose(numbers(rest)?),
            "propose-member" => self.layer.propose_member(numbers(rest)?),
            _ => return None,
        }))
    }

    fn asking(&mut self, name: &str, rest: &[&str]) -> Option<Result<String, Refusal>> {
        let (book, extent) = (self.layer.meaning(), self.extent);
        Some(match name {
            "list" => numbers::<0>(rest).map(|_| Ok(questions::listing(&book, extent)))?,
            "row" => self.rows(&book, numbers::<1>(rest)?).map(|[row]| row_text(&row)),
            "exposure" => self.rows(&book, numbers::<1>(rest)?).map(|[row]| exposure_text(&book, &row)),
            "unite" => self.rows(&book, numbers(rest)?).map(|[one, other]| row_text(&questions::unite(&one, &other))),
            "same" => self.rows(&book, numbers(rest)?).map(|[one, other]| format!("same {}\n", u8::from(one == other))),
            "compare" => self.rows(&book, numbers(rest)?).map(|[one, other]| compare_text(&one, &other)),
            "can" => questions::can(&book, numbers(rest)?, extent).map(|can| if can { "yes\n" } else { "no\n" }.into()),
            "replay" => {
                let fields = numbers(rest)?;
                let steps = std::mem::take(&mut self.steps);
                questions::replay(&book, fields, &steps).map(|()| "accepted\n".into())
            }
            _ => return None,
        })
    }

    fn others(&mut self, name: &str, rest: &[&str]) -> Option<Result<String, Refusal>> {
        Some(match (name, rest) {
            ("new", []) => {
                self.layer = Layer::new();
                Ok("done\n".into())
            }
            ("withdraw", []) => Ok(if self.layer.withdraw() { "withdrawn\n" } else { "nothing\n" }.into()),
            ("witness", rest) if self.finding => {
                let fields = numbers(rest)?;
                let book = self.layer.meaning();
                Question::of(&book, fields).map(|question| self.witness(steps::find(&book, &question)))
            }
            ("step", rest) => {
                self.steps.push(step(rest)?);
                Ok(format!("step {}\n", self.steps.len() - 1))
            }
            ("write", []) => Ok(format!("image {}\n", hex_text(&image::write(&self.layer.book)))),
            ("image", [hex]) => image::read(&bytes(hex)?).map(|book| questions::listing(&book, self.extent)),
            ("body", [list, hex]) => {
                let list = decimal(list).filter(|&list| list < 5)?;
                image::body(&bytes(hex)?, list as usize).map(|body| format!("body {}\n", hex_text(body)))
            }
            _ => return None,
        })
    }

    fn witness(&mut self, found: Option<Vec<Step>>) -> String {
        let Some(steps) = found else {
            return "no\n".into();
        };
        let lines: String = steps.iter().map(|step| format!("step {step}\n")).collect();
        self.steps = steps;
        format!("yes {}\n{lines}", self.steps.len())
    }

    fn rows<const N: usize>(&self, book: &Book, fields: [u8; N]) -> Result<[Row; N], Refusal> {
        Ok(questions::accounts(book, fields)?.map(|account| questions::row(book, account, self.extent)))
    }
}

fn number(answer: Answer) -> Result<String, Refusal> {
    answer.map(|number| format!("number {number}\n"))
}

fn row_text(row: &Row) -> String {
    format!("row {}\n", hex_text(row))
}

fn exposure_text(book: &Book, row: &Row) -> String {
    format!("exposure {}\n", questions::exposure(book, row))
}

fn compare_text(one: &Row, other: &Row) -> String {
    let digit = |yes: bool| u8::from(yes);
    format!("contains {} {}\n", digit(questions::contains(one, other)), digit(questions::contains(other, one)))
}

fn hex_text(bytes: &[u8]) -> String {
    bytes.iter().fold(String::new(), |mut text, byte| {
        write!(text, "{byte:02x}").expect("text takes all");
        text
    })
}

fn decimal(word: &str) -> Option<u8> {
    word.bytes().all(|byte| byte.is_ascii_digit()).then(|| word.parse().ok())?
}

/// Exactly so many numbers.
fn numbers<const N: usize>(words: &[&str]) -> Option<[u8; N]> {
    let numbers: Option<Vec<u8>> = words.iter().map(|word| decimal(word)).collect();
    numbers?.try_into().ok()
}

fn bytes(hex: &str) -> Option<Vec<u8>> {
    let digit = |byte: u8| match byte {
        b'0'..=b'9' => Some(byte - b'0'),
        b'a'..=b'f' => Some(byte - b'a' + 10),
        _ => None,
    };
    let pairs = hex.as_bytes().chunks(2);
    pairs.map(|pair| Some(digit(pair[0])? * 16 + digit(*pair.get(1)?)?)).collect()
}

fn step(words: &[&str]) -> Option<Step> {
    let (&name, rest) = words.split_first()?;
    match name {
        "switch" => numbers(rest).map(|[a, to]: [u8; 2]| Step::Switch(a.into(), to.into())),
        "call" => {
            let [a, fields @ ..] = numbers::<4>(rest)?;
            Some(Step::Call(a.into(), object(fields)?))
        }
        "plant" => stepped_line(rest).map(|(a, line)| Step::Plant(a, line)),
        "follow" => stepped_line(rest).map(|(v, line)| Step::Follow(v, line)),
        _ => {
            let (first, fields) = rest.split_first()?;
            let a = decimal(first)?.into();
            match granted_or_joined(name, fields)? {
                Action::Grant(record) => Some(Step::Grant(a, record)),
                Action::Join(record) => Some(Step::Join(a, record)),
                Action::Call(_) => None,
            }
        }
    }
}

fn stepped_line(words: &[&str]) -> Option<(usize, Line)> {
    let [a, fields @ .., runner] = numbers::<5>(words.get(..5)?)?;
    let runner = (runner != calls::CALLER).then_some(runner.into());
    let (&name, rest) = words[5..].split_first()?;
    let action = match name {
        "call" => Action::Call(object(numbers(rest)?)?),
        _ => granted_or_joined(name, rest)?,
    };
    Some((a.into(), Line { object: object(fields)?, runner, action }))
}

fn granted_or_joined(name: &str, fields: &[&str]) -> Option<Action> {
    match name {
        "grant" => {
            let [principal, entity, right, option] = numbers::<4>(fields)?;
            let listed = right <= 6 && option <= 1;
            listed.then(|| Action::Grant((principal.into(), entity.into(), right.into(), option == 1)))
        }
        "join" => numbers(fields).map(|[member, role]: [u8; 2]| Action::Join((member.into(), role.into()))),
        _ => None,
    }
}

fn object([kind, entity, right]: [u8; 3]) -> Option<Object> {
    let listed = match kind {
        0 | 2 => right == 0,
        1 => (1..=3).contains(&right),
        _ => false,
    };
    listed.then(|| (kind, entity.into(), right.into()))
}
