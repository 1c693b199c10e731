//! The command `walks`: one line for each search call of a stream.

use crate::candidates::{buffer_part, LEND};
use crate::search::{Answer, Engine};
use crate::stream::{Malformed, Stream, PREFILL};
use crate::text_test::{search_text, TextRefusal};

/// Tags of the calls of the first engine: a search from a given start, and the next search of
/// the walk.
pub const SEARCH: u8 = b'S';
pub const WALK: u8 = b'W';

/// Those of the second engine.
pub const PRUNED_SEARCH: u8 = b's';
pub const PRUNED_WALK: u8 = b'w';

fn engine_of(tag: u8) -> Result<Engine, Malformed> {
    match tag {
        SEARCH | WALK => Ok(Engine::First),
        PRUNED_SEARCH | PRUNED_WALK => Ok(Engine::Second),
        _ => Err(Malformed),
    }
}

/// What searches are given: a block, for one of the engines, or a text.
#[derive(Clone, Copy, PartialEq, Eq, Debug)]
pub enum Given {
    Block(Engine),
    Text,
}

impl Given {
    pub fn search(
        self,
        test: &[u8],
        start: &[u8],
        buffer: &mut [u8],
        allowance: u64,
    ) -> Result<Answer, TextRefusal> {
        match self {
            Given::Block(engine) => Ok(engine.search(test, start, buffer, allowance)?),
            Given::Text => search_text(test, start, buffer, allowance),
        }
    }
}

/// "A walk is a list of search calls, all given the same table bytes. The first start is
/// empty." And "a walk keeps to one engine".
pub struct Walk {
    given: Given,
    start: Vec<u8>,
}

impl Walk {
    pub fn over(given: Given) -> Walk {
        Walk { given, start: Vec::new() }
    }

    pub fn by(engine: Engine) -> Walk {
        Walk::over(Given::Block(engine))
    }

    /// "After found, the next start is the order written; after spent, the prefix written, at
    /// the length answered; after none left or a refusal, the start which that call was
    /// given."
    pub fn call(
        &mut self,
        test: &[u8],
        buffer: &mut [u8],
        allowance: u64,
    ) -> Result<Answer, TextRefusal> {
        let answer = self.given.search(test, &self.start, buffer, allowance);
        if let Ok(Answer::Found { order: list, .. } | Answer::Spent { prefix: list, .. }) = &answer
        {
            self.start = buffer[..list.len()].to_vec();
        }
        answer
    }
}

pub fn print_walks(input: &[u8]) -> Result<String, Malformed> {
    let mut stream = Stream::new(input);
    let mut block: &[u8] = &[];
    let mut walk = None;
    let mut lines = String::new();
    let mut number = 0;
    while !stream.is_empty() {
        let tag = stream.byte()?;
        if tag == LEND {
            block = stream.frame()?;
            walk = None;
            continue;
        }
        let given = Given::Block(engine_of(tag)?);
        let answer = if matches!(tag, SEARCH | PRUNED_SEARCH) {
            single_part(&mut stream, given, block)?
        } else {
            let walk = walk.get_or_insert_with(|| Walk::over(given));
            if walk.given != given {
                return Err(Malformed);
            }
            walk_part(&mut stream, walk, block)?
        };
        lines.push_str(&format!("{number}: {answer}\n"));
        number += 1;
    }
    Ok(lines)
}

/// What a search from a given start answers, and the buffer after it.
pub fn single_part(stream: &mut Stream, given: Given, test: &[u8]) -> Result<String, Malformed> {
    let start = stream.list()?;
    let mut buffer = vec![PREFILL; stream.byte()?.into()];
    let answer = given.search(test, start, &mut buffer, stream.number()?);
    Ok(format!("{}, {}", part(&answer), buffer_part(&buffer)))
}

/// The same of the walk's next search.
pub fn walk_part(stream: &mut Stream, walk: &mut Walk, test: &[u8]) -> Result<String, Malformed> {
    let mut buffer = vec![PREFILL; stream.byte()?.into()];
    let answer = walk.call(test, &mut buffer, stream.number()?);
    Ok(format!("{}, {}", part(&answer), buffer_part(&buffer)))
}

fn part(answer: &Result<Answer, TextRefusal>) -> String {
    match answer {
        Err(refusal) => refusal.to_string(),
        Ok(Answer::Found { visited, order }) => {
            format!("found, {visited} visited, length {}", order.len())
        }
        Ok(Answer::NoneLeft { visited }) => format!("none left, {visited} visited"),
        Ok(Answer::Spent { visited, prefix }) => {
            format!("spent, {visited} visited, length {}", prefix.len())
        }
    }
}
