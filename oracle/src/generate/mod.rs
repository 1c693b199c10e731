//! Deterministic generators: of the stored streams, and of what they are made of.

pub mod advice_calls;
pub mod advice_tables;
pub mod amo_texts;
pub mod breaches;
pub mod calls;
pub mod candidates;
pub mod cases;
pub mod chains;
pub mod corner_texts;
pub mod damage;
pub mod decide_calls;
pub mod decided;
pub mod edition_two;
pub mod kinds;
pub mod machine_tables;
pub mod models;
pub mod operations;
pub mod orders;
pub mod outcome_calls;
pub mod outcome_tables;
pub mod prng;
pub mod random;
pub mod readings;
pub mod runs;
pub mod suites;
pub mod text_calls;
pub mod text_cases;
pub mod texts;
pub mod unused;
pub mod walks;
pub mod writes;

#[cfg(test)]
mod tests {
    use crate::candidates::{LEND, RETURNED, RULES, VERDICT};
    use crate::operation::Operation;
    use crate::stream::{Malformed, Stream};
    use crate::table::{read, Event, Kind, RELEASE_RCPC, RELEASE_RCSC};
    use crate::walks::{PRUNED_SEARCH, PRUNED_WALK, SEARCH, WALK};

    /// The blocks that a stream of calls lends.
    fn lent(bytes: &[u8]) -> Result<Vec<&[u8]>, Malformed> {
        let mut stream = Stream::new(bytes);
        let mut blocks = Vec::new();
        while !stream.is_empty() {
            match stream.byte()? {
                LEND => blocks.push(stream.frame()?),
                VERDICT => drop((stream.list()?, stream.list()?)),
                RETURNED => drop((stream.list()?, stream.byte()?)),
                RULES => drop((stream.list()?, stream.number()?, stream.number()?)),
                SEARCH | PRUNED_SEARCH => drop((stream.list()?, stream.byte()?, stream.number()?)),
                WALK | PRUNED_WALK => drop((stream.byte()?, stream.number()?)),
                _ => return Err(Malformed),
            }
        }
        Ok(blocks)
    }

    fn frames(bytes: &[u8]) -> Result<Vec<&[u8]>, Malformed> {
        let mut stream = Stream::new(bytes);
        let mut blocks = Vec::new();
        while !stream.is_empty() {
            blocks.push(stream.frame()?);
        }
        Ok(blocks)
    }

    /// How many good blocks have an AMO that is as asked.
    fn with_amo(blocks: &[&[u8]], is_asked: impl Fn(&Event) -> bool) -> usize {
        let tables = blocks.iter().filter_map(|block| read(block).ok());
        tables.filter(|t| t.events.iter().any(|e| e.kind == Kind::Amo && is_asked(e))).count()
    }

    #[test]
    fn each_stream_has_amos_with_either_release_alone_and_with_each_operation() {
        let readings = super::readings::make_readings();
        let candidates = super::candidates::make_candidates().stream;
        let walks = super::walks::make_walks();
        let streams = [
            frames(&readings).expect("the stream is whole"),
            lent(&candidates).expect("the stream is whole"),
            lent(&walks).expect("the stream is whole"),
        ];
        for blocks in streams {
            for release in [RELEASE_RCPC, RELEASE_RCSC] {
                assert!(with_amo(&blocks, |amo| amo.flags == release) >= 4);
            }
            for operation in Operation::SOME {
                assert!(with_amo(&blocks, |amo| amo.operation == operation) >= 4);
            }
        }
    }
}
