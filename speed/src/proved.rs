//! The proved searches, decision, outcomes, advice and reading, by their signatures for C.

use crate::advice::Advice;
use crate::decide::Decision;
use crate::listing::Listing;
use crate::plain::Answer;
use crate::reading::Refusal;
use crate::text::Refused;

#[link(name = "capi", kind = "static")]
extern "C" {
    fn ct_read(test: *const u8, test_len: usize) -> u64;

    fn ct_search(
        block: *const u8,
        block_len: usize,
        start: *const u8,
        start_len: usize,
        out: *mut u8,
        out_len: usize,
        allowance: u64,
    ) -> u64;

    fn ct_search_pruned(
        block: *const u8,
        block_len: usize,
        start: *const u8,
        start_len: usize,
        out: *mut u8,
        out_len: usize,
        allowance: u64,
    ) -> u64;

    fn ct_decide(
        test: *const u8,
        test_len: usize,
        start: *const u8,
        start_len: usize,
        out: *mut u8,
        out_len: usize,
    ) -> u64;

    fn ct_outcomes(
        block: *const u8,
        block_len: usize,
        previous: *const u16,
        previous_len: usize,
        out: *mut u16,
        out_len: usize,
        allowance: u64,
    ) -> u64;

    fn ct_advise(block: *const u8, block_len: usize, allowance: u64) -> u64;

    fn ct_read_text(text: *const u8, text_len: usize) -> u64;

    fn ct_search_text(
        text: *const u8,
        text_len: usize,
        start: *const u8,
        start_len: usize,
        out: *mut u8,
        out_len: usize,
        allowance: u64,
    ) -> u64;
}

/// One of the searches.
type Search = unsafe extern "C" fn(*const u8, usize, *const u8, usize, *mut u8, usize, u64) -> u64;

const REFUSED: u8 = 1;
const FOUND: u8 = 7;
const NONE_LEFT: u8 = 8;
const SPENT: u8 = 9;
const ADVISED: u8 = 11;
const UNDECIDED: u8 = 12;
const NO_HELP: u8 = 13;

/// In the place of a record where a refusal names none.
const NO_RECORD: u8 = 255;

/// The refusals of a text that have a place, in the high half of the word.
const WITH_PLACE: [u8; 2] = [19, 20];

fn refused(line: u8, record: u8) -> Refusal {
    Refusal { line, record: Some(record).filter(|&k| k != NO_RECORD).map(usize::from) }
}

/// Why a test of either edition is refused.
pub fn refusal(test: &[u8]) -> Option<Refusal> {
    // The pointer is that of a slice, beside its length.
    let word = unsafe { ct_read(test.as_ptr(), test.len()) };
    let [case, line, record, ..] = word.to_le_bytes();
    (case == REFUSED).then(|| refused(line, record))
}

/// Advice on a block.
pub fn advise(block: &[u8], allowance: u64) -> Result<Advice, Refusal> {
    // The pointer is that of a slice, beside its length.
    let word = unsafe { ct_advise(block.as_ptr(), block.len(), allowance) };
    let [case, first, second, ..] = word.to_le_bytes();
    let mask = high_half(word) as u32;
    match case {
        ADVISED => Ok(Advice::Advised(mask)),
        UNDECIDED => Ok(Advice::Undecided(mask)),
        NO_HELP => Ok(Advice::NoHelp),
        _ => Err(refused(first, second)),
    }
}

/// Bytes 4 to 7 of a word.
fn high_half(word: u64) -> u64 {
    word >> u32::BITS
}

fn answer(word: u64) -> Result<Answer, Refusal> {
    let [case, first, second, ..] = word.to_le_bytes();
    let (len, visited) = (usize::from(first), high_half(word));
    match case {
        FOUND => Ok(Answer::Found { len, visited }),
        NONE_LEFT => Ok(Answer::NoneLeft { visited }),
        SPENT => Ok(Answer::Spent { len, visited }),
        _ => Err(refused(first, second)),
    }
}

/// The word that one of the searches gives.
fn searched(search: Search, test: &[u8], start: &[u8], out: &mut [u8], allowance: u64) -> u64 {
    // Each pointer is that of a slice, beside its length.
    unsafe { search(test.as_ptr(), test.len(), start.as_ptr(), start.len(), out.as_mut_ptr(), out.len(), allowance) }
}

/// The first engine's call on a block.
pub fn search(block: &[u8], start: &[u8], out: &mut [u8], allowance: u64) -> Result<Answer, Refusal> {
    answer(searched(ct_search, block, start, out, allowance))
}

/// The second engine's.
pub fn search_pruned(block: &[u8], start: &[u8], out: &mut [u8], allowance: u64) -> Result<Answer, Refusal> {
    answer(searched(ct_search_pruned, block, start, out, allowance))
}

/// The decision on a test of either edition.
pub fn decide(test: &[u8], start: &[u8], out: &mut [u8]) -> Result<Decision, Refusal> {
    // Each pointer is that of a slice, beside its length.
    let word =
        unsafe { ct_decide(test.as_ptr(), test.len(), start.as_ptr(), start.len(), out.as_mut_ptr(), out.len()) };
    let [case, first, second, ..] = word.to_le_bytes();
    match case {
        FOUND => Ok(Decision::Found { len: first.into() }),
        NONE_LEFT => Ok(Decision::NoneLeft),
        _ => Err(refused(first, second)),
    }
}

/// The next outcomes of a block.
pub fn outcomes(block: &[u8], previous: &[u16], out: &mut [u16], allowance: u64) -> Result<Listing, Refusal> {
    // Each pointer is that of a slice, beside its length.
    let word = unsafe {
        ct_outcomes(
            block.as_ptr(),
            block.len(),
            previous.as_ptr(),
            previous.len(),
            out.as_mut_ptr(),
            out.len(),
            allowance,
        )
    };
    let [case, first, second, ..] = word.to_le_bytes();
    match case {
        FOUND => Ok(Listing::Listed { outcomes: high_half(word) as usize, values: first.into() }),
        NONE_LEFT => Ok(Listing::NoneLeft),
        SPENT => Ok(Listing::Spent),
        _ => Err(refused(first, second)),
    }
}

fn refused_text(word: u64) -> Refused {
    let [_, line, record, ..] = word.to_le_bytes();
    match WITH_PLACE.contains(&line) {
        true => Refused::At { line, place: high_half(word) as usize },
        false => Refused::By(refused(line, record)),
    }
}

/// Why a text is refused.
pub fn text_refusal(text: &[u8]) -> Option<Refused> {
    // The pointer is that of a slice, beside its length.
    let word = unsafe { ct_read_text(text.as_ptr(), text.len()) };
    (word as u8 == REFUSED).then(|| refused_text(word))
}

/// A text's search.
pub fn search_text(text: &[u8], start: &[u8], out: &mut [u8], allowance: u64) -> Result<Answer, Refused> {
    let word = searched(ct_search_text, text, start, out, allowance);
    answer(word).map_err(|_| refused_text(word))
}
