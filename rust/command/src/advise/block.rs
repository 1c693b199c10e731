//! Advice on a block.

use super::{asked, before_fences, chosen, clear_fences, own_fences, Advised, Finding};
use crate::arguments::Options;
use crate::case::Case;
use crate::error::Error;
use crate::fencing::{gaps, place_words, with_fences, FULL};
use crate::record::MOST_EVENTS;
use crate::source::Source;
use cogthunder::Table;

pub fn advised(source: &Source, table: &Table, options: &Options) -> Result<Advised, Error> {
    let is_own = own_fences(clear_fences(table).len(), options)?;
    let behind = if is_own {
        Vec::new()
    } else {
        chosen(gaps(table).into_iter().map(|gap| (gap.0, gap)).collect(), &options.between)?
    };
    if usize::from(table.count) + behind.len() > MOST_EVENTS {
        let sentence = "with a fence in each place the test has more than thirty events (--between A,B chooses)";
        return Err(Error::new(sentence));
    }
    let opened = with_fences(table, &behind, 0);
    let fences = clear_fences(&opened);
    let number = |event: u8| if is_own { event } else { before_fences(&fences, event) };
    let place = |fence: u8| fences.iter().position(|&other| other == fence).expect("it is one of them");
    let case = Case::of_table(opened.clone());
    let places = fences.iter().map(|&fence| place_words(&case, fence, &number, true)).collect();
    let finding = asked(&opened, options, &place)?;
    let mended = match &finding {
        Finding::Forbidden(set) if is_own => {
            let mut mended = table.clone();
            set.iter().for_each(|&place| mended.fill_fence(fences[place]));
            Some(mended)
        }
        Finding::Forbidden(set) => {
            let behind: Vec<u8> = set.iter().map(|&place| behind[place]).collect();
            Some(with_fences(table, &behind, FULL))
        }
        _ => None,
    };
    let mended = mended.map(|table| table.test().map_err(Error::declined)).transpose()?;
    Ok(Advised { name: source.name.clone(), places, finding, mended })
}
