//! Why an outcome is forbidden: for each way a chain of events that has to come before itself, or an LR and SC that are parted.

use crate::case::Case;
use crate::error::Error;
use crate::graph::{Edge, Graph, Parted};
use crate::source::Source;
use crate::ways::{Way, Ways};

/// With more ways, only their number is told.
pub const MOST_WAYS: u128 = 64;

/// What a way breaks.
#[derive(Clone, PartialEq, Eq, Debug)]
pub enum Broken {
    /// Edges that end where they begin.
    Chain(Vec<Edge>),
    Pair(Parted),
    /// Nothing gives an event the value that its table states.
    NoSource(u8),
    /// No write leaves a location at the value that its table states.
    NoEnd(u8),
}

/// What some ways break.
pub struct Reason {
    pub broken: Broken,
    /// The table of the first of these ways.
    pub case: Case,
    /// Each way with its table; none if the table has no way at all.
    pub ways: Vec<(Case, Way)>,
}

/// What is found about a forbidden outcome.
pub enum Reasons {
    Few(Vec<Reason>),
    /// The number of ways, which is over [`MOST_WAYS`].
    Many(u128),
    /// Why they can't be counted.
    Uncounted(String),
}

/// The reasons of a test that the library says is forbidden.
pub fn of(source: &Source) -> Result<Reasons, Error> {
    let (mut count, mut found, mut added) = (0u128, Vec::new(), Ok(()));
    let visited = source.visit(&mut |case| {
        let ways = Ways::of(&case);
        count = count.saturating_add(ways.count());
        if count <= MOST_WAYS {
            added = add(&mut found, &case, &ways);
        }
        Ok(added.is_ok())
    });
    added?;
    Ok(match visited {
        Err(error) => Reasons::Uncounted(error.sentence),
        Ok(()) if count > MOST_WAYS => Reasons::Many(count),
        Ok(()) => Reasons::Few(found),
    })
}

/// Adds the reasons of one table.
fn add(found: &mut Vec<Reason>, case: &Case, ways: &Ways) -> Result<(), Error> {
    let none = ways.unsupplied().map(|event| Broken::NoSource(event as u8));
    if let Some(broken) = none.or(ways.unreached().map(|location| Broken::NoEnd(location as u8))) {
        if !found.iter().any(|reason| reason.broken == broken) {
            found.push(Reason { broken, case: case.clone(), ways: Vec::new() });
        }
        return Ok(());
    }
    for way in ways.all() {
        let broken = of_way(case, &way, found)?.ok_or_else(|| contradiction(case, &way))?;
        let known = found.iter_mut().find(|reason| reason.broken == broken && same_events(case, reason));
        match known {
            Some(reason) => reason.ways.push((case.clone(), way)),
            None => found.push(Reason { broken, case: case.clone(), ways: vec![(case.clone(), way)] }),
        }
    }
    Ok(())
}

fn contradiction(case: &Case, way: &Way) -> Error {
    let locations = case.locations.join(" ");
    Error::new(format!(
        "internal error: the library forbids the outcome, and nothing forbids the returns {:?} with the writes of {locations} \
         in the orders {:?}",
        way.returned, way.orders
    ))
}

/// What a way breaks, if anything: where it can, something that another way breaks too.
pub fn of_way(case: &Case, way: &Way, found: &[Reason]) -> Result<Option<Broken>, Error> {
    let graph = Graph::of(case, way)
        .map_err(|refusal| Error::new(format!("internal error: the library declines a way, {refusal}")))?;
    let Some(chain) = graph.cycle() else { return Ok(graph.parted().map(Broken::Pair)) };
    let is_shared = |reason: &&Reason| match &reason.broken {
        Broken::Chain(known) => {
            known.len() == chain.len() && known.iter().all(|edge| graph.has(edge)) && same_events(case, reason)
        }
        _ => false,
    };
    let shared = found.iter().find(is_shared).map(|reason| reason.broken.clone());
    Ok(Some(shared.unwrap_or(Broken::Chain(chain))))
}

/// Whether a reason says the same of another table: the events that it names are the same there.
fn same_events(case: &Case, reason: &Reason) -> bool {
    let is_same = |&event: &u8| {
        let event = usize::from(event);
        event < case.texts.len()
            && case.texts[event] == reason.case.texts[event]
            && case.table.events[event] == reason.case.table.events[event]
    };
    events(&reason.broken).iter().all(is_same)
}

/// The events that a reason names.
fn events(broken: &Broken) -> Vec<u8> {
    match broken {
        Broken::Chain(edges) => edges.iter().map(|edge| edge.from).collect(),
        Broken::Pair(parted) => vec![parted.lr, parted.sc, parted.writer],
        Broken::NoSource(event) => vec![*event],
        Broken::NoEnd(_) => Vec::new(),
    }
}

#[cfg(test)]
mod tests {
    use super::*;
    use crate::arguments::Model;
    use crate::decider::{Verdict, MOST_VISITED};
    use crate::progress::Progress;
    use crate::random::{table, Numbers};
    use crate::source::{only, Kind};

    /// More ways than this aren't gone through in a test.
    const MOST_TRIED: u128 = 1_000;

    /// Whether some way breaks nothing; None if there are too many.
    fn has_free_way(source: &Source) -> Option<bool> {
        let (mut count, mut is_free) = (0, false);
        source
            .visit(&mut |case| {
                let ways = Ways::of(&case);
                count += ways.count();
                if count <= MOST_TRIED {
                    is_free |= ways.all().iter().any(|way| of_way(&case, way, &[]).unwrap().is_none());
                }
                Ok(count <= MOST_TRIED)
            })
            .unwrap();
        (count <= MOST_TRIED).then_some(is_free)
    }

    fn is_allowed(source: &Source) -> bool {
        source.decide(MOST_VISITED, &mut Progress::new()).unwrap().verdict == Verdict::Allowed
    }

    fn files(folder: &str) -> Vec<String> {
        let folder = std::path::Path::new(env!("CARGO_MANIFEST_DIR")).join("../../samples").join(folder);
        let files = std::fs::read_dir(folder).unwrap().map(|entry| entry.unwrap().path());
        files.filter(|file| file.is_file()).map(|file| file.to_str().unwrap().to_string()).collect()
    }

    /// The litmus samples in both models, and the texts.
    fn samples() -> Vec<(String, Option<Model>)> {
        let models = [Some(Model::Rvwmo), Some(Model::Rvtso)];
        let litmus = files("litmus").into_iter().flat_map(|file| models.map(|model| (file.clone(), model)));
        litmus.chain(files("text").into_iter().map(|file| (file, None))).collect()
    }

    #[test]
    fn a_sample_is_allowed_exactly_if_some_way_breaks_nothing() {
        let mut seen = 0;
        for (file, model) in samples() {
            let source = only(&file, model).unwrap();
            if let Some(is_free) = has_free_way(&source) {
                assert_eq!(is_free, is_allowed(&source), "{file} in {model:?}");
                seen += 1;
            }
            if !is_allowed(&source) {
                assert!(of(&source).is_ok(), "{file}");
            }
        }
        assert!(seen >= 160, "{seen}");
    }

    #[test]
    fn a_random_table_is_allowed_exactly_if_some_way_breaks_nothing() {
        let (mut numbers, mut seen) = (Numbers(29), [0, 0]);
        for round in 0..2_000 {
            let mut table = table(&mut numbers);
            if round % 2 == 1 {
                table.tso();
            }
            let source = Source { name: "a".to_string(), kind: Kind::Block(Box::new(table.clone())) };
            if let Some(is_free) = has_free_way(&source) {
                assert_eq!(is_free, is_allowed(&source), "{table:?}");
                seen[usize::from(is_free)] += 1;
            }
        }
        assert!(seen.iter().all(|&count| count > 50), "{seen:?}");
    }
}
