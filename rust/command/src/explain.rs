//! The subcommand `explain`: why an outcome is allowed or forbidden, in words.

use crate::arguments::Options;
use crate::case::Case;
use crate::decider::{Decision, Verdict, Witness};
use crate::error::Error;
use crate::graph::{is_forwarded, way_of, Edge, Parted, Why};
use crate::output::Output;
use crate::picture::values_read_and_written as values;
use crate::progress::Progress;
use crate::reasons::{self, Broken, Reasons, MOST_WAYS};
use crate::show;
use crate::source::{each, Source};
use crate::ways::Way;
use crate::Status;
use cogthunder::{rules, INITIALLY, NOTHING};

/// Explains the test of each file.
pub fn run(options: &Options, out: &mut Output) -> Result<Status, String> {
    each(options, |source| lines(source, options), |lines| out.lines(&lines))
}

fn lines(source: &Source, options: &Options) -> Result<Vec<String>, Error> {
    let decision = source.decide(options.visit, &mut Progress::new())?;
    let mut lines = show::head(source, &decision);
    lines.extend(why(source, &decision)?);
    Ok(lines)
}

/// The lines behind the verdict.
pub fn why(source: &Source, decision: &Decision) -> Result<Vec<String>, Error> {
    match (decision.verdict, &decision.witness) {
        (Verdict::Allowed, Some(witness)) => allowed(witness),
        (Verdict::Forbidden, _) => forbidden(source),
        _ => Ok(Vec::new()),
    }
}

/// A witness in words, and what no rule keeps in program order.
fn allowed(witness: &Witness) -> Result<Vec<String>, Error> {
    let (case, order) = (&witness.case, &witness.order);
    let way = way_of(case, order, &witness.returned);
    if let Some(broken) = reasons::of_way(case, &way, &[])? {
        return Err(Error::new(format!(
            "internal error: the library gives the order {order:?}, which breaks {broken:?}"
        )));
    }
    let mut lines = vec!["because the global memory order can be, first to last:".to_string()];
    lines.extend(order.iter().map(|&event| format!("  {}", step(witness, event))));
    let turned = turned(witness)?;
    if !turned.is_empty() {
        lines.push("program order has these the other way round, and no rule preserves that:".to_string());
        lines.extend(turned);
    }
    Ok(lines)
}

/// What happens at one place of the order.
fn step(witness: &Witness, number: u8) -> String {
    let (case, event) = (&witness.case, &witness.case.table.events[usize::from(number)]);
    let (read, written) = values(case, event);
    let from = match witness.returned[usize::from(number)] {
        NOTHING => String::new(),
        INITIALLY => ", the initial value".to_string(),
        writer if is_forwarded(case, &witness.order, &witness.returned, number) => {
            format!(", forwarded from ({writer}) of its own hart, which comes later")
        }
        writer => format!(", which ({writer}) has written"),
    };
    let read = read.map(|read| format!("reads {read}{from}"));
    let written = written.map(|written| format!("writes {written}"));
    let parts: Vec<String> = read.into_iter().chain(written).collect();
    format!("({number}) P{} {}", event.hart, parts.join(", and "))
}

/// The pairs of a hart that the order has the other way round than program order.
fn turned(witness: &Witness) -> Result<Vec<String>, Error> {
    let test = witness.case.table.test().map_err(Error::declined_witness)?;
    let hart = |event: u8| witness.case.table.events[usize::from(event)].hart;
    let mut lines = Vec::new();
    for (place, &first) in witness.order.iter().enumerate() {
        for &later in witness.order[place + 1..].iter().filter(|&&later| later < first && hart(later) == hart(first)) {
            let rules = rules(&test, &witness.returned, later.into(), first.into()).map_err(Error::declined_witness)?;
            if !rules.is_empty() {
                return Err(Error::new(format!("internal error: a witness breaks {rules} at ({later}) and ({first})")));
            }
            lines.push(format!("  ({first}) before ({later})"));
        }
    }
    Ok(lines)
}

fn forbidden(source: &Source) -> Result<Vec<String>, Error> {
    let reasons = match reasons::of(source)? {
        Reasons::Few(reasons) => reasons,
        Reasons::Many(count) => {
            return Ok(vec![format!(
                "the loads could get their values, and the writes be ordered, in {count} ways; more than {MOST_WAYS} \
                 aren't explained"
            )])
        }
        Reasons::Uncounted(sentence) => return Ok(vec![format!("it isn't explained: {sentence}")]),
    };
    let all: Vec<&(Case, Way)> = reasons.iter().flat_map(|reason| &reason.ways).collect();
    let always = if all.len() == 1 { Vec::new() } else { common(all.iter().copied()) };
    let mut lines = vec![match all.len() {
        0 => "because there is no way in which the loads could get their values".to_string(),
        1 => "there is one way in which the loads could get their values and the writes be ordered".to_string(),
        count => format!("there are {count} ways in which the loads could get their values and the writes be ordered"),
    }];
    if !always.is_empty() {
        lines.push(format!("in all of them {}", always.join(", ")));
    }
    for reason in &reasons {
        lines.push(String::new());
        let parts = common(reason.ways.iter()).into_iter().filter(|part| !always.contains(part));
        let parts: Vec<String> = parts.collect();
        lines.extend(heading(reason.ways.len(), all.len(), &parts));
        lines.extend(broken_words(&reason.case, &reason.broken));
    }
    Ok(lines)
}

/// Of which ways a reason is: what they share, and other ways don't.
fn heading(count: usize, all: usize, parts: &[String]) -> Option<String> {
    let parts = parts.join(", ");
    match count {
        0 => None,
        1 if all == 1 => Some(if parts.is_empty() { "it can't be:".to_string() } else { format!("where {parts}:") }),
        _ if count == all => Some("none of them can be:".to_string()),
        _ => Some(format!("in {count} of them {parts}:")),
    }
}

/// What all of these ways have.
fn common<'a>(mut ways: impl Iterator<Item = &'a (Case, Way)>) -> Vec<String> {
    let Some((case, way)) = ways.next() else { return Vec::new() };
    let first = way_parts(case, way);
    ways.fold(first, |mut parts, (case, way)| {
        let others = way_parts(case, way);
        parts.retain(|part| others.contains(part));
        parts
    })
}

/// What each reader returns from, and the orders of writes where there are several.
fn way_parts(case: &Case, way: &Way) -> Vec<String> {
    let mut parts = Vec::new();
    for (number, &returned) in way.returned.iter().enumerate() {
        let Some(read) = values(case, &case.table.events[number]).0 else { continue };
        parts.push(match returned {
            INITIALLY => format!("({number}) reads {read} initially"),
            writer => format!("({number}) reads {read} from ({writer})"),
        });
    }
    for (name, order) in case.locations.iter().zip(&way.orders).filter(|(_, order)| order.len() > 1) {
        let order: Vec<String> = order.iter().map(|event| format!("({event})")).collect();
        parts.push(format!("{name} is written by {}", order.join(" then ")));
    }
    parts
}

fn broken_words(case: &Case, broken: &Broken) -> Vec<String> {
    let value = |number: u8| values(case, &case.table.events[usize::from(number)]).0.unwrap_or_default();
    match broken {
        Broken::Chain(edges) => {
            let mut lines: Vec<String> = edges.iter().map(|edge| format!("  {}", edge_words(case, edge))).collect();
            let first = edges.first().map_or(0, |edge| edge.from);
            lines.push(format!("  so ({first}) would have to come before itself"));
            lines
        }
        Broken::Pair(parted) => vec![format!("  {}", pair_words(parted))],
        Broken::NoSource(event) => vec![format!("  nothing gives ({event}) its value {}", value(*event))],
        Broken::NoEnd(location) => {
            let location = usize::from(*location);
            let (name, value) = (&case.locations[location], case.table.finals[location]);
            vec![format!("  no write leaves {name}={value}")]
        }
    }
}

fn pair_words(parted: &Parted) -> String {
    let Parted { lr, sc, writer, is_late } = parted;
    if *is_late {
        return format!("the LR ({lr}) returns from ({writer}), which has to come before its SC ({sc}), and doesn't");
    }
    format!("the LR ({lr}) and its SC ({sc}) are parted: ({writer}) of another hart writes between them")
}

/// An edge with its reason.
pub fn edge_words(case: &Case, edge: &Edge) -> String {
    let Edge { from, to, why } = edge;
    let parts = |event: u8| {
        let (read, written) = values(case, &case.table.events[usize::from(event)]);
        (read.unwrap_or_default(), written.unwrap_or_default())
    };
    let why = match why {
        Why::Preserved(rules) => format!("ppo: {rules}"),
        Why::ReadsFrom => format!("rf: ({to}) reads {}, which ({from}) writes", parts(*to).0),
        Why::FromRead => format!("fr: ({from}) reads {}, which ({to}) overwrites by {}", parts(*from).0, parts(*to).1),
        Why::Coherence => format!("co: ({from}) writes {}, and ({to}) then {}", parts(*from).1, parts(*to).1),
        Why::OwnWrite => format!("po: ({to}) reads behind ({from}), a write of its own hart to the same location"),
    };
    format!("({from}) before ({to})  {why}")
}
