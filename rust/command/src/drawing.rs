//! What a picture of a test shows: its events, and the edges of a witness or of a chain that forbids the outcome.

use crate::case::Case;
use crate::decider::{Decision, Verdict, Witness};
use crate::error::Error;
use crate::graph::{way_of, Edge, Graph, Parted, Why};
use crate::picture::{self, values_read_and_written as values};
use crate::reasons::{self, Broken, Reason, Reasons};
use crate::source::Source;
use crate::ways::Way;
use crate::{decide, show};
use cogthunder::{rules, Rules, INITIALLY};

/// The kinds of edges that are drawn.
#[derive(Clone, Copy, PartialEq, Eq, PartialOrd, Ord, Debug)]
pub enum Kind {
    ProgramOrder,
    Preserved,
    ReadsFrom,
    FromRead,
    Coherence,
}

impl Kind {
    pub const ALL: [Kind; 5] = [Kind::ProgramOrder, Kind::Preserved, Kind::ReadsFrom, Kind::FromRead, Kind::Coherence];

    pub fn name(self) -> &'static str {
        match self {
            Kind::ProgramOrder => "po",
            Kind::Preserved => "ppo",
            Kind::ReadsFrom => "rf",
            Kind::FromRead => "fr",
            Kind::Coherence => "co",
        }
    }

    /// What the legend says.
    pub fn words(self) -> &'static str {
        match self {
            Kind::ProgramOrder => "program order",
            Kind::Preserved => "preserved program order, with its rules",
            Kind::ReadsFrom => "reads-from, with the value",
            Kind::FromRead => "from-read, with the value that overwrites",
            Kind::Coherence => "coherence, with the value that overwrites",
        }
    }
}

/// An edge with its label.
#[derive(Clone, PartialEq, Eq, Debug)]
pub struct Arrow {
    pub from: u8,
    pub to: u8,
    pub kind: Kind,
    pub label: String,
}

/// A picture before it is laid out.
pub struct Drawing {
    pub title: String,
    pub case: Case,
    pub arrows: Vec<Arrow>,
    /// Lines below the events.
    pub captions: Vec<String>,
}

/// The picture of a test that was decided.
pub fn of(source: &Source, decision: &Decision) -> Result<Drawing, Error> {
    let verdict = decide::words(source, decision, source.expected());
    let model = decision.first.as_ref().and_then(picture::model_line);
    let mut captions: Vec<String> = [model, show::question(source), Some(verdict)].into_iter().flatten().collect();
    let title = source.name.clone();
    if let Some(witness) = &decision.witness {
        captions.push(format!("global memory order: {}", numbers(&witness.order)));
        let arrows = of_witness(witness)?;
        return Ok(Drawing { title, case: witness.case.clone(), arrows, captions });
    }
    let mut case =
        decision.first.clone().ok_or(Error::new("no values of the test meet the condition: nothing to draw"))?;
    let mut arrows = Vec::new();
    if decision.verdict == Verdict::Forbidden {
        match reasons::of(source)? {
            Reasons::Many(count) => captions.push(format!("{count} ways: too many to draw one")),
            Reasons::Uncounted(sentence) => captions.push(sentence),
            Reasons::Few(reasons) => {
                if let Some(reason) = longest(&reasons) {
                    captions.push(told(&reasons, reason));
                    (case, arrows) = (reason.case.clone(), of_reason(reason)?);
                }
            }
        }
    }
    Ok(Drawing { title, case, arrows, captions })
}

fn numbers(events: &[u8]) -> String {
    events.iter().map(|event| format!("({event})")).collect::<Vec<String>>().join(" ")
}

/// The reason with the longest chain says most.
fn longest(reasons: &[Reason]) -> Option<&Reason> {
    reasons.iter().max_by_key(|reason| match &reason.broken {
        Broken::Chain(edges) => edges.len(),
        Broken::Pair(_) => 2,
        Broken::NoSource(_) | Broken::NoEnd(_) => 0,
    })
}

fn told(reasons: &[Reason], reason: &Reason) -> String {
    let what = match &reason.broken {
        Broken::Chain(edges) => {
            let events: Vec<u8> =
                edges.iter().map(|edge| edge.from).chain(edges.first().map(|edge| edge.from)).collect();
            format!("can't all be: {}", numbers(&events))
        }
        Broken::Pair(parted) => format!("({}) parts the LR ({}) and its SC ({})", parted.writer, parted.lr, parted.sc),
        Broken::NoSource(event) => format!("nothing gives ({event}) its value"),
        Broken::NoEnd(location) => {
            format!("no write leaves {} at its value", reason.case.locations[usize::from(*location)])
        }
    };
    match reasons.len() {
        1 => what,
        count => format!("{what}; one of {count} reasons, which `explain` tells"),
    }
}

fn of_reason(reason: &Reason) -> Result<Vec<Arrow>, Error> {
    let case = &reason.case;
    match &reason.broken {
        Broken::Chain(edges) => Ok(edges.iter().map(|edge| arrow(case, edge)).collect()),
        Broken::Pair(parted) => Ok(pair(parted).iter().map(|edge| arrow(case, edge)).collect()),
        Broken::NoSource(_) | Broken::NoEnd(_) => Ok(Vec::new()),
    }
}

/// How a write parts an LR and its SC.
fn pair(parted: &Parted) -> [Edge; 2] {
    let Parted { lr, sc, writer, is_late } = *parted;
    if is_late {
        return [
            Edge { from: writer, to: lr, why: Why::ReadsFrom },
            Edge { from: sc, to: writer, why: Why::Coherence },
        ];
    }
    [Edge { from: lr, to: writer, why: Why::FromRead }, Edge { from: writer, to: sc, why: Why::Coherence }]
}

fn arrow(case: &Case, edge: &Edge) -> Arrow {
    let (read, written) = values(case, &case.table.events[usize::from(edge.to)]);
    let (read, written) = (read.unwrap_or_default(), written.unwrap_or_default());
    let (kind, label) = match edge.why {
        Why::Preserved(rules) => (Kind::Preserved, rules_label(rules)),
        Why::ReadsFrom => (Kind::ReadsFrom, format!("rf {read}")),
        Why::FromRead => (Kind::FromRead, format!("fr {written}")),
        Why::Coherence => (Kind::Coherence, format!("co {written}")),
        Why::OwnWrite => (Kind::Preserved, "po, one location".to_string()),
    };
    Arrow { from: edge.from, to: edge.to, kind, label }
}

fn rules_label(rules: Rules) -> String {
    format!("ppo {}", rules.iter().map(|rule| rule.to_string()).collect::<Vec<String>>().join(","))
}

/// The edges of a witness: each return, the next write behind it, the order of writes, and the preserved program order that
/// doesn't follow from the rest of it. What preserved program order has too isn't drawn twice.
fn of_witness(witness: &Witness) -> Result<Vec<Arrow>, Error> {
    let case = &witness.case;
    let way = way_of(case, &witness.order, &witness.returned);
    let graph = Graph::of(case, &way).map_err(Error::declined_witness)?;
    let mut others = of_reads(case, &way);
    for order in &way.orders {
        others.extend(order.windows(2).map(|pair| Edge { from: pair[0], to: pair[1], why: Why::Coherence }));
    }
    others.retain(|edge| edge.why == Why::ReadsFrom || !graph.is_preserved(edge.from, edge.to));
    let edges = [preserved(case, &way, &graph)?, others].concat();
    Ok(edges.iter().map(|edge| arrow(case, edge)).collect())
}

fn of_reads(case: &Case, way: &Way) -> Vec<Edge> {
    let mut edges = Vec::new();
    for reader in 0..case.table.count {
        let event = &case.table.events[usize::from(reader)];
        if values(case, event).0.is_none() {
            continue;
        }
        let (writer, order) = (way.returned[usize::from(reader)], &way.orders[usize::from(event.location)]);
        if writer != INITIALLY {
            edges.push(Edge { from: writer, to: reader, why: Why::ReadsFrom });
        }
        let next = order.iter().position(|&other| other == writer).map_or(0, |place| place + 1);
        if let Some(&to) = order.get(next).filter(|&&to| to != reader) {
            edges.push(Edge { from: reader, to, why: Why::FromRead });
        }
    }
    edges
}

/// Without what follows from two others.
fn preserved(case: &Case, way: &Way, graph: &Graph) -> Result<Vec<Edge>, Error> {
    let test = case.table.test().map_err(Error::declined_witness)?;
    let mut kept = Vec::new();
    for to in 0..case.table.count {
        for from in 0..to {
            let found = rules(&test, &way.returned, from.into(), to.into()).map_err(Error::declined_witness)?;
            let follows =
                (from + 1..to).any(|between| graph.is_preserved(from, between) && graph.is_preserved(between, to));
            if !found.is_empty() && !follows {
                kept.push(Edge { from, to, why: Why::Preserved(found) });
            }
        }
    }
    Ok(kept)
}

/// The lines of an event's box: its number and instruction; its values; its annotations and dependencies.
pub fn event_lines(case: &Case, number: usize) -> Vec<String> {
    let event = &case.table.events[number];
    let mut lines = vec![format!("({number}) {}", picture::instruction(case, number))];
    let details = picture::details(case, event);
    lines.extend(details.first().cloned());
    if details.len() > 1 {
        let short = details[1..].join(", ");
        let shorter = [("address from", "addr"), ("data from", "data"), ("control from", "ctrl")];
        lines.push(shorter.iter().fold(short, |words, (long, short)| words.replace(long, short)));
    }
    lines
}
