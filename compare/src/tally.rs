//! How many calls were made, and what they gave.

use crate::call::{Call, Entry, Outcome, Reply};
use cogthunder::{Advice, Answer, Axiom, Decision, Listing, Rules, Taken, INITIALLY, NOTHING};
use oracle::layout::LONGEST_TEST;
use oracle::search::Engine;
use oracle::walks::Given;
use std::collections::BTreeMap;
use std::fmt;

/// What a call that takes no text can be refused by.
const REFUSALS: [u8; 21] = [1, 2, 3, 4, 5, 6, 7, 8, 9, 10, 11, 12, 13, 14, 15, 16, 17, 18, 21, 22, 24];
/// What a call on a text can be refused by.
const TEXT_REFUSALS: [u8; 14] = [1, 5, 7, 8, 9, 10, 11, 15, 16, 17, 19, 20, 21, 23];
/// What a table can be refused by.
const TABLE_REFUSALS: [u8; 9] = [1, 5, 6, 7, 8, 9, 10, 11, 21];
const RULES: std::ops::RangeInclusive<u8> = 1..=13;

const VERDICTS: [&str; 6] = ["allowed", "preserved order", "load value", "atomicity", "value read", "final value"];
/// Of the first engine, of the second, and of texts.
const SEARCHES: [[&str; 3]; 3] = [
    ["found", "none left", "spent"],
    ["pruned found", "pruned none left", "pruned spent"],
    ["text found", "text none left", "text spent"],
];

const LISTINGS: [&str; 4] = ["one", "some", "none left", "spent"];
const STEPS: [&str; 3] = ["a store or fence", "a read of an initial value", "a read from an event"];

const ADVICE: [&str; 5] = ["no fence", "some fences", "undecided without", "undecided with some", "no help"];

const DECISIONS: [&str; 2] = ["found", "none left"];

#[derive(Default)]
pub struct Tally {
    pub calls: u64,
    entries: BTreeMap<&'static str, u64>,
    refusals: BTreeMap<u8, u64>,
    text_refusals: BTreeMap<u8, u64>,
    verdicts: BTreeMap<&'static str, u64>,
    /// In how many sets each rule was: of verdicts, and of pairs.
    rules: BTreeMap<u8, u64>,
    searches: BTreeMap<&'static str, u64>,
    /// Good tests of edition 2, and good texts.
    good_in_two: u64,
    good_texts: u64,
    /// Steps that the machine took, by what a returned list holds for their events; and orders of all runs of some tables.
    taken: BTreeMap<&'static str, u64>,
    orders_of_runs: u64,
    /// Calls for outcomes by what they gave; and outcomes of those for all of them.
    listings: BTreeMap<&'static str, u64>,
    all_outcomes: u64,
    advice: BTreeMap<&'static str, u64>,
    /// Decisions by what they gave; and orders of those that gave all of them.
    decisions: BTreeMap<&'static str, u64>,
    all_decided: u64,
    written: u64,
    not_written: BTreeMap<u8, u64>,
}

fn verdict_name(axiom: &Axiom) -> &'static str {
    VERDICTS[match axiom {
        Axiom::PreservedOrder { .. } => 1,
        Axiom::LoadValue { .. } => 2,
        Axiom::Atomicity { .. } => 3,
        Axiom::ValueRead { .. } => 4,
        Axiom::FinalValue { .. } => 5,
    }]
}

fn search_name(entry: &Entry, answer: &Answer) -> &'static str {
    let given = match entry {
        Entry::Search { given: Given::Text, .. } => 2,
        Entry::Search { given: Given::Block(Engine::Second), .. } => 1,
        _ => 0,
    };
    SEARCHES[given][match answer {
        Answer::Found { .. } => 0,
        Answer::NoneLeft { .. } => 1,
        Answer::Spent { .. } => 2,
    }]
}

fn taken_name(taken: &Taken) -> &'static str {
    STEPS[match taken.entry {
        NOTHING => 0,
        INITIALLY => 1,
        _ => 2,
    }]
}

fn listing_name(listing: &Listing) -> &'static str {
    LISTINGS[match listing {
        Listing::Listed { outcomes: 1, .. } => 0,
        Listing::Listed { .. } => 1,
        Listing::NoneLeft => 2,
        Listing::Spent => 3,
    }]
}

fn advice_name(advice: &Advice) -> &'static str {
    ADVICE[match advice {
        Advice::Advised(fences) => usize::from(!fences.is_empty()),
        Advice::Undecided(fences) => 2 + usize::from(!fences.is_empty()),
        Advice::NoHelp => 4,
    }]
}

fn decision_name(decision: &Decision) -> &'static str {
    DECISIONS[match decision {
        Decision::Found { .. } => 0,
        Decision::NoneLeft => 1,
    }]
}

impl Tally {
    fn count_rules(&mut self, rules: Rules) {
        for rule in rules.iter() {
            *self.rules.entry(rule).or_default() += 1;
        }
    }

    pub fn count(&mut self, call: &Call, outcome: &Outcome) {
        self.calls += 1;
        *self.entries.entry(call.entry.name()).or_default() += 1;
        if let Entry::Write { .. } = call.entry {
            self.count_write(&outcome.reply);
        }
        match &outcome.reply {
            Reply::Refused { number, .. } => {
                let is_text = call.entry.takes_text();
                let refusals = if is_text { &mut self.text_refusals } else { &mut self.refusals };
                *refusals.entry(*number).or_default() += 1;
            }
            Reply::Broken(axiom) => {
                *self.verdicts.entry(verdict_name(axiom)).or_default() += 1;
                if let Axiom::PreservedOrder { rules, .. } = axiom {
                    self.count_rules(*rules);
                }
            }
            Reply::Rules(rules) => self.count_rules(*rules),
            Reply::Taken(taken) => *self.taken.entry(taken_name(taken)).or_default() += 1,
            Reply::Ran(ran) => self.orders_of_runs += ran.orders.len() as u64,
            Reply::Listed(listing) => *self.listings.entry(listing_name(listing)).or_default() += 1,
            Reply::AllOutcomes(outcomes) => self.all_outcomes += outcomes.len() as u64,
            Reply::Advice(advice) => *self.advice.entry(advice_name(advice)).or_default() += 1,
            Reply::Decided(decision) => *self.decisions.entry(decision_name(decision)).or_default() += 1,
            Reply::Orders(orders) => self.all_decided += orders.len() as u64,
            Reply::Good if call.entry.name() == "verdict" => *self.verdicts.entry(VERDICTS[0]).or_default() += 1,
            Reply::Searched(answer) => *self.searches.entry(search_name(&call.entry, answer)).or_default() += 1,
            Reply::Table(_) if call.entry == Entry::ReadText => self.good_texts += 1,
            Reply::Table(_) if call.bytes.len() == LONGEST_TEST => self.good_in_two += 1,
            _ => {}
        }
    }

    fn count_write(&mut self, reply: &Reply) {
        match reply {
            Reply::Refused { number, .. } => *self.not_written.entry(*number).or_default() += 1,
            _ => self.written += 1,
        }
    }

    /// What no call gave, though some call can.
    pub fn unmet(&self) -> Vec<String> {
        let refusals = REFUSALS.iter().filter(|&n| !self.refusals.contains_key(n)).map(|n| format!("refusal {n}"));
        let of_texts = TEXT_REFUSALS.iter().filter(|&n| !self.text_refusals.contains_key(n));
        let of_texts = of_texts.map(|n| format!("refusal {n} of a text"));
        let rules = RULES.filter(|n| !self.rules.contains_key(n)).map(|n| format!("rule {n}"));
        let verdicts = VERDICTS.iter().filter(|&name| !self.verdicts.contains_key(name)).map(|name| name.to_string());
        let searches =
            SEARCHES.iter().flatten().filter(|&name| !self.searches.contains_key(name)).map(|name| name.to_string());
        let steps = STEPS.iter().filter(|&name| !self.taken.contains_key(name)).map(|name| format!("step: {name}"));
        let listings = LISTINGS.iter().filter(|&name| !self.listings.contains_key(name));
        let listings = listings.map(|name| format!("outcomes: {name}"));
        let advice =
            ADVICE.iter().filter(|&name| !self.advice.contains_key(name)).map(|name| format!("advice: {name}"));
        let decisions = DECISIONS.iter().filter(|&name| !self.decisions.contains_key(name));
        let decisions = decisions.map(|name| format!("decision: {name}"));
        let not_written = TABLE_REFUSALS.iter().filter(|&n| !self.not_written.contains_key(n));
        let not_written = not_written.map(|n| format!("refusal {n} of a table"));
        let written = (self.written == 0).then(|| "a table that is written".to_string());
        let in_two = (self.good_in_two == 0).then(|| "a good test of edition 2".to_string());
        let text = (self.good_texts == 0).then(|| "a good text".to_string());
        let refusals = refusals.chain(of_texts).chain(not_written);
        let good = written.into_iter().chain(in_two).chain(text);
        refusals
            .chain(rules)
            .chain(verdicts)
            .chain(searches)
            .chain(steps)
            .chain(listings)
            .chain(advice)
            .chain(decisions)
            .chain(good)
            .collect()
    }
}

fn listed<K: fmt::Display>(counts: &BTreeMap<K, u64>) -> String {
    counts.iter().map(|(key, count)| format!("{key}: {count}")).collect::<Vec<_>>().join(", ")
}

impl fmt::Display for Tally {
    fn fmt(&self, f: &mut fmt::Formatter) -> fmt::Result {
        writeln!(f, "  calls    {}", listed(&self.entries))?;
        writeln!(f, "  read     good tests of edition 2: {}, good texts: {}", self.good_in_two, self.good_texts)?;
        writeln!(f, "  refusals {}", listed(&self.refusals))?;
        writeln!(f, "  of texts {}", listed(&self.text_refusals))?;
        writeln!(f, "  verdicts {}", listed(&self.verdicts))?;
        writeln!(f, "  rules    {}", listed(&self.rules))?;
        writeln!(f, "  searches {}", listed(&self.searches))?;
        writeln!(f, "  steps    {}; orders of all runs: {}", listed(&self.taken), self.orders_of_runs)?;
        writeln!(f, "  outcomes {}; all of some tests: {}", listed(&self.listings), self.all_outcomes)?;
        writeln!(f, "  advice   {}", listed(&self.advice))?;
        writeln!(f, "  decided  {}; all of some tests: {}", listed(&self.decisions), self.all_decided)?;
        write!(f, "  tables   written: {}, refused by {}", self.written, listed(&self.not_written))
    }
}
