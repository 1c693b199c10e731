//! The kept set: thirty tables of 14 events, on which the second engine is timed. How they were chosen stands in
//! docs/changes/T-07.md.

use crate::table::{Event, Table, ACQUIRE_RCPC, BLOCK, FULL_FENCE, PR, PW, RELEASE_RCPC, SR, SW};
use crate::table::{AMO, FENCE, LOAD, LR, SC, STORE};

/// Harts are parted by bars. `W` stores, `R` loads, `A` is an AMO with the values read and written, `L` an LR and `S` an SC;
/// behind the value `a` is acquire-RCpc and `r` release-RCpc. `F` is a full fence, `Fr` one of pr, sr and sw, `Fw` one of pw
/// and sw. After `d` the next event depends on the one before: a load's address, a store's data. Final values stand behind
/// a semicolon.
const SHAPES: [(&str, &str); 20] = [
    ("message along three stores", "Wx1 F Wy1 F Wz1 | Rz1 d Ry0 d Rx0 | Rz1 d Rx0 | Ry1 F Rx0 Rz0"),
    ("SB ring of 4, own reads", "Wx1 Rx1 F Ry0 | Wy1 Ry1 F Rz0 | Wz1 F Rw0 | Ww1 F Rx0"),
    ("LB ring of 3, through stores", "Rx1 d Wu1 Ru1 d Wy1 | Ry1 d Wv1 Rv1 d Wz1 | Rz1 F Wx1 | Rx1 F Ry1"),
    ("IRIW and more", "Wx1 Wz1 | Wy1 Ww1 | Rx1 F Ry0 Rz1 F Rw0 | Ry1 F Rx0 Rw1"),
    ("WRC twice", "Wx1 Wu1 | Rx1 F Wy1 | Ru1 F Wv1 | Ry1 d Rx0 Rv1 d Ru0 Rx1 Ru1"),
    ("2+2W ring of 4, two loads", "Wx1 F Wy2 Ry2 | Wy1 F Wz2 Rz2 | Wz1 F Ww2 | Ww1 F Wx2 ; x=1 y=1 z=1 w=1"),
    ("2+2W ring of 4, two stores", "Wx1 F Wy2 Wu1 | Wy1 F Wz2 Wv1 | Wz1 F Ww2 | Ww1 F Wx2 ; x=1 y=1 z=1 w=1 u=1 v=1"),
    ("S twice, observed", "Wx2 F Wy1 | Ry1 d Wx1 Rx1 | Wz2 F Ww1 | Rw1 d Wz1 Rz1 Rx1 Ry1 ; x=2 z=2"),
    ("R twice, observed", "Wx1 F Wy1 | Wy2 F Rx0 | Wz1 F Ww1 | Ww2 F Rz0 Rx1 Ry1 ; y=2 w=2"),
    ("ISA2, two observers", "Wx1 F Wy1 | Ry1 d Wz1 F Rx1 | Rz1 d Rx0 Ry1 | Rz1 d Rx0 F Ry1"),
    ("coherence of one location", "Wx1 Wx2 Wx3 | Wx4 F Wx5 | Rx1 F Rx2 F Rx4 | Rx4 F Rx1"),
    ("AMO counter", "Ax0,1 Ax2,3 Ax6,7 Rx7 | Ax1,2 Ax3,4 Ax8,9 | Ax4,5 Ax5,6 Ax9,10 | Ax7,8 Ax8,9 Ax10,11 Rx11 ; x=11"),
    ("LR/SC counter", "Lx0 Sx1 F Rx1 | Lx1 Sx2 F Rx2 | Lx0 Sx1 | Lx2 Sx3 F Rx3 ; x=3"),
    ("spin lock", "Ax0,1a Wy1 Wz1 Wx0r | Ax0,1a Ry1 Rz0 Wx0r | Ax0,1a Ry0 Rz1 Wx0r | Ry1 Rz1"),
    ("release, three acquires", "Wx1 Wu1 Wy1r F Wz1 | Ry1a Rx0 Ru1 | Ry1a Ru0 | Rz1a Rx0 Ru1 Ry1"),
    ("SB twice", "Wx1 F Ry0 Wz1 | Wy1 F Rx0 Rz1 | Wu1 F Rv0 | Wv1 F Ru0"),
    ("release, twice", "Wx1 Wp1r Wy2 Wp2r | Rp2a Rx1 Ry0 Wq1r | Rp1a Rx1 Ry2 | Rq1a Rx1 Rp0"),
    ("SB ring of 4, allowed", "Wx1 F Ry0 | Wy1 F Rz0 | Wz1 F Rw0 | Ww1 Rx0 F Ry1 Rz1"),
    ("RWC and more", "Wx1 F Wy1 | Ry1 F Rz0 Rx1 | Wz1 F Rx0 Ry0 | Rx1 d Rz1 Ry0"),
    ("sequence lock", "Wp1 Fw Wx1 Wy1 Fw Wp2 | Rp2 Fr Rx1 Ry0 Rp2 | Rp0 Rx1 Rp0"),
];

/// The blocks of the first ten seeded random tables with 10^6 to 3 * 10^8 clean prefixes; the test below draws them again.
const RANDOM: &[u8] = include_bytes!("../kept.blocks");

const READ_FENCE: u8 = PR | SR | SW;
const WRITE_FENCE: u8 = PW | SW;

/// Reads a shape.
#[derive(Default)]
struct Parser {
    table: Table,
    /// The locations by their letters, in the order in which they come.
    letters: Vec<char>,
    hart: u8,
    depends: bool,
}

impl Parser {
    fn table(text: &str) -> Table {
        let mut parser = Parser::default();
        let (events, finals) = text.split_once(';').unwrap_or((text, ""));
        for word in events.split_whitespace() {
            parser.word(word);
        }
        for word in finals.split_whitespace() {
            let (letter, value) = word.split_once('=').expect("a location and a value");
            let x = parser.location(letter.chars().next().expect("a letter"));
            parser.table.stated |= 1 << x;
            parser.table.finals[usize::from(x)] = value.parse().expect("a number");
        }
        parser.table.locations = parser.letters.len();
        parser.table
    }

    fn location(&mut self, letter: char) -> u8 {
        let place = self.letters.iter().position(|&known| known == letter);
        place.unwrap_or_else(|| {
            self.letters.push(letter);
            self.letters.len() - 1
        }) as u8
    }

    fn word(&mut self, word: &str) {
        let fence = |flags| Event { kind: FENCE, flags, ..Event::default() };
        match word {
            "|" => self.hart += 1,
            "d" => self.depends = true,
            "F" => self.push(fence(FULL_FENCE)),
            "Fr" => self.push(fence(READ_FENCE)),
            "Fw" => self.push(fence(WRITE_FENCE)),
            access => {
                let event = self.access(access);
                self.push(event);
            }
        }
    }

    fn push(&mut self, mut event: Event) {
        event.hart = self.hart;
        if std::mem::take(&mut self.depends) {
            let before = 1 << (self.table.count - 1);
            *(if event.writes() { &mut event.data } else { &mut event.addr }) = before;
        }
        self.table.events[self.table.count] = event;
        self.table.count += 1;
    }

    fn access(&mut self, word: &str) -> Event {
        let mut letters = word.chars();
        let kind = letters.next().expect("a kind");
        let location = self.location(letters.next().expect("a location"));
        let values = letters.as_str().trim_end_matches(['a', 'r']);
        let flags = match word.chars().last() {
            Some('a') => ACQUIRE_RCPC,
            Some('r') => RELEASE_RCPC,
            _ => 0,
        };
        let number = |digits: &str| digits.parse().expect("a number");
        let (read, written) = match (kind, values.split_once(',')) {
            ('A', Some((read, written))) => (number(read), number(written)),
            ('R' | 'L', None) => (number(values), 0),
            ('W' | 'S', None) => (0, number(values)),
            _ => panic!("{word} is no event"),
        };
        let kind = match kind {
            'A' => AMO,
            'R' => LOAD,
            'L' => LR,
            'W' => STORE,
            _ => SC,
        };
        Event { kind, location, flags, read, written, ..Event::default() }
    }
}

/// The table of a shape.
pub fn shape(name: &str) -> Table {
    let shape = SHAPES.iter().find(|(other, _)| *other == name);
    Parser::table(shape.expect("there is such a shape").1)
}

/// The blocks of the set, by name.
pub fn kept() -> Vec<(String, Vec<u8>)> {
    let shapes = SHAPES.iter().map(|(name, text)| (name.to_string(), Parser::table(text).encode()));
    let random = RANDOM.chunks(BLOCK).zip(1..);
    shapes.chain(random.map(|(block, number)| (format!("random {number}"), block.to_vec()))).collect()
}

#[cfg(test)]
mod tests {
    use super::*;
    use oracle::encode::encode;
    use oracle::generate::orders::{lawful_order, state_outcome};
    use oracle::generate::prng::Prng;
    use oracle::generate::random::random_table;
    use oracle::rules::steady_rules;

    const COUNT: usize = 14;
    const SEED: u64 = 7;
    const RANDOM_TABLES: usize = 10;
    const LENGTHS: std::ops::RangeInclusive<u64> = 1_000_000..=300_000_000;

    /// How many clean prefixes a table has: for each set of events, in how many orders it can be placed.
    fn clean_prefixes(table: &oracle::table::Table) -> u64 {
        let events = table.memory_events();
        let is_before = |a: usize, b: usize| !steady_rules(table, events[a], events[b]).is_empty();
        let before = |b: usize| (0..events.len()).filter(|&a| is_before(a, b)).map(|a| 1 << a).sum();
        let predecessors: Vec<usize> = (0..events.len()).map(before).collect();
        let mut orders = vec![0; 1 << events.len()];
        orders[0] = 1;
        for placed in 0..orders.len() {
            for (event, before) in predecessors.iter().enumerate() {
                if placed >> event & 1 == 0 && before & !placed == 0 {
                    orders[placed | 1 << event] += orders[placed];
                }
            }
        }
        orders[1..].iter().sum()
    }

    /// Any tables of 14 events that use each of their locations; half of them state the values of a lawful order.
    fn drawn() -> Vec<u8> {
        let mut prng = Prng::new(SEED);
        let mut blocks = Vec::new();
        while blocks.len() < RANDOM_TABLES * BLOCK {
            let (harts, locations) = (2 + prng.below(3), 1 + prng.below(4));
            let mut table = random_table(&mut prng, harts, locations, COUNT);
            if prng.one_in(2) {
                if let Some(order) = lawful_order(&mut prng, &table) {
                    state_outcome(&mut table, &order);
                }
            }
            let is_used = |x: usize| table.events.iter().any(|e| e.is_memory() && e.location == x);
            if (0..locations).all(is_used) && LENGTHS.contains(&clean_prefixes(&table)) {
                blocks.extend(encode(&table));
            }
        }
        blocks
    }

    #[test]
    fn the_random_tables_are_those_drawn() {
        assert!(RANDOM == drawn());
    }

    #[test]
    fn each_table_is_good_and_has_14_events() {
        let kept = kept();
        assert_eq!(kept.len(), 30);
        for (name, block) in kept {
            let table = oracle::table::read(&block).expect("a good table");
            assert_eq!(table.events.len(), COUNT, "{name}");
        }
    }
}
