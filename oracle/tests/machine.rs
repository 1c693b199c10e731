//! The step machine: "The order of drains, loads, LRs and AMOs in complete runs covers exactly the lawful
//! orders of model 1, with the same returns."

use oracle::encode::encode;
use oracle::generate::machine_tables::{machine_cases, machine_table, sc_shapes};
use oracle::generate::orders::permutations;
use oracle::generate::prng::Prng;
use oracle::generate::runs::run_of;
use oracle::litmus::*;
use oracle::machine::{after, orders_of_runs, step, Ordered, Step};
use oracle::rules::{determined_returns, is_lawful};
use oracle::table::{Line, Model, Table};

const RANDOM_TABLES: usize = 3000;
/// Every order of so many memory events is tried.
const MOST_ORDERED: usize = 5;

fn lawful_orders(table: &Table) -> Vec<Ordered> {
    let orders = permutations(&table.memory_events()).into_iter();
    let lawful = orders.filter(|order| is_lawful(table, order));
    lawful.map(|order| (order.clone(), determined_returns(table, &order))).collect()
}

/// Holds the machine to the lawful orders of a table; says how many there are.
fn compare(table: &Table) -> usize {
    let lawful = lawful_orders(table);
    assert_eq!(orders_of_runs(table), lawful, "{table:?}");
    for (order, _) in &lawful {
        let machine = after(table, &run_of(table, order)).expect("it is a run");
        assert!(machine.is_complete() && machine.order == *order);
    }
    lawful.len()
}

#[test]
fn random_tables() {
    let mut prng = Prng::new(7);
    let (mut tables, mut orders) = (0, 0);
    while tables < RANDOM_TABLES {
        let (harts, events) = (1 + prng.below(4), 1 + prng.below(7));
        let table = machine_table(&mut prng, harts, events);
        if table.memory_events().len() <= MOST_ORDERED {
            orders += compare(&table);
            tables += 1;
        }
    }
    assert!(orders > 5 * RANDOM_TABLES, "{orders}");
}

#[test]
fn stores_that_depend_on_an_sc() {
    let shapes = sc_shapes();
    assert_eq!(shapes.len(), 5184);
    let orders: usize = shapes.iter().map(compare).sum();
    assert!(orders > shapes.len(), "{orders}");
}

#[test]
fn cases() {
    for (name, table) in machine_cases() {
        assert!(compare(&table) > 0, "{name}");
    }
}

/// LR x (0), SC x (1), a store of y with data of the SC (2), a load of y (3), and hart 1's store of x (4).
#[test]
fn worked_run() {
    let events =
        vec![lr(0, X, 0), sc(0, X, 1), store(0, Y, 1).data_from(1), load(0, Y, 1), store(1, X, 2)];
    let block = encode(&table(events).in_model(Model::Rvtso));
    let answer = |steps: &[u8], number: u64| {
        step(&block, steps, number).map(|taken| (taken.event, taken.entry())).map_err(|r| r.line)
    };
    // The load would forward from a store that depends on a buffered SC.
    assert_eq!(answer(&[0, 0, 0], 0), Err(Line::Step));
    let run = [0, 0, 0, 4, 0, 4, 1, 5];
    let taken = [(0, 255), (1, 254), (2, 254), (1, 254), (3, 2), (2, 254), (4, 254), (4, 254)];
    for (place, &number) in run.iter().enumerate() {
        assert_eq!(answer(&run[..place], number.into()), Ok(taken[place]));
    }
    for number in 0..10 {
        assert_eq!(answer(&run, number), Err(Line::Step));
    }
    // Hart 1's store came between the initial write and the SC.
    assert_eq!(answer(&[0, 0, 1, 5], 4), Err(Line::Step));
    assert_eq!(answer(&[0, 4], 0), Err(Line::Step));
}

#[test]
fn a_step_is_a_hart_to_issue_or_a_hart_plus_4_to_drain() {
    assert_eq!(Step::of_number(3), Some(Step::Issue(3)));
    assert_eq!(Step::of_number(4), Some(Step::Drain(0)));
    assert_eq!(Step::of_number(7), Some(Step::Drain(3)));
    for number in [8, 255, 256, 1 << 32, u64::MAX] {
        assert_eq!(Step::of_number(number), None);
    }
}

#[test]
fn model_0_is_refused_by_24_and_other_models_by_5() {
    let mut block = encode(&c3().in_model(Model::Rvtso));
    assert!(step(&block, &[], 0).is_ok());
    block = encode(&c3());
    assert_eq!(step(&block, &[], 0).map_err(|r| r.line), Err(Line::Step));
    block[oracle::layout::MODEL_AT] = 2;
    oracle::encode::seal(&mut block);
    assert_eq!(step(&block, &[], 0).map_err(|r| r.line), Err(Line::Ranges));
}
