//! Values that follow from a lawful order, where an AMO with an operation "writes what follows from
//! what the order makes it return".

use crate::rules::{determined_return, last_write, Write};
use crate::table::Table;

/// The value that a reader returns.
pub fn value_returned(table: &Table, order: &[usize], reader: usize) -> u16 {
    let write = determined_return(table, order, reader);
    value_written(table, order, write, table.events[reader].location)
}

/// The value that a location ends at.
pub fn value_at_end(table: &Table, order: &[usize], location: usize) -> u16 {
    value_written(table, order, last_write(table, order, location), location)
}

/// The value that a write puts into its location. It is asked of lawful orders only: there an AMO
/// returns from a write before it in the order, so going back from one AMO to the next comes to an
/// end.
fn value_written(table: &Table, order: &[usize], write: Write, location: usize) -> u16 {
    let writer = match write {
        Write::Initial => return table.initial[location],
        Write::Of(writer) => writer,
    };
    let event = &table.events[writer];
    if !event.has_operation() {
        return event.written;
    }
    let returned = value_returned(table, order, writer);
    event.operation.applied(returned, event.operand).expect("the AMO has an operation")
}

#[cfg(test)]
mod tests {
    use super::*;
    use crate::generate::orders::{lawful_order, state_outcome};
    use crate::generate::prng::Prng;
    use crate::generate::random::any_table;
    use crate::litmus::*;
    use crate::operation::Operation;
    use crate::rules::last_value;

    const TABLES: usize = 3000;

    #[test]
    fn of_two_increments_the_later_one_returns_what_the_earlier_one_wrote() {
        let increment = |hart| amo(hart, X, 0, 0).operation(Operation::Add, 1);
        let mut test = table(vec![increment(0), increment(1), load(2, X, 0)]);
        test.initial[X] = 7;
        let values = |order: &[usize]| {
            let reader = |reader| value_returned(&test, order, reader);
            [reader(0), reader(1), reader(2), value_at_end(&test, order, X)]
        };
        assert_eq!(values(&[0, 1, 2]), [7, 8, 9, 9]);
        assert_eq!(values(&[0, 2, 1]), [7, 8, 8, 9]);
        assert_eq!(values(&[2, 1, 0]), [8, 7, 7, 9]);
    }

    #[test]
    fn an_amo_writes_what_its_operation_makes_of_what_the_order_makes_it_return() {
        let larger = amo(1, X, 0, 0).operation(Operation::Larger, 9);
        let test = table(vec![store(0, X, 3), larger]);
        let values =
            |order: &[usize]| (value_returned(&test, order, 1), value_at_end(&test, order, X));
        assert_eq!(values(&[0, 1]), (3, 9));
        assert_eq!(values(&[1, 0]), (0, 3));
    }

    /// A block can state what follows; then its stated values are those.
    #[test]
    fn what_follows_is_what_a_block_of_that_outcome_states() {
        let mut prng = Prng::new(1);
        for _ in 0..TABLES {
            let table = any_table(&mut prng);
            let Some(order) = lawful_order(&mut prng, &table) else { continue };
            let mut stating = table.clone();
            state_outcome(&mut stating, &order);
            for (number, event) in stating.events.iter().enumerate().filter(|(_, e)| e.reads()) {
                assert_eq!(value_returned(&table, &order, number), event.read);
            }
            for location in 0..table.locations {
                let ends_at = value_at_end(&table, &order, location);
                assert_eq!(ends_at, last_value(&stating, &order, location));
            }
        }
    }
}
