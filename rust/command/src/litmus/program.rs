//! The columns of instructions.

use super::cursor::Cursor;
use super::instruction::{decode, Action, Instruction, Surroundings};
use super::lexer::{Kind, Token};
use super::names::Names;
use super::operands::Operands;
use crate::error::{quoted, Error};
use std::collections::HashMap;

/// A test of the library has at most as many.
pub const MOST_HARTS: usize = 4;

/// A hart isn't longer, so that all its runs can be followed.
const MOST_INSTRUCTIONS: usize = 500;

/// A line of one column: the tokens of its cell.
pub type Cell<'a> = Vec<Token<'a>>;

/// An instruction before it is decoded, and the labels of its hart.
struct Column<'a> {
    cells: Vec<Cell<'a>>,
    labels: HashMap<&'a str, usize>,
}

/// A row of the columns: a cell for each hart, and the mark that ends it.
pub struct Row<'a> {
    pub cells: Vec<Cell<'a>>,
    pub end: Token<'a>,
}

/// Reads the columns up to the condition: the instructions of each hart.
pub fn read(cursor: &mut Cursor, names: &mut Names) -> Result<Vec<Vec<Instruction>>, Error> {
    let rows = rows(cursor)?;
    let mut columns: Vec<Column> = Vec::new();
    columns.resize_with(rows[0].cells.len(), || Column { cells: Vec::new(), labels: HashMap::new() });
    for row in rows.into_iter().skip(1) {
        for (column, cell) in columns.iter_mut().zip(row.cells) {
            column.add(cell)?;
        }
    }
    columns.into_iter().map(|column| column.decode(names)).collect()
}

/// The heads of the columns, and the rows below them up to the condition.
pub fn rows<'a>(cursor: &mut Cursor<'a>) -> Result<Vec<Row<'a>>, Error> {
    let heads = heads(cursor)?;
    let harts = heads.cells.len();
    let mut rows = vec![heads];
    while !is_condition_next(cursor) {
        let line = cursor.line();
        let row = row(cursor)?;
        if row.cells.len() != harts {
            let columns = row.cells.len();
            return Err(Error::at(line, format!("the row has {columns} columns, and there are {harts} harts")));
        }
        rows.push(row);
    }
    Ok(rows)
}

/// `P0 | P1 ;`
fn heads<'a>(cursor: &mut Cursor<'a>) -> Result<Row<'a>, Error> {
    let line = cursor.line();
    let row = row(cursor)?;
    for (hart, cell) in row.cells.iter().enumerate() {
        let text: String = cell.iter().map(|token| token.text).collect();
        if text != format!("P{hart}") {
            let sentence = format!("the columns must be headed `P0 | P1 ;` and so on, and not {}", quoted(&text));
            return Err(Error::at(line, sentence));
        }
    }
    let harts = row.cells.len();
    if harts > MOST_HARTS {
        return Err(Error::at(line, format!("there are {harts} harts, and a test has at most four")));
    }
    Ok(row)
}

/// The cells up to the end of a row.
fn row<'a>(cursor: &mut Cursor<'a>) -> Result<Row<'a>, Error> {
    let mut cells = vec![Vec::new()];
    loop {
        match cursor.next() {
            Some(end) if end.is(";") => return Ok(Row { cells, end }),
            Some(token) if token.is("|") => cells.push(Vec::new()),
            Some(token) => cells.last_mut().expect("there is a first cell").push(token),
            None => return Err(cursor.error("`;` behind a row of instructions")),
        }
    }
}

fn is_condition_next(cursor: &Cursor) -> bool {
    cursor.is_mark(0, "~")
        || ["exists", "forall", "not", "locations", "filter"].iter().any(|word| cursor.is_word(word))
            && !is_instruction(cursor)
}

/// `not x5,x6` is an instruction, and `not exists` is no row.
fn is_instruction(cursor: &Cursor) -> bool {
    cursor.is_word("not") && cursor.is_mark(2, ",")
}

impl<'a> Column<'a> {
    /// Takes the labels of a cell, and keeps the instruction behind them.
    fn add(&mut self, cell: Cell<'a>) -> Result<(), Error> {
        let rest = behind_labels(&cell);
        for label in cell[..cell.len() - rest.len()].iter().step_by(2) {
            if self.labels.insert(label.text, self.cells.len()).is_some() {
                return Err(Error::at(label.line, format!("the label {} stands twice", quoted(label.text))));
            }
        }
        if let [first, ..] = rest {
            if self.cells.len() == MOST_INSTRUCTIONS {
                let sentence = format!("the hart has more than {MOST_INSTRUCTIONS} instructions");
                return Err(Error::at(first.line, sentence));
            }
            self.cells.push(rest.to_vec());
        }
        Ok(())
    }

    fn decode(self, names: &mut Names) -> Result<Vec<Instruction>, Error> {
        let mut around = Surroundings { labels: self.labels, names };
        let mut instructions = Vec::new();
        for (index, cell) in self.cells.iter().enumerate() {
            let operands = Operands::read(cell)?;
            let action: Action = decode(&operands, &mut around, index)?;
            instructions.push(Instruction { action, line: operands.line, text: text(cell) });
        }
        Ok(instructions)
    }
}

/// The instruction of a cell, behind its labels, each with its colon; nothing if there is none.
pub fn behind_labels<'c, 'a>(cell: &'c [Token<'a>]) -> &'c [Token<'a>] {
    match cell {
        [label, colon, behind @ ..] if label.kind == Kind::Word && colon.is(":") => behind_labels(behind),
        _ => cell,
    }
}

/// An instruction with one space behind its word and behind each comma.
fn text(cell: &Cell) -> String {
    let mut text = String::new();
    for (place, token) in cell.iter().enumerate() {
        let is_after_comma = place > 0 && cell[place - 1].is(",");
        if place == 1 || is_after_comma {
            text.push(' ');
        }
        text.push_str(token.text);
    }
    text
}

#[cfg(test)]
mod tests {
    use super::super::lexer::lex;
    use super::super::{AccessKind, AmoOp};
    use super::*;

    fn read_text(text: &str) -> Result<Vec<Vec<Instruction>>, Error> {
        read(&mut Cursor::of(lex(text, 1)?), &mut Names::default())
    }

    fn sentence(instruction: &str) -> String {
        read_text(&format!("P0 ;\n{instruction} ;\nexists (true)")).err().unwrap().sentence
    }

    #[test]
    fn columns_become_programs() {
        let harts =
            read_text("P0 | P1 ;\n sw  x5,0(x6) | beq x5,x0,L ;\n | L: lw x7 , 0(x6) ;\nexists (true)").unwrap();
        let texts: Vec<Vec<&str>> =
            harts.iter().map(|hart| hart.iter().map(|instruction| &instruction.text[..]).collect()).collect();
        assert_eq!(texts, [vec!["sw x5, 0(x6)"], vec!["beq x5, x0, L", "lw x7, 0(x6)"]]);
        assert!(matches!(harts[1][0].action, Action::Branch { to: 1, .. }));
    }

    #[test]
    fn annotations_are_read_on_accesses() {
        for (text, flags) in
            [("amoadd.w", 0), ("amoadd.w.aq", 2), ("amoadd.w.rl", 8), ("amoadd.w.aqrl", 10), ("amoadd.w.aq.rl", 10)]
        {
            let harts = read_text(&format!("P0 ; {text} x5,x6,(x7) ; exists (true)")).unwrap();
            let Action::Access(access) = harts[0][0].action else { panic!("an access") };
            assert_eq!((access.kind, access.flags), (AccessKind::Amo(AmoOp::Add), flags));
        }
    }

    #[test]
    fn what_is_out_of_the_model_is_an_error_by_name() {
        assert_eq!(sentence("fence.i"), "`fence.i`: instruction fetches are out of the model");
        assert_eq!(sentence("fence iorw,iorw"), "`fence`: `iorw` names I/O, which is out of the model");
        assert_eq!(sentence("csrr x5,cycle"), "`csrr`: CSRs are out of the model");
        assert_eq!(sentence("L: lw x5,0(x6) ; bne x5,x0,L"), "`bne`: it goes back to `L`, and loops aren't read");
        assert_eq!(sentence("lr.w.rl x5,(x6)"), "`lr.w.rl`: a load or LR has no `.rl` without `.aq`");
        assert_eq!(sentence("sc.w.aq x5,x6,(x7)"), "`sc.w.aq`: a store or SC has no `.aq` without `.rl`");
    }

    #[test]
    fn malformed_instructions_are_errors() {
        assert_eq!(sentence("lw x5,0(x6),x7"), "`lw`: it takes 2 operands, and not 3");
        assert_eq!(sentence("lw x5,"), "`lw`: `` isn't an operand");
        assert_eq!(sentence("lw x50,0(x6)"), "`lw`: `x50` isn't a register: they are x0 to x31, or zero, ra, .. t6");
        assert_eq!(sentence("lw x5,4096(x6)"), "`lw`: the number 4096 isn't from -2048 to 2047");
        assert_eq!(sentence("lw 5,0(x6)"), "`lw`: operand 1 must be a register");
        assert_eq!(sentence("movl x5,x6"), "`movl`: it isn't an instruction that this program reads");
        assert_eq!(sentence("amoadd x5,x6,(x7)"), "`amoadd`: it needs a width, `.w` or `.d`");
        assert_eq!(sentence("beq x5,x6,M"), "`beq`: the hart has no label `M`");
        assert_eq!(sentence("| nop"), "the row has 2 columns, and there are 1 harts");
        assert_eq!(sentence("L: nop ; L: nop"), "the label `L` stands twice");
        assert_eq!(sentence("5 x5"), "an instruction doesn't begin with `5`");
    }
}
