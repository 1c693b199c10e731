//! What `--help` prints.

/// Of the whole program.
pub const WHOLE: &str = "\
cogthunder: litmus tests for the RISC-V memory models, RVWMO and RVTSO, decided by a proved library

usage: cogthunder SUBCOMMAND [OPTIONS] FILE..

  decide FILE..    is the outcome allowed or forbidden? A line for each test
  show FILE..      the test as it was understood, in columns, and a witness
  explain FILE..   why it is allowed or forbidden: a witness in words, or what each way breaks
  convert FILE     between litmus tests, blocks and texts
  step FILE        a test on a machine with store buffers, step by step (RVTSO)
  outcomes FILE..  every outcome that the rules allow, and which of them are asked for
  advise FILE..    between which accesses a fence is missing, for the outcome to be forbidden
  report FILE..    one page about all tests: verdicts, pictures and reasons

A FILE is a litmus test (RISC-V instructions in columns, as herd7 reads them), a block of this
library, many blocks one behind the other, or a test as a text of numbers (docs/FORMAT.md); what
it holds is seen from its contents, and `-` is standard input. `cogthunder SUBCOMMAND --help` says more.

Exit status: 0; 1 if a verdict isn't the expected one, or no fences help; 2 if something can't be
read or written.

example: cogthunder decide samples/litmus/*.litmus
";

/// Of `decide`.
pub const DECIDE: &str = "\
usage: cogthunder decide [OPTIONS] FILE..

Says of each test whether the rules allow the outcome that its condition asks for; with `forall`,
an outcome outside the condition. A file may state what it expects, by a line such as
`Result=Never` before the initial state or a comment `(* Result: Never *)`: Never or Forbidden;
Sometimes, Always or Allowed.

  -v, --verbose       the first witness too: the order, and what each load returns from
  --expect VERDICT    allowed or forbidden: what each test must be, whatever its file says
  --model MODEL       rvwmo or rvtso: the model of litmus tests (rvwmo); a block states its own, and
                      must state this one; texts are of RVWMO, as is what a file expects
  --herd              each test in the form of herd7's log; witnesses are counted by states
  --visit N           give up on a text after N prefixes (100000000): it is then undecided, which
                      litmus tests and blocks never are

Each SC is taken to have succeeded. Values go up to 65535; a test has up to 4 harts, 8 locations
and 30 events, and all its accesses have one width.

example: cogthunder decide -v samples/litmus/MP.litmus
";

/// Of `show`.
pub const SHOW: &str = "\
usage: cogthunder show [OPTIONS] FILE..

Prints the table that the library is asked about: for each hart its events with their numbers,
instructions, locations and values, annotations, and the events that their address, data or
control depends on. For an allowed outcome also the first order that gives it, with what each
load returns from. Where several choices of values meet the condition, one table is shown.

  --svg               a picture: for an allowed outcome the edges of that order, for a forbidden
                      one the longest chain that `explain` tells
  --dot               the same for graphviz
  -o, --output OUT    a file to write, in the place of standard output
  --model MODEL       rvwmo or rvtso: the model of litmus tests (rvwmo), and what a block must state
  --visit N           give up on a text after N prefixes (100000000): it is then undecided

example: cogthunder show samples/litmus/PPOCA.litmus
         cogthunder show --svg samples/litmus/PPOCA.litmus -o PPOCA.svg
";

/// Of `explain`.
pub const EXPLAIN: &str = "\
usage: cogthunder explain [OPTIONS] FILE..

Says why. For an allowed outcome: the first order that gives it, in words, and the events that it
has the other way round than program order. For a forbidden one, for each way in which the loads
could get their values and the writes of a location be ordered: a shortest chain of events that
has to come before itself, or the LR and SC that another write parts. Ways that share a chain are
told together; of more than 64 ways only their number is told. Each step of a chain has its reason:

  ppo    preserved program order, with the rules as the proved library names them
  rf     a read returns from a write that isn't an earlier one of its own hart
  fr     a read returns from a write, and another write overwrites that
  co     the order of the writes of a location
  po     a read sees the earlier writes of its own hart

  --model MODEL       rvwmo or rvtso: the model of litmus tests (rvwmo), and what a block must state
  --visit N           give up on a text after N prefixes (100000000): it is then undecided

example: cogthunder explain samples/litmus/MP+fence.rw.rws.litmus
";

/// Of `convert`.
pub const CONVERT: &str = "\
usage: cogthunder convert [OPTIONS] FILE

Writes a litmus test or a text as a block of 512 bytes (or three, if it has more than 16 events),
or a block as a litmus test. A block states every value that is read, so the condition has to
leave one choice of them.

  --to FORM           block, litmus or text; without it, a block becomes a litmus test, and what
                      isn't one becomes a block
  --all               a block for each choice of values that meets the condition
  --model MODEL       rvwmo or rvtso: the model that the block of a litmus test states (rvwmo). Litmus
                      tests and texts can't state one, so only tests of RVWMO become those
  -o, --output OUT    a file to write, in the place of standard output

example: cogthunder convert samples/litmus/MP.litmus -o MP.block
";

/// Of `step`.
pub const STEP: &str = "\
usage: cogthunder step [OPTIONS] FILE

Takes a litmus test, or a block that states RVTSO, through a machine of single steps: a hart issues
its next event, or drains its oldest buffered store to memory. Stores and SCs wait in the hart's
buffer; loads, LRs and AMOs read when they are issued. The proved library says which steps there are.
Where several choices of values meet the condition of a litmus test, its first table is taken.

Each line of standard input is read word by word:

  0 1 2 3             that hart issues its next event
  4 5 6 7             hart 0, 1, 2 or 3 drains its oldest buffered store
  undo                takes the last step back
  quit                ends, as the end of the input does

  -o, --output OUT    a file to write at the end: the steps, as standard input takes them, so that the
                      run can be replayed: cogthunder step FILE < OUT

Behind each line stand memory, the buffers, the order of the drains, loads, LRs and AMOs so far, and
the steps that can be taken now; at the end of a run also what the library says of its outcome.

example: echo 0 0 4 | cogthunder step samples/litmus/SB.litmus
";

/// Of `outcomes`.
pub const OUTCOMES: &str = "\
usage: cogthunder outcomes [OPTIONS] FILE..

Lists every outcome that the rules allow, a line each, ascending, and says which of them meet the
condition. For a litmus test that is what the registers and locations of its condition hold at the
end, and those of a line `locations [..]`; for a text or a block what each event that reads
returns, `r2` or `(2) y`, then where each location ends. Values that a block states aren't asked for;
outcomes that have them are said.

  --all               of a litmus test every register that takes a value read, and all locations
  --model MODEL       rvwmo or rvtso: the model of litmus tests (rvwmo), and what a block must state
  --visit N           give up on a table with more than N clean prefixes (100000000): the outcomes
                      are then undecided

Where what is written, an address or a branch depends on what is read, a litmus test has several
tables, and its outcomes are gathered from all of them. Each SC is taken to have succeeded.

example: cogthunder outcomes samples/litmus/SB.litmus
";

/// Of `advise`.
pub const ADVISE: &str = "\
usage: cogthunder advise [OPTIONS] FILE..

Says between which accesses a fence is missing: the fewest that forbid the outcome of a litmus test
or a block, and of sets of as many the first. A fence is tried between each two neighbouring accesses
of a hart, in at most eight places; a test that has fences with no sets (`fence 0,0`) is asked about
those. With a fence all accesses before it come before all behind it (`fence rw,rw`). The proved
library gives the advice on a table; where several choices of values meet the condition of a litmus
test, each set of fences is tried on all its tables.

  --between A,B       try a fence between the events A and B, neighbours of a hart, by the numbers that
                      `show` gives them; this may be said up to eight times
  -o, --output OUT    a file to write: the test with these fences, in the form that it has
  --model MODEL       rvwmo or rvtso: the model of litmus tests (rvwmo), and what a block must state
  --visit N           of one table: give up on a set of fences after N prefixes (100000000)

Exit status: 0 if the outcome is forbidden, with some fences or as it is; 1 if fences don't help, or
if that isn't decided; 2 if a file can't be read or written.

example: cogthunder advise samples/litmus/MP.litmus -o MP-fixed.litmus
";

/// Of `report`.
pub const REPORT: &str = "\
usage: cogthunder report [OPTIONS] FILE.. -o PAGE.html

Writes one page that stands alone: a table of all tests with their verdicts, which can be filtered
by verdict and name, and for each test its columns, its picture, and what `explain` says of it.

  -o, --output OUT    a file to write, in the place of standard output
  --model MODEL       rvwmo or rvtso: the model of litmus tests (rvwmo), and what a block must state
  --visit N           give up on a text after N prefixes (100000000): it is then undecided

Exit status as of decide: 1 if a verdict isn't what its file expects, 2 if a file can't be read.

example: cogthunder report samples/litmus/*.litmus -o tests.html
";
