//! All witnesses of a test, one after the other.

use crate::answers::{Answer, Decision, Refusal};
use crate::library::{decide, read, search, search_pruned, search_text};
use crate::{EVENTS, LARGEST_ALLOWANCE};
use std::iter::FusedIterator;

/// How many prefixes one search call visits at most, unless another allowance is chosen.
const ALLOWANCE: u64 = 1_000_000;

/// [`search`], [`search_pruned`], [`search_text`], or [`decided`].
type Search = fn(&[u8], &[u8], &mut [u8], u64) -> Result<Answer, Refusal>;

/// [`decide`] as a search that visits nothing, and has no use for an allowance.
fn decided(test: &[u8], start: &[u8], out: &mut [u8], _: u64) -> Result<Answer, Refusal> {
    Ok(match decide(test, start, out)? {
        Decision::Found { len } => Answer::Found { len, visited: 0 },
        Decision::NoneLeft => Answer::NoneLeft { visited: 0 },
    })
}

/// All witnesses of a test, ascending, each as an order: the numbers of its memory events. An outcome without a witness
/// is forbidden.
///
/// A table may have more prefixes than one cares to wait for: [`step`](Witnesses::step) makes one search call at a time,
/// and [`start`](Witnesses::start) is what has to be kept so that [`resume`](Witnesses::resume) goes on from there.
///
/// ```
/// use cogthunder::{Answer, Witnesses};
///
/// let block = include_bytes!(concat!(env!("CARGO_MANIFEST_DIR"), "/../samples/C1.block"));
/// let mut walk = Witnesses::of(block)?.allowance(26);
/// assert_eq!(walk.step(), Answer::Spent { len: 3, visited: 26 });
/// let saved = walk.start().to_vec();
/// assert_eq!(saved, [1, 2, 3]);
///
/// // Later, or elsewhere.
/// let orders: Vec<Vec<u8>> = Witnesses::resume(block, &saved)?.collect();
/// assert_eq!(orders.len(), 6);
/// assert_eq!(orders, walk.collect::<Vec<_>>());
/// # Ok::<(), cogthunder::Refusal>(())
/// ```
///
/// A walk keeps to one engine. The witnesses are the same by both; [`pruned`](Witnesses::pruned) is the one that gives up
/// early, and visits fewer prefixes where a load reads a wrong value soon:
///
/// ```
/// use cogthunder::Witnesses;
///
/// let block = include_bytes!(concat!(env!("CARGO_MANIFEST_DIR"), "/../samples/C1.block"));
/// let mut all = Witnesses::of(block)?;
/// let mut pruned = Witnesses::pruned(block)?;
/// assert!(pruned.by_ref().eq(all.by_ref()));
/// assert_eq!((all.visited(), pruned.visited()), (64, 34));
/// # Ok::<(), cogthunder::Refusal>(())
/// ```
///
/// [`decided`](Witnesses::decided) gives them too, visits no prefixes at all, and takes no allowance.
#[derive(Clone, Debug)]
pub struct Witnesses<'a> {
    search: Search,
    test: &'a [u8],
    start: Vec<u8>,
    allowance: u64,
    visited: u64,
    finished: bool,
}

impl<'a> Witnesses<'a> {
    /// From the beginning. It is refused by 1 to 11 and 21, as the test is.
    pub fn of(test: &'a [u8]) -> Result<Witnesses<'a>, Refusal> {
        Witnesses::resume(test, &[])
    }

    /// From a start that an earlier walk over the same test had reached, by the same engine as [`of`](Witnesses::of). It is
    /// refused by 1 to 11 and 21, and by 15 if no walk over this test could have such a start.
    pub fn resume(test: &'a [u8], start: &[u8]) -> Result<Witnesses<'a>, Refusal> {
        Witnesses::by(search, test, start)
    }

    /// From the beginning, by the engine that gives up early ([`search_pruned`]). It is refused by 1 to 11 and 21, as the
    /// test is.
    pub fn pruned(test: &'a [u8]) -> Result<Witnesses<'a>, Refusal> {
        Witnesses::resume_pruned(test, &[])
    }

    /// From a start that an earlier [`pruned`](Witnesses::pruned) walk over the same test had reached. It is refused by 1 to
    /// 11 and 21, and by 15 if no such walk could have that start.
    ///
    /// ```
    /// use cogthunder::{Answer, Witnesses};
    ///
    /// let block = include_bytes!(concat!(env!("CARGO_MANIFEST_DIR"), "/../samples/C1.block"));
    /// let mut walk = Witnesses::pruned(block)?.allowance(16);
    /// assert_eq!(walk.step(), Answer::Spent { len: 3, visited: 16 });
    /// let saved = walk.start().to_vec();
    /// assert_eq!(saved, [1, 2, 3]);
    ///
    /// let orders: Vec<Vec<u8>> = Witnesses::resume_pruned(block, &saved)?.collect();
    /// assert_eq!(orders, walk.collect::<Vec<_>>());
    ///
    /// // What extends the spoiled prefix 0 3 isn't visited by this engine.
    /// assert_eq!(Witnesses::resume_pruned(block, &[0, 3, 1]).unwrap_err().number, 15);
    /// assert!(Witnesses::resume(block, &[0, 3, 1]).is_ok());
    /// # Ok::<(), cogthunder::Refusal>(())
    /// ```
    pub fn resume_pruned(test: &'a [u8], start: &[u8]) -> Result<Witnesses<'a>, Refusal> {
        Witnesses::by(search_pruned, test, start)
    }

    /// From the beginning, by decisions ([`decide`]): no allowance bounds a step, none is spent, and the number visited stays 0. It
    /// is refused by 1 to 11 and 21, as the test is.
    ///
    /// ```
    /// use cogthunder::{Table, Witnesses};
    ///
    /// // Four harts store to four locations, and load each of them: 20 events, with more than 10^18 clean orders.
    /// let mut table = Table::new(4, 4);
    /// for hart in 0..4 {
    ///     table.store(hart, hart, 1);
    ///     for location in 0..4 {
    ///         table.load(hart, location, u16::from(location == hart));
    ///     }
    /// }
    /// let test = table.test()?;
    /// let mut walk = Witnesses::decided(&test)?;
    /// let first = walk.next().expect("each hart can read past its store");
    /// assert_eq!(first[..5], [1, 2, 3, 4, 6]);
    /// assert!(walk.next() > Some(first));
    /// assert_eq!(walk.visited(), 0);
    /// # Ok::<(), cogthunder::Refusal>(())
    /// ```
    pub fn decided(test: &'a [u8]) -> Result<Witnesses<'a>, Refusal> {
        Witnesses::resume_decided(test, &[])
    }

    /// Those that are greater than a start, by decisions: it may be any list of bytes, a witness or not. It is refused by 1 to 11
    /// and 21, as the test is.
    ///
    /// ```
    /// use cogthunder::Witnesses;
    ///
    /// let block = include_bytes!(concat!(env!("CARGO_MANIFEST_DIR"), "/../samples/C1.block"));
    /// let all: Vec<Vec<u8>> = Witnesses::decided(block)?.collect();
    /// assert!(Witnesses::of(block)?.eq(all.iter().cloned()));
    /// assert!(Witnesses::resume_decided(block, &all[2])?.eq(all[3..].iter().cloned()));
    /// assert_eq!(Witnesses::resume_decided(block, &[3, 255])?.next(), None);
    /// # Ok::<(), cogthunder::Refusal>(())
    /// ```
    pub fn resume_decided(test: &'a [u8], start: &[u8]) -> Result<Witnesses<'a>, Refusal> {
        read(test)?;
        Ok(Witnesses::from(decided, test, start))
    }

    /// From the beginning, of a test as text ([`search_text`]). It is refused as by [`read_text`](crate::read_text).
    ///
    /// ```
    /// use cogthunder::Witnesses;
    ///
    /// // Message passing, with a fence between the accesses of each hart: that event 5 misses the data is forbidden.
    /// let text = |condition: &str| {
    ///     format!(
    ///         "2 0 0 0 0 0 0 0 1 0 0\n6 0 0 15 0 0 0 0 0 0 0\n2 0 1 0 0 0 0 0 1 0 0\n\
    ///          1 1 1 0 0 0 0 0 0 0 0\n6 1 0 15 0 0 0 0 0 0 0\n1 1 0 0 0 0 0 0 0 0 0\n\n0 0\n{condition}\n"
    ///     )
    /// };
    /// let missed = text("( r3=1 and r5=0 )");
    /// assert_eq!(Witnesses::of_text(missed.as_bytes())?.next(), None);
    /// let seen = text("( r3=1 and r5=1 )");
    /// assert_eq!(Witnesses::of_text(seen.as_bytes())?.next(), Some(vec![0, 2, 3, 5]));
    /// # Ok::<(), cogthunder::Refusal>(())
    /// ```
    pub fn of_text(text: &'a [u8]) -> Result<Witnesses<'a>, Refusal> {
        Witnesses::resume_text(text, &[])
    }

    /// From a start that an earlier walk over the same text had reached. It is refused as by [`read_text`](crate::read_text),
    /// and by 15 if no walk over this text could have such a start.
    ///
    /// ```
    /// use cogthunder::{Answer, Witnesses};
    ///
    /// let text = b"2 0 0 0 0 0 0 0 1 0 0\n2 0 1 0 0 0 0 0 1 0 0\n1 1 1 0 0 0 0 0 0 0 0\n1 1 0 0 0 0 0 0 0 0 0\n\n0 0\n\
    ///              ( r2=1 and r3=0 )\n";
    /// let mut walk = Witnesses::of_text(text)?.allowance(26);
    /// assert_eq!(walk.step(), Answer::Spent { len: 3, visited: 26 });
    /// let saved = walk.start().to_vec();
    /// assert_eq!(saved, [1, 2, 3]);
    ///
    /// let orders: Vec<Vec<u8>> = Witnesses::resume_text(text, &saved)?.collect();
    /// assert_eq!(orders.len(), 6);
    /// assert_eq!(orders, walk.collect::<Vec<_>>());
    /// # Ok::<(), cogthunder::Refusal>(())
    /// ```
    pub fn resume_text(text: &'a [u8], start: &[u8]) -> Result<Witnesses<'a>, Refusal> {
        Witnesses::by(search_text, text, start)
    }

    fn by(search: Search, test: &'a [u8], start: &[u8]) -> Result<Witnesses<'a>, Refusal> {
        // Without any allowance, the call only tells whether it is refused.
        search(test, start, &mut [0; EVENTS], 0)?;
        Ok(Witnesses::from(search, test, start))
    }

    /// From a start that isn't refused.
    fn from(search: Search, test: &'a [u8], start: &[u8]) -> Witnesses<'a> {
        Witnesses { search, test, start: start.to_vec(), allowance: ALLOWANCE, visited: 0, finished: false }
    }

    /// Chooses how many prefixes one search call visits at most: 1 to [`LARGEST_ALLOWANCE`], and what is outside is taken
    /// as the nearest of these. The witnesses are the same with any allowance.
    pub fn allowance(mut self, allowance: u64) -> Witnesses<'a> {
        self.allowance = allowance.clamp(1, LARGEST_ALLOWANCE);
        self
    }

    /// Makes one search call, and moves the start to what it wrote. After [`Answer::Found`] the start is the witness.
    pub fn step(&mut self) -> Answer {
        let mut out = [0; EVENTS];
        let answer = (self.search)(self.test, &self.start, &mut out, self.allowance)
            .expect("the test and the start are good, and the room and the allowance are enough");
        match answer {
            Answer::Found { len, visited } | Answer::Spent { len, visited } => {
                self.start = out[..len].to_vec();
                self.visited += visited;
            }
            Answer::NoneLeft { visited } => {
                self.visited += visited;
                self.finished = true;
            }
        }
        answer
    }

    /// Where the next search call begins.
    pub fn start(&self) -> &[u8] {
        &self.start
    }

    /// How many prefixes were visited so far.
    pub fn visited(&self) -> u64 {
        self.visited
    }
}

impl Iterator for Witnesses<'_> {
    type Item = Vec<u8>;

    /// Goes on until a witness is found or none is left, whatever the allowance.
    fn next(&mut self) -> Option<Vec<u8>> {
        while !self.finished {
            if let Answer::Found { .. } = self.step() {
                return Some(self.start.clone());
            }
        }
        None
    }
}

impl FusedIterator for Witnesses<'_> {}
