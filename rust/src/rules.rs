//! The rules of preserved program order, and sets of them.

use std::fmt;

/// The rules in words, from rule 1.
const WORDS: [&str; 13] = [
    "a later write to the same location",
    "reads of one location that return from different writes",
    "a read that returns from an earlier AMO or SC",
    "a fence between",
    "an acquire before",
    "a release after",
    "two RCsc annotations",
    "an LR and its SC",
    "an address dependency",
    "a data dependency",
    "a control dependency of a write",
    "a read of a write that depends on the first",
    "a write after an access whose address depends on the first",
];

const ALL: std::ops::RangeInclusive<u8> = 1..=WORDS.len() as u8;

/// A set of rules of preserved program order, which have the numbers 1 to 13.
///
/// ```
/// use cogthunder::Rules;
///
/// let rules = Rules::from_iter([9, 4]);
/// assert!(rules.contains(9) && !rules.contains(1));
/// assert_eq!(rules.lowest(), Some(4));
/// assert_eq!(rules.iter().collect::<Vec<u8>>(), [4, 9]);
/// assert_eq!(rules.to_string(), "rules 4 (a fence between) and 9 (an address dependency)");
/// ```
#[derive(Clone, Copy, PartialEq, Eq, Hash, Default)]
pub struct Rules {
    /// Bit r - 1 is rule r.
    bits: u16,
}

impl Rules {
    pub(crate) fn of_bits(bits: u16) -> Rules {
        Rules { bits }
    }

    /// Whether a rule is in the set.
    pub fn contains(self, rule: u8) -> bool {
        ALL.contains(&rule) && self.bits >> (rule - 1) & 1 == 1
    }

    /// The rules of the set, ascending.
    pub fn iter(self) -> impl Iterator<Item = u8> {
        ALL.filter(move |&rule| self.contains(rule))
    }

    /// The lowest rule of the set.
    pub fn lowest(self) -> Option<u8> {
        self.iter().next()
    }

    /// Whether no rule is in the set.
    pub fn is_empty(self) -> bool {
        self.lowest().is_none()
    }
}

impl FromIterator<u8> for Rules {
    /// # Panics
    ///
    /// A number isn't from 1 to 13.
    fn from_iter<I: IntoIterator<Item = u8>>(rules: I) -> Rules {
        let bit = |rule: u8| {
            assert!(ALL.contains(&rule), "rule {rule} is one from 1 to 13");
            1 << (rule - 1)
        };
        Rules { bits: rules.into_iter().fold(0, |bits, rule| bits | bit(rule)) }
    }
}

impl fmt::Debug for Rules {
    fn fmt(&self, f: &mut fmt::Formatter) -> fmt::Result {
        f.debug_set().entries(self.iter()).finish()
    }
}

impl fmt::Display for Rules {
    fn fmt(&self, f: &mut fmt::Formatter) -> fmt::Result {
        let rules: Vec<String> = self.iter().map(|r| format!("{r} ({})", WORDS[usize::from(r) - 1])).collect();
        match &rules[..] {
            [] => write!(f, "no rule"),
            [rule] => write!(f, "rule {rule}"),
            [others @ .., last] => write!(f, "rules {} and {last}", others.join(", ")),
        }
    }
}

#[cfg(test)]
mod tests {
    use super::*;

    #[test]
    fn sets_are_words() {
        assert_eq!(Rules::default().to_string(), "no rule");
        assert_eq!(Rules::from_iter([8]).to_string(), "rule 8 (an LR and its SC)");
        assert_eq!(
            Rules::from_iter([6, 4, 5]).to_string(),
            "rules 4 (a fence between), 5 (an acquire before) and 6 (a release after)"
        );
    }

    #[test]
    fn a_set_has_its_rules() {
        for rule in ALL {
            let set = Rules::from_iter([rule]);
            assert_eq!(set, Rules::of_bits(1 << (rule - 1)));
            assert_eq!((set.lowest(), set.iter().count()), (Some(rule), 1));
            assert!(set.contains(rule) && !set.is_empty());
        }
        assert!(![0, 14, 255].into_iter().any(|number| Rules::from_iter(ALL).contains(number)));
        assert!(Rules::default().is_empty());
    }
}
