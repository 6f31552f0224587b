//! The conditions under which a call is refused.

use crate::raw;
use std::error::Error;
use std::fmt;

/// Why a call was refused: the first of these whose condition holds, each tried over the whole table before the next.
#[derive(Clone, Copy, Debug, PartialEq, Eq, Hash)]
pub enum Refusal {
    /// Fewer than 12 words.
    TooFewWords,
    /// Sections that do not lie end to end, from word 12 to the end.
    BrokenPair,
    /// Nodes that are no multiple of 4 words, or a section over its limit.
    OverLimit,
    /// A wrong kind, name, first or count, or a wrong sum of counts.
    WrongNode,
    /// An argument that is not smaller than its node.
    WrongArgument,
    /// A term that is not a node number.
    WrongTerm,
    /// A label that is 0, above 65535 or repeated.
    WrongLabel,
    /// Of [`unify`](crate::unify): a given number is not a node.
    NotANode,
    /// Of [`unify`](crate::unify): fewer words are lent than there are variables.
    TooFewLent,
}

impl Refusal {
    /// All of them, in the order of their numbers.
    pub const ALL: [Refusal; 9] = [
        Refusal::TooFewWords,
        Refusal::BrokenPair,
        Refusal::OverLimit,
        Refusal::WrongNode,
        Refusal::WrongArgument,
        Refusal::WrongTerm,
        Refusal::WrongLabel,
        Refusal::NotANode,
        Refusal::TooFewLent,
    ];

    /// The number that C callers get.
    pub fn number(self) -> u32 {
        match self {
            Refusal::TooFewWords => raw::TOO_FEW_WORDS,
            Refusal::BrokenPair => raw::BROKEN_PAIR,
            Refusal::OverLimit => raw::OVER_LIMIT,
            Refusal::WrongNode => raw::WRONG_NODE,
            Refusal::WrongArgument => raw::WRONG_ARGUMENT,
            Refusal::WrongTerm => raw::WRONG_TERM,
            Refusal::WrongLabel => raw::WRONG_LABEL,
            Refusal::NotANode => raw::NOT_A_NODE,
            Refusal::TooFewLent => raw::TOO_FEW_LENT,
        }
    }

    /// The refusal of a number that the library answers.
    pub(crate) fn of(number: u32) -> Refusal {
        let refusal = Refusal::ALL.into_iter().find(|refusal| refusal.number() == number);
        refusal.expect("the library answers the numbers of its header")
    }
}

impl fmt::Display for Refusal {
    fn fmt(&self, f: &mut fmt::Formatter) -> fmt::Result {
        f.write_str(match self {
            Refusal::TooFewWords => "fewer than 12 words",
            Refusal::BrokenPair => "sections that do not lie end to end, from word 12 to the end",
            Refusal::OverLimit => "nodes that are no multiple of 4 words, or a section over its limit",
            Refusal::WrongNode => "a wrong kind, name, first or count, or a wrong sum of counts",
            Refusal::WrongArgument => "an argument that is not smaller than its node",
            Refusal::WrongTerm => "a term that is not a node number",
            Refusal::WrongLabel => "a label that is 0, above 65535 or repeated",
            Refusal::NotANode => "a given number is not a node",
            Refusal::TooFewLent => "fewer words are lent than there are variables",
        })
    }
}

impl Error for Refusal {}
