//! The second program with a fault built in, to test that `compare` finds it. FAULT in the environment names the fault.

use second::closure::{failures, joined};
use second::lines::{lent_words, Answer, Operation, Question, Unification};
use second::listing::{listing, Listing};
use second::operations::{refused, text, words_of, LENT};
use second::table::{read, Node, Problem};
use second::terms::Terms;
use second::unification::bindings;
use std::io::{self, Read, Write};

/// More entries than most listings have.
const MANY: usize = 20;

fn main() -> io::Result<()> {
    let fault = std::env::var("FAULT").expect("FAULT names a fault");
    let mut input = Vec::new();
    io::stdin().read_to_end(&mut input)?;
    let printed = match fault.strip_prefix("answers ") {
        Some(fault) => answers(fault, &String::from_utf8_lossy(&input)),
        None => entries(&fault, &input),
    };
    io::stdout().write_all(printed.as_bytes())
}

/// The listing of a table.
fn entries(fault: &str, input: &[u8]) -> String {
    match words_of(input).and_then(|table| read(&table)) {
        // A refusal off by one.
        Err(6) if fault == "refusal" => refused(7),
        Err(refusal) => refused(refusal),
        Ok(problem) => {
            let mut listing = listing(&problem, LENT);
            spoil(fault, &problem, LENT, &mut listing);
            let entries = listing.entries.len();
            text(&listing).replacen(&entries.to_string(), &counted(fault, &listing).to_string(), 1)
        }
    }
}

/// The answers to lines.
fn answers(fault: &str, lines: &str) -> String {
    let answered = |line: &str| {
        let question = Question::read(line).expect("a question");
        question.answered(&answer(fault, &question))
    };
    let answers: String = lines.lines().map(answered).collect();
    match fault {
        "more" => answers + "more\n",
        _ => answers,
    }
}

/// The answer to a question.
fn answer(fault: &str, question: &Question) -> Answer {
    let problem = read(&question.table);
    if let (Operation::List(lent), Ok(problem)) = (question.operation, &problem) {
        return listing_answer(fault, problem, lent);
    }
    let mut answer = question.answer();
    match (fault, answer.answer.as_str()) {
        // A refusal off by one.
        ("refusal", "refused 6") => answer.answer = "refused 7".to_string(),
        // The lent words tested before the numbers of nodes.
        ("lent", "refused 8") if answer.lent.is_empty() => answer.answer = "refused 9".to_string(),
        // A word changed by a refused call.
        ("refused", "refused 8" | "refused 9") => answer.lent.fill(0),
        ("refused", "refused 4") if matches!(question.operation, Operation::List(_)) => answer.lent.fill(0),
        _ => {}
    }
    if let (Operation::Unify(asked), Ok(problem)) = (question.operation, &problem) {
        spoil_unification(fault, problem, asked, &mut answer);
    }
    answer
}

fn spoil_unification(fault: &str, problem: &Problem, asked: Unification, answer: &mut Answer) {
    let variables = problem.variables().len();
    let pair = (asked.a as usize, asked.b as usize);
    match (fault, answer.answer.as_str()) {
        // Occurs, where there is a clash too.
        ("occurs", "clash") if failures(problem, &[pair]).occurs => answer.answer = "occurs".to_string(),
        // A word changed by a failure.
        ("clash", "clash") | ("changed", "occurs") => answer.lent.fill(0),
        // A word more than there are variables.
        ("past", "unified") if answer.lent.len() > variables => answer.lent[variables] = 0,
        ("word", "unified") => greatest(problem, &mut answer.lent[..variables]),
        ("joined", "unified") => least_joined(problem, pair, &mut answer.lent[..variables]),
        _ => {}
    }
}

/// The answer of a listing, and the lent words after it.
fn listing_answer(fault: &str, problem: &Problem, length: usize) -> Answer {
    let mut listed = listing(problem, length);
    spoil(fault, problem, length, &mut listed);
    let mut words = listed.entries.concat();
    let mut lent = lent_words(length);
    match fault {
        // A word after the entries changed.
        "past" if words.len() < length && listed.entries.len() > 1 => words.push(0),
        // The entry that does not fit, as far as it goes.
        "part" if listed.full => {
            let entry = listing(problem, length + problem.entry_words()).entries.pop();
            words.extend(entry.expect("an entry more").into_iter().take(length - words.len()));
        }
        _ => {}
    }
    lent[..words.len()].copy_from_slice(&words);
    let word = if listed.full { "full" } else { "entries" };
    Answer { answer: format!("{word} {}", counted(fault, &listed)), lent }
}

/// The number of entries that is given.
fn counted(fault: &str, listing: &Listing) -> usize {
    // The entry that does not fit is counted too.
    listing.entries.len() + usize::from(fault == "count" && listing.full)
}

fn spoil(fault: &str, problem: &Problem, lent: usize, listing: &mut Listing) {
    let (left, right) = (&problem.left, &problem.right);
    let digits = left.terms.len() + right.terms.len();
    let room = lent.checked_div(problem.entry_words()).unwrap_or(usize::MAX);
    let entries = &mut listing.entries;
    match fault {
        // An entry dropped from the middle of a long listing.
        "dropped" if entries.len() > MANY => {
            entries.remove(MANY / 2);
        }
        // One given twice.
        "repeated" if entries.len() > MANY && entries.len() < room => {
            entries.insert(MANY / 2, entries[MANY / 2].clone());
        }
        // The last two entries in the other order, where both sides have labels.
        "swapped" if entries.len() > 1 && !left.labels.is_empty() && !right.labels.is_empty() => {
            let last = entries.len() - 1;
            entries.swap(last - 1, last);
        }
        // The digits of the right terms before those of the left terms.
        "digits" => entries.iter_mut().for_each(|entry| entry[..digits].rotate_left(left.terms.len())),
        // A listing cut short that is said to be finished.
        "finished" => listing.full = false,
        // A finished listing that is said to be full, because no word is left.
        "full" => listing.full |= !entries.is_empty() && entries.concat().len() == lent,
        // One said to be full while there is room for its last entry.
        "room" if entries.len() > MANY && !listing.full => {
            entries.pop();
            listing.full = true;
        }
        // A listing that stops when the next entry would fill all words.
        "last" if listing.full && entries.concat().len() == lent => {
            entries.pop();
        }
        // Another node in the last binding word of a listing of several entries.
        "bound" if entries.len() > 1 && problem.entry_words() > digits => {
            *entries.last_mut().and_then(|entry| entry.last_mut()).expect("a binding word") ^= 1;
        }
        "word" => entries.iter_mut().for_each(|entry| greatest(problem, &mut entry[digits..])),
        // Left terms with labels open to them, and one partner or none, taken for terms that must be paired.
        "open" => {
            let few: Vec<bool> = left.terms.iter().map(|&term| partners(problem, term).len() < 2).collect();
            let is_put = |digit: u32| digit as usize > right.terms.len();
            entries.retain(|entry| !few.iter().zip(entry).any(|(&few, &digit)| few && is_put(digit)));
        }
        // The last partner of a term that must be paired struck out, although the pair unifies.
        "struck" if right.labels.is_empty() && !left.terms.is_empty() => {
            let last = left.terms.len() - 1;
            let struck = partners(problem, left.terms[last]).pop();
            entries.retain(|entry| Some(entry[last]) != struck);
        }
        _ => {}
    }
}

/// The digits of the right terms that a term unifies with.
fn partners(problem: &Problem, term: usize) -> Vec<u32> {
    let mut terms = Terms::default();
    let nodes = terms.of_nodes(problem);
    let unifies = |other: usize| bindings(&terms, &[(nodes[term], nodes[other])]).is_some();
    (1..).zip(&problem.right.terms).filter(|&(_, &other)| unifies(other)).map(|(digit, _)| digit).collect()
}

/// Makes each binding word the greatest node of the same term, in place of the least.
fn greatest(problem: &Problem, words: &mut [u32]) {
    let nodes = Terms::default().of_nodes(problem);
    for word in words {
        let same = (0..nodes.len()).filter(|&node| nodes[node] == nodes[*word as usize]);
        *word = same.max().expect("the node itself") as u32;
    }
}

/// Makes each binding word that is an application the least one that is joined to the variable, in place of the least
/// one that has the same value.
fn least_joined(problem: &Problem, pair: (usize, usize), words: &mut [u32]) {
    let joined = joined(problem, &[pair]);
    let nodes = &problem.nodes;
    for (x, word) in problem.variables().into_iter().zip(words) {
        let own = nodes.iter().position(|node| *node == Node::Variable(x)).expect("x is present");
        let is_application = |node: usize| matches!(nodes[node], Node::Application { .. });
        if let Some(least) = (0..nodes.len()).find(|&node| is_application(node) && joined(own, node)) {
            *word = least as u32;
        }
    }
}
