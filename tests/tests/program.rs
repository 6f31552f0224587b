//! What this project's program `examples` is to print for its input is what the second program answers.

use second::lines::{Operation, Question};
use std::fs;

fn file(name: &str) -> String {
    let path = format!("{}/../crates/examples/{name}", env!("CARGO_MANIFEST_DIR"));
    fs::read_to_string(&path).expect(&path)
}

fn questions() -> Vec<Question> {
    file("stdin").lines().map(|line| Question::read(line).expect(line)).collect()
}

#[test]
fn each_line_is_answered_as_expected() {
    let answered: Vec<String> = questions().iter().map(|question| question.answered(&question.answer())).collect();
    for (answered, expected) in answered.iter().zip(file("stdout").lines()) {
        assert_eq!(answered.trim_end_matches('\n'), expected);
    }
    assert_eq!(answered.concat(), file("stdout"));
}

/// The answers to the questions of some operation.
fn answers(asked: fn(Operation) -> bool) -> Vec<String> {
    questions().iter().filter(|question| asked(question.operation)).map(|question| question.answer().answer).collect()
}

#[test]
fn each_answer_of_unifying_is_among_them() {
    let answers = answers(|operation| matches!(operation, Operation::Unify(_)));
    assert!(answers.len() >= 40);
    for answer in ["unified", "clash", "occurs"] {
        assert!(answers.iter().filter(|other| *other == answer).count() >= 5, "{answer}");
    }
    for refusal in 1..=9 {
        assert!(answers.contains(&format!("refused {refusal}")), "{refusal}");
    }
}

#[test]
fn each_answer_of_listing_is_among_them() {
    let answers = answers(|operation| matches!(operation, Operation::List(_)));
    assert!(answers.len() >= 40);
    for answer in ["entries", "full"] {
        assert!(answers.iter().filter(|other| other.starts_with(answer)).count() >= 10, "{answer}");
    }
    for answer in ["entries 0", "full 0"].map(String::from).into_iter().chain((1..=7).map(|n| format!("refused {n}"))) {
        assert!(answers.contains(&answer), "{answer}");
    }
}
