//! Damaged and random input: every command ends with a status of its own and says why, and
//! a formula that is not the file's is never explained as if it were.

mod common;

use common::writing::{written, Written};
use common::{parlour, Stored};
use parlour::commands::Outcome;
use parlour::words::Status;
use peer::generate;
use peer::model::lines;
use peer::model::lines::Input;
use peer::random::Random;
use std::collections::BTreeSet;

/// Words that a file may hold in a wrong place.
const WORDS: [&str; 32] = [
    "dimension",
    "quantity",
    "term",
    "reading",
    "mod",
    "mass",
    "length",
    "time",
    "bore",
    "g1",
    "#",
    "^",
    "bore^",
    "^2",
    "bore^2^3",
    "bore^-",
    "*",
    "/",
    "a/b",
    "-",
    "+",
    "1",
    "-1",
    "0",
    "1e400",
    "1e-400",
    "nan",
    "inf",
    "99999999999",
    "2147483648",
    "bore^10001",
    "mod mod",
];

/// A word, mostly one that stands in the file.
fn word(text: &[u8], random: &mut Random) -> Vec<u8> {
    let words: Vec<&[u8]> = text.split(u8::is_ascii_whitespace).collect();
    match random.below(3) {
        0 => random.pick(&WORDS).into(),
        _ => random.pick(&words).to_vec(),
    }
}

fn split(text: &[u8]) -> Vec<Vec<u8>> {
    let lines = text.split_inclusive(|&byte| byte == b'\n');
    lines.map(<[u8]>::to_vec).collect()
}

/// One way to damage a text; some leave it good.
fn damage(text: &mut Vec<u8>, random: &mut Random) {
    let place = random.below(text.len() + 1);
    let mut lines = split(text);
    let line = random.below(lines.len().max(1));
    let other = random.below(lines.len().max(1));
    match random.below(12) {
        0 => text.truncate(place),
        1 => text.insert(place, random.bits() as u8),
        2 => text.insert(place, random.pick(b" \n\r\t#^-+0129eamg*/.\0\x1b\xc3")),
        3 if place < text.len() => text[place] = random.bits() as u8,
        4 if place < text.len() => drop(text.remove(place)),
        5 => {
            let mut word = word(text, random);
            word.insert(0, b' ');
            word.push(b' ');
            text.splice(place..place, word);
        }
        6 if !lines.is_empty() => {
            lines.swap(line, other);
            *text = lines.concat();
        }
        7 if !lines.is_empty() => {
            lines.insert(line, lines[other].clone());
            *text = lines.concat();
        }
        8 if !lines.is_empty() => {
            lines.remove(line);
            *text = lines.concat();
        }
        9 => {
            let name = random.pick(&["dimension d", "quantity q", "term 1 # ", "reading "]);
            let count = random.below(70);
            let added = (0..count).map(|i| format!("\n{name}{i}"));
            text.extend(added.collect::<String>().bytes());
        }
        10 if !lines.is_empty() => {
            let words: Vec<Vec<u8>> = lines[line]
                .split(|&b| b == b' ')
                .map(<[u8]>::to_vec)
                .collect();
            let mut words = words;
            let first = random.below(words.len());
            words[first] = word(text, random);
            lines[line] = words.join(&b' ');
            *text = lines.concat();
        }
        _ => text.extend(word(&text.clone(), random)),
    }
}

/// What holds of every outcome: a text on one of the two outputs, and on standard error
/// lines that name where the fault is.
fn check(outcome: &Outcome, source: &str) {
    let Outcome { status, out, err } = outcome;
    match status {
        Status::Done => assert!(err.is_empty() && out.ends_with('\n'), "{outcome:?}"),
        _ => {
            assert!(out.is_empty() && err.ends_with('\n'), "{outcome:?}");
            assert!(err.lines().all(|line| line.starts_with(source)), "{err}");
            let shown = |c: char| c == '\n' || !c.is_control();
            assert!(err.chars().all(shown), "{err}");
        }
    }
}

/// The sentence of a message without its names and numbers.
fn sentence(err: &str) -> String {
    let words = err.split(": ").nth(1).unwrap_or("").split_whitespace();
    words.take(3).collect::<Vec<_>>().join(" ")
}

/// The program's refusal is the report's. What the program takes, the report refuses for
/// its readings alone.
fn check_refusal(answer: &str, report: &Outcome) {
    let told = |number: &u8| report.err.contains(&format!("(refusal {number})\n"));
    if let Some(digits) = answer.strip_prefix("ff") {
        let number = u8::from_str_radix(&digits[..2], 16).expect("a number");
        assert!(told(&number), "{answer} {report:?}");
    } else {
        let of_readings = [11, 12, 13].iter().any(told);
        assert!(report.status == Status::Done || of_readings, "{report:?}");
    }
}

/// All commands that read a file.
fn check_file(text: &[u8], seen: &mut Seen) {
    let report = parlour(&["-"], text);
    let matrices = parlour(&["matrices", "-"], text);
    let frames = parlour(&["frames", "-"], text);
    for outcome in [&report, &matrices, &frames] {
        check(outcome, "standard input");
        assert_ne!(outcome.status, Status::Wrong);
    }
    seen.statuses[report.status as usize] += 1;
    seen.sentences.insert(sentence(&report.err));
    // A file is unreadable for all, and refused for the same reason by both programs.
    let unreadable = report.status == Status::Unreadable;
    assert_eq!(matrices.status == Status::Unreadable, unreadable);
    if unreadable {
        assert_eq!((&report.err, &report.err), (&matrices.err, &frames.err));
    } else if frames.status == Status::Done {
        let answer = lines::answer(frames.out.as_bytes());
        check_refusal(&answer, &report);
    }
}

struct Seen {
    statuses: [usize; 4],
    sentences: BTreeSet<String>,
}

impl Seen {
    fn none() -> Seen {
        Seen {
            statuses: [0; 4],
            sentences: BTreeSet::new(),
        }
    }
}

fn random_file(random: &mut Random) -> (Input, Written) {
    let input = generate::input(random);
    let readings: Vec<f64> = match random.below(3) {
        0 => Vec::new(),
        _ => (0..input.problem.n).map(|i| 0.5 + i as f64).collect(),
    };
    let file = written(&input, &readings, random);
    (input, file)
}

#[test]
fn damaged_files() {
    let mut random = Random::new(1);
    let mut seen = Seen::none();
    for _ in 0..6000 {
        let (_, file) = random_file(&mut random);
        let mut text = file.text.into_bytes();
        for _ in 0..1 + random.below(3) {
            damage(&mut text, &mut random);
        }
        check_file(&text, &mut seen);
    }
    let [done, refused, unreadable, _] = seen.statuses;
    assert!(
        done > 300 && refused > 300 && unreadable > 1000,
        "{:?}",
        seen.statuses
    );
    assert!(seen.sentences.len() > 30, "{:?}", seen.sentences);
}

#[test]
fn random_bytes_and_words() {
    let mut random = Random::new(2);
    let mut seen = Seen::none();
    for _ in 0..4000 {
        let count = random.below(60);
        let text: Vec<u8> = match random.below(3) {
            0 => (0..count).map(|_| random.bits() as u8).collect(),
            1 => (0..count)
                .map(|_| random.pick(b"dimensoquatyrg \n\n^-+1290#.e"))
                .collect(),
            _ => {
                let blank = |random: &mut Random| random.pick(&[" ", " ", " ", "\n"]);
                let words =
                    (0..count).map(|_| random.pick(&WORDS).to_string() + blank(&mut random));
                words.collect::<String>().into_bytes()
            }
        };
        check_file(&text, &mut seen);
    }
    assert!(
        seen.statuses[Status::Unreadable as usize] > 3000,
        "{:?}",
        seen.statuses
    );
}

/// Another digit, or any other damage.
fn damage_lines(text: &mut Vec<u8>, random: &mut Random) {
    let place = random.below(text.len());
    if text[place] != b'\n' && random.below(3) > 0 {
        text[place] = random.pick(b"0123456789abcdef");
    } else {
        damage(text, random);
    }
}

#[test]
fn damaged_lines_are_explained_or_not_but_never_wrongly() {
    let mut random = Random::new(3);
    let mut statuses = [0; 4];
    for _ in 0..3000 {
        let (input, file) = random_file(&mut random);
        let frames = lines::write(&input).expect("in range");
        let good = lines::answer(frames.as_bytes());
        let mut text = good.clone().into_bytes();
        damage_lines(&mut text, &mut random);
        let stored = Stored::new("damaged", file.text.as_bytes());
        let named = parlour(&["explain", stored.path()], &text);
        let unnamed = parlour(&["explain"], &text);
        for outcome in [&named, &unnamed] {
            if outcome.status == Status::Refused {
                assert!(outcome.err.is_empty() && outcome.out.ends_with(")\n"));
            } else if outcome.err.starts_with("standard") {
                check(outcome, "standard input:");
            } else {
                check(outcome, stored.path());
            }
        }
        assert_ne!(unnamed.status, Status::Wrong);
        statuses[named.status as usize] += 1;
        // Only the right lines are explained with the file, and any bad line of the input.
        if matches!(named.status, Status::Done | Status::Refused) {
            assert!(text == good.as_bytes() || text.starts_with(b"ff0a"));
        }
    }
    assert!(statuses.iter().all(|&count| count > 20), "{statuses:?}");
}

/// The last term is not written, or one of its exponents is another: what the bench once
/// released. Every such answer is called wrong.
#[test]
fn a_term_that_is_missing_or_changed_is_never_explained() {
    let mut random = Random::new(4);
    let (mut missing, mut changed) = (0, 0);
    while missing < 500 || changed < 500 {
        let (input, file) = random_file(&mut random);
        let frames = lines::write(&input).expect("in range");
        let good = lines::answer(frames.as_bytes());
        let lines: Vec<&str> = good.lines().collect();
        let terms = lines.iter().filter(|line| line.starts_with("85")).count();
        if terms == 0 {
            continue;
        }
        let stored = Stored::new("missing", file.text.as_bytes());
        let explain = |lines: &[&str]| {
            let text = lines.join("\n") + "\n";
            parlour(&["explain", stored.path()], text.as_bytes()).status
        };
        assert_eq!(explain(&lines), Status::Done);
        assert_eq!(explain(&lines[..lines.len() - 1]), Status::Wrong);
        missing += 1;
        // Another last digit of a number of a term.
        let line = lines.len() - 1 - random.below(terms);
        let number = random.below(lines[line].len() / 8);
        let digit = 2 + 8 * number + 7;
        let mut text = lines[line].to_string().into_bytes();
        let digits = b"0123456789abcdef";
        text[digit] = digits[(1 + random.below(15) + usize::from(digit_of(text[digit]))) % 16];
        let text = String::from_utf8(text).expect("digits");
        let mut lines = lines;
        lines[line] = &text;
        assert_eq!(explain(&lines), Status::Wrong, "{text}");
        changed += 1;
    }
}

fn digit_of(byte: u8) -> u8 {
    let digit = char::from(byte).to_digit(16).expect("a digit");
    digit as u8
}
