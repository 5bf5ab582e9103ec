//! `compare_program PROGRAM COUNT [SEED]` feeds good and damaged inputs to
//! PROGRAM's standard input and compares its standard output with the model's,
//! byte for byte.

use peer::generate;
use peer::model::lines;
use peer::random::Random;
use std::collections::BTreeMap;
use std::io::Write;
use std::process::{Command, Stdio};

/// Mismatches that are printed in full.
const PRINTED: u64 = 5;

/// The lines of a random input, as bytes.
fn good(random: &mut Random) -> Vec<u8> {
    let input = generate::input(random);
    lines::write(&input).expect("in range").into_bytes()
}

/// A word of two bytes in hexadecimal.
fn word(value: i32) -> Vec<u8> {
    format!("{:04x}", value as u16).into_bytes()
}

/// A good input with a number in one of its lines set to a value.
fn with_word(mut text: Vec<Vec<u8>>, tag: &[u8], value: i32, random: &mut Random) -> Vec<Vec<u8>> {
    // The first word is the modulus in a `02` line; in a `03` line the words
    // after the coefficient are exponents.
    let first = if tag == b"02" { 6 } else { 10 };
    let places: Vec<usize> = (0..text.len())
        .filter(|&i| text[i].starts_with(tag) && text[i].len() >= first + 4)
        .collect();
    if !places.is_empty() {
        let line = &mut text[random.pick(&places)];
        let count = (line.len() - first) / 4;
        let place = first + 4 * random.below(count);
        line.splice(place..place + 4, word(value));
    }
    text
}

/// Splits an input into its lines, each with its newline.
fn split(text: &[u8]) -> Vec<Vec<u8>> {
    text.split_inclusive(|&byte| byte == b'\n')
        .map(<[u8]>::to_vec)
        .collect()
}

/// One way to damage an input; some leave it good, with another answer.
fn damage(text: Vec<u8>, random: &mut Random) -> Vec<u8> {
    let mut parts = split(&text);
    if parts.is_empty() {
        return text;
    }
    let line = random.below(parts.len());
    match random.below(24) {
        // Torn: the input ends somewhere, or just before its last newline.
        0 => return text[..random.below(text.len())].to_vec(),
        1 => return text[..text.len() - 1].to_vec(),
        // A line is torn, is missing, comes twice, or two change places.
        2 => {
            let length = random.below(parts[line].len());
            parts[line].truncate(length);
            parts[line].push(b'\n');
        }
        3 => drop(parts.remove(line)),
        4 => parts.insert(line, parts[line].clone()),
        5 => {
            let other = random.below(parts.len());
            parts.swap(line, other);
        }
        // A newline within a line, or none after it.
        6 => {
            let place = random.below(parts[line].len());
            parts[line].insert(place, b'\n');
        }
        7 => drop(parts[line].pop()),
        // Capitals.
        8 => parts[line].make_ascii_uppercase(),
        9 => {
            let place = random.below(parts[line].len());
            parts[line][place] = random.pick(b"ABCDEF");
        }
        // Blank lines, carriage returns, blanks and other bytes.
        10 => parts.insert(line, b"\n".to_vec()),
        11 => parts.push(b"\n".to_vec()),
        12 => {
            let end = parts[line].len() - 1;
            parts[line].insert(end, b'\r');
        }
        13 => {
            let place = random.below(parts[line].len());
            let byte = random.pick(b" \t\0gx/:`\xff-+");
            parts[line].insert(place, byte);
        }
        14 => {
            let place = random.below(parts[line].len());
            parts[line][place] = random.bits() as u8;
        }
        // One digit more or less, one byte more.
        15 => {
            parts[line].insert(0, b'0');
        }
        16 => drop(parts[line].remove(0)),
        17 => {
            let end = parts[line].len() - 1;
            parts[line].splice(end..end, *b"00");
        }
        // Another tag.
        18 => {
            let tag = random.pick(&[*b"00", *b"01", *b"02", *b"03", *b"04", *b"81"]);
            let count = parts[line].len().min(2);
            parts[line].splice(..count, tag);
        }
        // Other sizes, with what follows left as it is.
        19 => {
            let sizes = random.pick(&["0100", "0109", "01ff", "0101", "0108"]);
            let n = random.pick(&["00", "01", "10", "11", "ff"]);
            parts[0] = format!("{sizes}{n}\n").into_bytes();
        }
        // An extra line at the end.
        20 => parts.push(
            random
                .pick(&[&b"03\n"[..], b"x\n", b"x", b"010101\n"])
                .to_vec(),
        ),
        // Numbers out of range: entries and moduli, negative ones too; exponents.
        21 => {
            let value = random.pick(&[1001, -1001, 32_767, -32_768]);
            parts = with_word(parts, b"02", value, random);
        }
        22 => {
            let row = 1 + random.below(8);
            if row < parts.len() && parts[row].len() > 6 {
                let value = random.pick(&[-1, 1001, -1000, 32_767, -32_768, 1000]);
                parts[row].splice(2..6, word(value));
            }
        }
        _ => {
            let value = random.pick(&[10_001, -10_001, 32_767, -32_768, 1, 10_000]);
            parts = with_word(parts, b"03", value, random);
        }
    }
    parts.concat()
}

/// A good problem with exactly so many terms, all exponents 0.
fn with_terms(terms: usize, random: &mut Random) -> Vec<u8> {
    let mut input = generate::input(random);
    input.coefficients = (0..terms as i32).collect();
    input.exponents = vec![0; terms * input.problem.n];
    lines::write(&input).expect("in range").into_bytes()
}

/// Sizes out of range with garbage after them.
fn bad_sizes(random: &mut Random) -> Vec<u8> {
    let m = random.pick(&[0u8, 9, 17, 255, 1, 8]);
    let n = random.pick(&[0u8, 17, 255, 128]);
    let mut text = format!("01{m:02x}{n:02x}\n").into_bytes();
    for _ in 0..random.below(300) {
        text.push(random.bits() as u8);
    }
    text
}

/// Inputs of a million bytes and more.
fn very_long(random: &mut Random) -> Vec<u8> {
    let mut text = good(random);
    match random.below(6) {
        0 => text.extend(vec![b'\n'; 1_000_000]),
        1 => text.extend(vec![b'0'; 1_000_000]),
        2 => text = vec![b'0'; 1_500_000],
        3 => text = with_terms(60_000, random),
        4 => {
            text = b"010900\n".to_vec();
            text.extend(vec![b'a'; 2_000_000]);
        }
        _ => {
            // The first line goes on for a million digits.
            text.pop();
            text.extend(vec![b'1'; 1_000_000]);
            text.push(b'\n');
        }
    }
    text
}

/// A random input and the name of its kind.
fn any(random: &mut Random) -> (&'static str, Vec<u8>) {
    match random.below(100) {
        0..=29 => ("good", good(random)),
        30..=69 => {
            let text = good(random);
            ("damaged once", damage(text, random))
        }
        70..=84 => {
            let mut text = good(random);
            for _ in 0..2 + random.below(2) {
                text = damage(text, random);
            }
            ("damaged more than once", text)
        }
        85..=89 => {
            let terms = random.pick(&[63, 64, 65, 66]);
            ("63 to 66 terms", with_terms(terms, random))
        }
        90..=95 => ("sizes out of range", bad_sizes(random)),
        96..=97 => {
            let mut text = Vec::new();
            for _ in 0..random.below(200) {
                text.push(random.bits() as u8);
            }
            ("any bytes", text)
        }
        _ => ("very long", very_long(random)),
    }
}

/// What the program prints for an input.
fn ask(program: &str, input: &[u8]) -> std::io::Result<Vec<u8>> {
    let mut child = Command::new(program)
        .stdin(Stdio::piped())
        .stdout(Stdio::piped())
        .spawn()?;
    let mut stdin = child.stdin.take().expect("piped");
    std::thread::scope(|scope| {
        scope.spawn(move || {
            // A program may answer, and end, before it has read everything.
            let _ = stdin.write_all(input);
        });
        Ok(child.wait_with_output()?.stdout)
    })
}

/// The start of a text, for a message.
fn start(text: &[u8]) -> String {
    let shown = &text[..text.len().min(3000)];
    let rest = text.len() - shown.len();
    let mut line = String::from_utf8_lossy(shown).into_owned();
    if rest > 0 {
        line.push_str(&format!("... and {rest} bytes more"));
    }
    line
}

fn main() {
    let arguments: Vec<String> = std::env::args().skip(1).collect();
    let usage = || -> ! {
        eprintln!("compare_program PROGRAM COUNT [SEED]");
        std::process::exit(2)
    };
    let number = |text: &String| text.parse::<u64>().unwrap_or_else(|_| usage());
    let (program, count, seed) = match arguments.as_slice() {
        [program, count] => (program, number(count), 1),
        [program, count, seed] => (program, number(count), number(seed)),
        _ => usage(),
    };
    println!("seed {seed}");

    let mut random = Random::new(seed);
    let mut inputs: Vec<(&str, Vec<u8>)> = fixed();
    let (mut passed, mut failed) = (0u64, 0u64);
    let mut kinds: BTreeMap<&str, u64> = BTreeMap::new();
    let mut answers: BTreeMap<String, u64> = BTreeMap::new();
    let total = inputs.len() as u64 + count;
    inputs.reverse();
    for _ in 0..total {
        let (kind, input) = inputs.pop().unwrap_or_else(|| any(&mut random));
        let right = lines::answer(&input);
        let answer = ask(program, &input).unwrap_or_else(|error| {
            eprintln!("{program}: {error}");
            std::process::exit(2)
        });
        *kinds.entry(kind).or_default() += 1;
        let name = match right.strip_prefix("ff") {
            Some(refusal) => format!("refused {}", u8::from_str_radix(&refusal[..2], 16).unwrap()),
            None => "accepted".to_string(),
        };
        *answers.entry(name).or_default() += 1;
        if answer == right.as_bytes() {
            passed += 1;
        } else {
            failed += 1;
            if failed <= PRINTED {
                println!("MISMATCH ({kind}) on the input");
                println!("{}", start(&input));
                println!("the program says\n{}", start(&answer));
                println!("the model says\n{}", start(right.as_bytes()));
            }
        }
    }
    for (kind, count) in kinds {
        println!("input {kind}: {count}");
    }
    for (answer, count) in answers {
        println!("answer {answer}: {count}");
    }
    println!("{passed} passed, {failed} failed");
    std::process::exit(i32::from(failed > 0));
}

/// Inputs that are fed in every run.
fn fixed() -> Vec<(&'static str, Vec<u8>)> {
    let example = "010102\n02000000010002\n0300000005fffc0002\n";
    let mut inputs: Vec<Vec<u8>> = vec![
        example.into(),
        example.replace('\n', "\r\n").into(),
        example.to_uppercase().into(),
        format!("{example}\n").into(),
        format!("\n{example}").into(),
        "".into(),
        "\n".into(),
        "010900\n".into(),
        "010900".into(),
        "010900\ngarbage".into(),
        "010011\n\n\n".into(),
        "01010A\n".into(),
        "0101\n".into(),
        "01010200\n".into(),
    ];
    // Every beginning of the example.
    inputs.extend((0..example.len()).map(|length| example.as_bytes()[..length].to_vec()));
    // The known problems and the problems near M.
    let known = peer::problems::known().into_iter();
    let near_m = peer::boundary::table().into_iter().map(|row| row.problem);
    for problem in known.chain(near_m) {
        let exponents = vec![0; problem.n];
        let input = lines::Input {
            problem,
            coefficients: vec![i32::MIN],
            exponents,
        };
        inputs.push(lines::write(&input).expect("in range").into());
    }
    inputs.into_iter().map(|input| ("fixed", input)).collect()
}
