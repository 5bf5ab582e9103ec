//! Compares a library with the model on one input, and each accepted answer with
//! the definitions through `verify`.

pub mod gauges;
mod lists;
pub(crate) mod numbers;
pub mod single;
pub mod weights;

use crate::library::Library;
use crate::model::calls::{
    build_bytes, from_bytes, translate_bytes, H_SIZE, KEPT_SIZE, TRANSLATED_SIZE, V_SIZE, W_SIZE,
};
use crate::model::lines::{self, Input};
use crate::model::{Problem, MOST_TERMS};
use crate::random::Random;
use crate::verify;

/// One input for the build and the translation, with the byte lengths of the outputs.
#[derive(Clone, Debug)]
pub struct Call {
    pub m: u32,
    pub n: u32,
    pub matrix: Vec<u8>,
    pub moduli: Vec<u8>,
    pub coefficients: Vec<u8>,
    pub exponents: Vec<u8>,
    pub h: usize,
    pub v: usize,
    pub w: usize,
    pub kept: usize,
    pub translated: usize,
}

impl Call {
    /// A well-made call: right lengths, outputs of their least sizes.
    pub fn new(input: &Input) -> Call {
        use crate::model::calls::to_bytes;
        Call {
            m: input.problem.m as u32,
            n: input.problem.n as u32,
            matrix: to_bytes(&input.problem.matrix),
            moduli: to_bytes(&input.problem.moduli),
            coefficients: to_bytes(&input.coefficients),
            exponents: to_bytes(&input.exponents),
            h: 4 * H_SIZE,
            v: 4 * V_SIZE,
            w: 4 * W_SIZE,
            kept: 4 * KEPT_SIZE,
            translated: 4 * TRANSLATED_SIZE,
        }
    }

    /// The problem, if sizes and lengths are right.
    fn problem(&self) -> Option<Problem> {
        let (m, n) = (self.m as usize, self.n as usize);
        let right = (1..=8).contains(&m)
            && (1..=16).contains(&n)
            && self.matrix.len() == 4 * m * n
            && self.moduli.len() == 4 * m;
        right.then(|| Problem::new(m, n, from_bytes(&self.matrix), from_bytes(&self.moduli)))
    }

    /// The input as lines for the program, where it can be said so; and all of
    /// it as bytes.
    pub fn describe(&self) -> String {
        let mut text = format!("m {} n {}\n", self.m, self.n);
        for (name, bytes) in [
            ("matrix", &self.matrix),
            ("moduli", &self.moduli),
            ("coefficients", &self.coefficients),
            ("exponents", &self.exponents),
        ] {
            let digits: String = bytes.iter().map(|byte| format!("{byte:02x}")).collect();
            text.push_str(&format!("{name} ({} bytes) {digits}\n", bytes.len()));
        }
        text.push_str(&format!(
            "output bytes: h {} v {} w {} kept {} translated {}\n",
            self.h, self.v, self.w, self.kept, self.translated
        ));
        let terms = self.coefficients.len() / 4;
        let lines = self.problem().and_then(|problem| {
            let right = self.coefficients.len() == 4 * terms
                && terms <= MOST_TERMS
                && self.exponents.len() == 4 * problem.n * terms;
            if !right {
                return None;
            }
            lines::write(&Input {
                problem,
                coefficients: from_bytes(&self.coefficients),
                exponents: from_bytes(&self.exponents),
            })
        });
        match lines {
            Some(lines) => text.push_str(&format!("for the program:\n{lines}")),
            None => text.push_str("cannot be said in the program's lines\n"),
        }
        text
    }
}

/// Bytes before (up to 7 more) and behind a lent slice that must stay as they
/// are.
const GUARD: usize = 64;

/// A lent slice with a guard around it. It begins at any address, odd ones too.
#[derive(Clone)]
struct Lent {
    bytes: Vec<u8>,
    start: usize,
    length: usize,
}

impl Lent {
    /// An output of this length, filled with a pattern.
    fn output(length: usize, random: &mut Random) -> Lent {
        let start = GUARD + random.below(8);
        let whole = start + length + GUARD;
        let mut bytes = Vec::with_capacity(whole + 8);
        while bytes.len() < whole {
            bytes.extend(random.bits().to_le_bytes());
        }
        bytes.truncate(whole);
        Lent {
            bytes,
            start,
            length,
        }
    }

    /// An input with these bytes.
    fn input(content: &[u8], random: &mut Random) -> Lent {
        let mut lent = Lent::output(content.len(), random);
        lent.lend_to_write().copy_from_slice(content);
        lent
    }

    fn lend(&self) -> &[u8] {
        &self.bytes[self.start..self.start + self.length]
    }

    fn lend_to_write(&mut self) -> &mut [u8] {
        &mut self.bytes[self.start..self.start + self.length]
    }

    /// The first `count` numbers.
    fn numbers(&self, count: usize) -> Vec<i32> {
        from_bytes(&self.lend()[..4 * count])
    }

    /// All that is before the slice, and all that is behind the first `count`
    /// numbers.
    fn around(&self, count: usize) -> (&[u8], &[u8]) {
        (
            &self.bytes[..self.start],
            &self.bytes[self.start + 4 * count..],
        )
    }
}

/// The bytes around the first `count` numbers are what they were.
fn untouched(what: &str, now: &Lent, before: &Lent, count: usize) -> Result<(), String> {
    let (now_before, now_behind) = now.around(count);
    let (front, behind) = before.around(count);
    same_bytes(&format!("before {what}"), now_before, front)?;
    same_bytes(&format!("behind {what}"), now_behind, behind)
}

fn same<T: PartialEq + std::fmt::Debug>(what: &str, library: T, model: T) -> Result<(), String> {
    if library == model {
        Ok(())
    } else {
        Err(format!("{what}: library {library:?}, model {model:?}"))
    }
}

fn same_bytes(what: &str, library: &[u8], model: &[u8]) -> Result<(), String> {
    match library.iter().zip(model).position(|(x, y)| x != y) {
        None => same(what, library.len(), model.len()),
        Some(place) => Err(format!(
            "{what}, byte {place}: library {:02x}, model {:02x}",
            library[place], model[place]
        )),
    }
}

/// The rank and V of an accepted build.
type RankAndV = (usize, Vec<i32>);

/// Calls the library's build and the model's on the same input and compares
/// them; gives the answer's number, and the rank and V if accepted.
fn compare_build(
    library: &mut dyn Library,
    call: &Call,
    random: &mut Random,
) -> Result<(u32, Option<RankAndV>), String> {
    let inputs = [&call.matrix, &call.moduli].map(|bytes| Lent::input(bytes, random));
    let lent = inputs.clone();
    let before = [call.h, call.v, call.w].map(|length| Lent::output(length, random));
    let (mut here, mut there) = (before.clone(), before.clone());
    let answer = {
        let ([matrix, moduli], [h, v, w]) = (&lent, &mut here);
        library.build(
            call.m,
            call.n,
            matrix.lend(),
            moduli.lend(),
            h.lend_to_write(),
            v.lend_to_write(),
            w.lend_to_write(),
        )
    };
    let right = {
        let [h, v, w] = &mut there;
        build_bytes(
            call.m,
            call.n,
            &call.matrix,
            &call.moduli,
            h.lend_to_write(),
            v.lend_to_write(),
            w.lend_to_write(),
        )
    };
    same("build", answer, right)?;
    for (lent, input) in lent.iter().zip(&inputs) {
        same_bytes("an input lent to build", &lent.bytes, &input.bytes)?;
    }
    let names = ["H", "V", "W"];
    for ((name, here), there) in names.iter().zip(&here).zip(&there) {
        same_bytes(name, here.lend(), there.lend())?;
    }
    // What follows does not use the model. On a refusal nothing is written.
    let accepted = answer.number == 0;
    let problem = call.problem();
    let counts = match &problem {
        Some(problem) if accepted => {
            let size = problem.columns();
            [problem.m * size, size * size, size * size]
        }
        _ => [0; 3],
    };
    for i in 0..3 {
        untouched(names[i], &here[i], &before[i], counts[i])?;
    }
    if !accepted {
        return Ok((answer.number, None));
    }
    let problem = problem.ok_or("accepted, but its lengths are wrong")?;
    let [h, v, w] = [0, 1, 2].map(|i: usize| here[i].numbers(counts[i]));
    let given = verify::Given {
        rank: answer.rank as usize,
        moduli: answer.moduli as usize,
        h: &h,
        v: &v,
        w: &w,
    };
    verify::build(&problem, given)?;
    Ok((0, Some((answer.rank as usize, v))))
}

/// The same for the translation; gives the answer's number.
fn compare_translate(
    library: &mut dyn Library,
    call: &Call,
    random: &mut Random,
) -> Result<u32, String> {
    let inputs = [
        &call.matrix,
        &call.moduli,
        &call.coefficients,
        &call.exponents,
    ]
    .map(|bytes| Lent::input(bytes, random));
    let lent = inputs.clone();
    let before = [call.kept, call.translated].map(|length| Lent::output(length, random));
    let (mut here, mut there) = (before.clone(), before.clone());
    let answer = {
        let ([matrix, moduli, coefficients, exponents], [kept, translated]) = (&lent, &mut here);
        library.translate(
            call.m,
            call.n,
            matrix.lend(),
            moduli.lend(),
            coefficients.lend(),
            exponents.lend(),
            kept.lend_to_write(),
            translated.lend_to_write(),
        )
    };
    let right = {
        let [kept, translated] = &mut there;
        translate_bytes(
            call.m,
            call.n,
            &call.matrix,
            &call.moduli,
            &call.coefficients,
            &call.exponents,
            kept.lend_to_write(),
            translated.lend_to_write(),
        )
    };
    same("translate", answer, right)?;
    for (lent, input) in lent.iter().zip(&inputs) {
        same_bytes("an input lent to translate", &lent.bytes, &input.bytes)?;
    }
    let names = ["the kept coefficients", "the translated exponents"];
    for ((name, here), there) in names.iter().zip(&here).zip(&there) {
        same_bytes(name, here.lend(), there.lend())?;
    }
    // What follows does not use the model. On a refusal nothing is written.
    let accepted = answer.number == 0;
    let d = answer.d as usize;
    let terms = call.coefficients.len() / 4;
    let counts = if accepted { [terms, terms * d] } else { [0; 2] };
    for i in 0..2 {
        untouched(names[i], &here[i], &before[i], counts[i])?;
    }
    if !accepted {
        return Ok(answer.number);
    }
    let problem = call
        .problem()
        .ok_or("accepted, but its lengths are wrong")?;
    let kept = here[0].numbers(terms);
    same("coefficients kept", kept, from_bytes(&call.coefficients))?;

    // The round trip, with the V of the library's own build.
    let whole = Call {
        h: 4 * H_SIZE,
        v: 4 * V_SIZE,
        w: 4 * W_SIZE,
        ..call.clone()
    };
    let (_, built) = compare_build(library, &whole, random)?;
    let (rank, v) = built.ok_or("translated, but the build is refused")?;
    same("d", d, problem.columns() - rank)?;
    let exponents = from_bytes(&call.exponents);
    let translated = here[1].numbers(terms * d);
    for term in 0..terms {
        verify::term(
            &problem,
            rank,
            &v,
            &exponents[term * problem.n..(term + 1) * problem.n],
            &translated[term * d..(term + 1) * d],
        )
        .map_err(|error| format!("term {term}: {error}"))?;
    }
    Ok(0)
}

/// How many answers of each number there were; 0 is accepted.
#[derive(Clone, Debug, Default)]
pub struct Tally {
    pub build: [u64; 11],
    pub translate: [u64; 11],
    pub build_numbers: [u64; 11],
    pub translate_numbers: [u64; 11],
    pub passed: u64,
    pub failed: u64,
}

impl Tally {
    /// Compares one input on both calls, over bytes and over numbers, and counts it;
    /// gives what is wrong.
    pub fn compare(
        &mut self,
        library: &mut dyn Library,
        call: &Call,
        random: &mut Random,
    ) -> Result<(), String> {
        let build = compare_build(library, call, random).map(|(number, _)| number);
        let results = [
            (build, &mut self.build),
            (
                compare_translate(library, call, random),
                &mut self.translate,
            ),
            (
                numbers::compare_build(library, call, random),
                &mut self.build_numbers,
            ),
            (
                numbers::compare_translate(library, call, random),
                &mut self.translate_numbers,
            ),
        ];
        let mut first = Ok(());
        for (result, kinds) in results {
            match result {
                Ok(number) => kinds[number as usize] += 1,
                Err(error) => first = first.and(Err(error)),
            }
        }
        match first {
            Ok(()) => self.passed += 1,
            Err(_) => self.failed += 1,
        }
        first
    }
}
