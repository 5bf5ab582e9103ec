//! `compare [COUNT] [SEED]` compares the C library with the model on COUNT
//! random problems (20,000 if not said), after a fixed set of inputs with every
//! refusal at every place. Each problem goes through the build and the
//! translation, over bytes and over numbers, and each accepted answer through
//! `verify`.
//!
//! As many random calls of `weigh` and of `gauge` follow, but not fewer than 2,000,
//! after fixed ones; each number that they answer has to come up among the random
//! ones.
//!
//! `compare COUNT SEED trace` prints each input before it is tried, for a library
//! that breaks off.
//!
//! It needs the feature `bench` (the C library) or `selftest` (the model in the
//! library's place). With `selftest`, `compare COUNT SEED DAMAGE` damages an
//! answer, to see that the comparison fails; `compare 0 0 list` lists the ways.

#[cfg(not(any(feature = "bench", feature = "selftest")))]
fn main() {
    eprintln!("compare needs the C library: build it with --features bench");
    eprintln!("(or try it on the model itself with --features selftest)");
    std::process::exit(2);
}

#[cfg(any(feature = "bench", feature = "selftest"))]
fn main() {
    let arguments: Vec<String> = std::env::args().skip(1).collect();
    let number = |place: usize, otherwise: u64| match arguments.get(place) {
        Some(text) => text.parse().unwrap_or_else(|_| {
            eprintln!("compare [COUNT] [SEED]");
            std::process::exit(2)
        }),
        None => otherwise,
    };
    let (count, seed) = (number(0, 20_000), number(1, 1));
    let word = arguments.get(2).map(String::as_str);
    let trace = word == Some("trace");
    let mut library = library(word.filter(|_| !trace));
    println!("seed {seed}");
    let good = run::run(library.as_mut(), count, seed, trace);
    std::process::exit(i32::from(!good));
}

#[cfg(all(feature = "bench", not(feature = "selftest")))]
fn library(_damage: Option<&str>) -> Box<dyn peer::library::Library> {
    println!("library: ../target/staticlib/libbench.a");
    Box::new(peer::library::CLibrary)
}

#[cfg(feature = "selftest")]
fn library(damage: Option<&str>) -> Box<dyn peer::library::Library> {
    use peer::library::{damages, Damaged, Model};
    let Some(name) = damage else {
        println!("library: the model itself (selftest)");
        return Box::new(Model);
    };
    match damages().into_iter().find(|damage| damage.name() == name) {
        Some(damage) => {
            println!("library: the model with a damaged answer ({name})");
            Box::new(Damaged::new(damage, 10))
        }
        None => {
            let names: Vec<String> = damages().into_iter().map(|damage| damage.name()).collect();
            eprintln!("ways to damage an answer: {}", names.join(", "));
            std::process::exit(2)
        }
    }
}

#[cfg(any(feature = "bench", feature = "selftest"))]
mod run {
    use peer::boundary;
    use peer::comparing::single::{Case, Compared, Count};
    use peer::comparing::{Call, Tally};
    use peer::generate;
    use peer::library::Library;
    use peer::random::Random;

    /// Mismatches that are printed in full.
    const PRINTED: u64 = 5;

    /// So many random calls of `weigh` or `gauge` come to every number that it answers.
    const LEAST: u64 = 2_000;

    fn print_kinds(name: &str, kinds: impl Iterator<Item = (u32, u64)>) {
        for (number, met) in kinds.filter(|(_, met)| *met > 0) {
            match number {
                0 => println!("{name}: accepted {met}"),
                _ => println!("{name}: refused {number}: {met}"),
            }
        }
    }

    pub fn run(library: &mut dyn Library, count: u64, seed: u64, trace: bool) -> bool {
        let mut random = Random::new(seed);
        // The outputs' patterns have a generator of their own, so that the
        // inputs do not depend on the answers.
        let mut patterns = Random::new(!seed);
        let mut tally = Tally::default();
        let mut one = |tally: &mut Tally, call: &Call| {
            if trace {
                println!("{}", call.describe());
            }
            let result = tally.compare(library, call, &mut patterns);
            if let Err(error) = result {
                if tally.failed <= PRINTED {
                    println!("MISMATCH: {error}\n{}", call.describe());
                }
            }
        };
        for call in generate::systematic(&mut random) {
            one(&mut tally, &call);
        }
        println!("fixed inputs: {}", tally.passed + tally.failed);
        for _ in 0..count {
            let call = generate::call(&mut random);
            one(&mut tally, &call);
        }
        println!("random problems: {count}");
        for (name, kinds) in [
            ("build", &tally.build),
            ("translate", &tally.translate),
            ("build_numbers", &tally.build_numbers),
            ("translate_numbers", &tally.translate_numbers),
        ] {
            print_kinds(name, (0..).zip(kinds.iter().copied()));
        }
        let weights = Inputs {
            cases: boundary::weights::cases(),
            systematic: generate::weights::systematic,
            call: generate::weights::call,
        };
        let gauges = Inputs {
            cases: boundary::gauges::cases(),
            systematic: generate::gauges::systematic::calls,
            call: generate::gauges::call,
        };
        let counts = [
            (tally.passed, tally.failed),
            run_call(library, &weights, (count, seed, 1 << 62), trace),
            run_call(library, &gauges, (count, seed, 1 << 63), trace),
        ];
        let passed: u64 = counts.iter().map(|count| count.0).sum();
        let failed: u64 = counts.iter().map(|count| count.1).sum();
        println!("{passed} passed, {failed} failed");
        failed == 0
    }

    /// The inputs of a call that is compared by itself.
    struct Inputs<C: Compared> {
        cases: Vec<Case<C>>,
        systematic: fn(&mut Random) -> Vec<C>,
        call: fn(&mut Random) -> C,
    }

    /// Counts passed and failed inputs of a call; a number that no random one came to has
    /// failed. `salt` gives the call generators of its own, so that its inputs do not
    /// depend on what other calls take.
    fn run_call<C: Compared>(
        library: &mut dyn Library,
        inputs: &Inputs<C>,
        (count, seed, salt): (u64, u64, u64),
        trace: bool,
    ) -> (u64, u64) {
        let mut random = Random::new(seed ^ salt);
        let mut patterns = Random::new(!seed ^ salt);
        let mut one = |tally: &mut Count, call: &C, written: Option<&C::Due>| {
            if trace {
                println!("{}", call.describe());
            }
            let result = tally.compare(library, call, written, &mut patterns);
            if let Err(error) = result {
                if tally.failed <= PRINTED {
                    println!("MISMATCH: {error}\n{}", call.describe());
                }
            }
        };
        let mut fixed = Count::default();
        for case in &inputs.cases {
            one(&mut fixed, &case.call, Some(&case.due));
        }
        println!("{}, written answers: {}", C::NAME, inputs.cases.len());
        let systematic = (inputs.systematic)(&mut random);
        for call in &systematic {
            one(&mut fixed, call, None);
        }
        println!("{}, systematic calls: {}", C::NAME, systematic.len());
        let mut tally = Count::default();
        let count = count.max(LEAST);
        for _ in 0..count {
            one(&mut tally, &(inputs.call)(&mut random), None);
        }
        println!("{}, random calls: {count}", C::NAME);
        print_kinds(
            C::NAME,
            tally.numbers.iter().map(|(&number, &met)| (number, met)),
        );
        for number in tally.never(C::NUMBERS) {
            println!("NEVER: no random call of {} was answered {number}", C::NAME);
            tally.failed += 1;
        }
        (tally.passed + fixed.passed, tally.failed + fixed.failed)
    }
}
