//! What the grammar takes; what it refuses stands in ../../../tests/parlour.

use super::*;

fn sheet(text: &str) -> Sheet {
    read(text.as_bytes()).expect("a good file")
}

fn fault(text: &str) -> String {
    read(text.as_bytes()).expect_err("a bad file").text("")
}

const PLAIN: &str = "\
dimension mass
dimension sign mod 2
quantity vacuum mass^-3 sign
quantity bore
term -5 bore^4 vacuum^-2
term 7
reading vacuum 42e3
reading bore 0.5
";

#[test]
fn a_plain_file() {
    let sheet = sheet(PLAIN);
    let problem = sheet.problem();
    assert_eq!(problem.matrix, [-3, 0, 1, 0]);
    assert_eq!((problem.moduli, problem.quantities), (vec![0, 2], 2));
    let term = |coefficient, exponents: [i32; 2]| Term {
        coefficient,
        exponents: exponents.to_vec(),
    };
    assert_eq!(sheet.terms, [term(-5, [-2, 4]), term(7, [0, 0])]);
    assert_eq!(sheet.term_lines, [5, 6]);
    assert_eq!(sheet.values(), [42e3, 0.5]);
    assert_eq!(sheet.readings[1].line, 8);
}

/// The same numbers, written in another way.
#[test]
fn the_same_file_in_another_way() {
    let plain = sheet(PLAIN);
    let others = [
        PLAIN.replace('\n', "\r\n"),
        format!("\u{feff}{PLAIN}"),
        PLAIN.replace(' ', "\t \u{a0}"),
        PLAIN.replace('\n', " # term\n"),
        PLAIN.replace('\n', "#dimension mass\n"),
        PLAIN.trim_end().to_string(),
        PLAIN.replace("mass^-3", "mass^-0001 mass mass^+4 mass^-7"),
        PLAIN.replace("bore^4 vacuum^-2", "vacuum^-1 bore^2 vacuum^-1 bore bore"),
        PLAIN.replace("42e3", "+42000.0"),
        PLAIN.replace("mod 2", "mod +02"),
    ];
    for other in others {
        assert_ne!(other, PLAIN);
        assert_eq!(sheet(&other), plain, "{other:?}");
    }
}

/// A dimension after a quantity, a quantity after a term, readings in any order: whatever
/// came before has none of it.
#[test]
fn any_order_that_declares_names_before_their_use() {
    let sheet = sheet(
        "dimension mass\nquantity a mass\nreading a 1\nterm 1 a^2\nquantity c\n\
         dimension mod mod 0\nquantity b mod\nreading b 3\nterm 2 b\nreading c 2\n",
    );
    assert_eq!(sheet.problem().matrix, [1, 0, 0, 0, 0, 1]);
    assert_eq!(sheet.terms[0].exponents, [2, 0, 0]);
    assert_eq!(sheet.terms[1].exponents, [0, 0, 1]);
    assert_eq!(sheet.values(), [1.0, 2.0, 3.0]);
}

#[test]
fn names_of_dimensions_and_of_quantities_are_two_sets() {
    let sheet = sheet("dimension term\ndimension g1\nquantity term g1 term^2\nterm 1 term");
    assert_eq!(sheet.problem().matrix, [2, 1]);
}

#[test]
fn numbers_at_their_ends() {
    let text = "dimension a mod 2147483647\nquantity q a^-2147483648\n\
                term -2147483648 q^2147483647 q^-1\nterm 2147483647";
    let sheet = sheet(text);
    assert_eq!(sheet.problem().matrix, [i32::MIN]);
    assert_eq!(sheet.problem().moduli, [i32::MAX]);
    assert_eq!(sheet.terms[0].coefficient, i32::MIN);
    assert_eq!(sheet.terms[0].exponents, [i32::MAX - 1]);
    for more in ["-2147483648", "2147483647"] {
        let other = text.replace(more, &format!("{more}0"));
        assert!(fault(&other).contains("does not fit 32 bits"), "{more}");
    }
    let sum = text.replace("q^-1", "q");
    assert!(fault(&sum).contains("the exponents of q add up to 2147483648"));
}

/// In parentheses; outside of them `q^2+3` could be meant for two terms.
#[test]
fn sums_in_exponents() {
    let of = |exponent: &str| {
        let text = format!("dimension a\nquantity q a\nterm 1 q^{exponent}");
        read(text.as_bytes()).map(|sheet| sheet.terms[0].exponents[0])
    };
    for (text, value) in [
        ("(2+1-5)", -2),
        ("(-1)", -1),
        ("(+3-3)", 0),
        ("(2147483647+1-1)", i32::MAX),
        ("(-2147483648)", i32::MIN),
    ] {
        assert_eq!(of(text), Ok(value), "{text}");
    }
    for bad in [
        "()",
        "(1",
        "1)",
        "(1)2",
        "((1))",
        "(1+)",
        "(+)",
        "(1++2)",
        "(1+-2)",
        "(é+1)",
        "(1/2)",
        "2+1",
        "2-1",
        "(2147483648)",
        "(2147483647+1)",
    ] {
        assert!(of(bad).is_err(), "{bad}");
    }
}

#[test]
fn readings_at_their_ends() {
    let of = |reading: &str| {
        let text = format!("dimension a\nquantity q\nreading q {reading}");
        read(text.as_bytes()).map(|sheet| sheet.values()[0].to_bits())
    };
    for (text, value) in [
        ("5e-324", 5e-324),
        ("1.7976931348623157e308", f64::MAX),
        ("0e999", 0.0),
        ("-0", -0.0),
        (".5", 0.5),
        ("5.", 5.0),
        ("inf", f64::INFINITY),
        ("-Infinity", f64::NEG_INFINITY),
    ] {
        assert_eq!(of(text), Ok(value.to_bits()), "{text}");
    }
    assert!(of("NaN").is_ok_and(|bits| f64::from_bits(bits).is_nan()));
    for bad in [
        "1e309",
        "-1e309",
        "1e-324",
        "-0.01e-400",
        "0x1",
        "1,5",
        "1_0",
        "e3",
        "1e",
    ] {
        assert!(of(bad).is_err(), "{bad}");
    }
}

#[test]
fn limits_of_counts_and_lengths() {
    let many = |line: &str, count: usize| -> String {
        (0..count)
            .map(|i| line.replace('N', &i.to_string()))
            .collect()
    };
    let text = |m, n, t| {
        let (dimensions, quantities) = (many("dimension dN\n", m), many("quantity qN\n", n));
        format!("{dimensions}{quantities}{}", many("term N\n", t))
    };
    assert_eq!(sheet(&text(8, 16, 64)).problem().matrix.len(), 128);
    assert!(fault(&text(9, 16, 64)).starts_with(":9: there are at most 8 dimensions"));
    assert!(fault(&text(8, 17, 64)).starts_with(":25: there are at most 16 quantities"));
    assert!(fault(&text(8, 16, 65)).starts_with(":89: there are at most 64 terms"));
    assert!(fault(&text(0, 1, 0)).contains("no dimension"));
    assert!(fault(&text(1, 0, 0)).contains("no quantity"));
    let named = |name: String| format!("dimension {name}\nquantity q");
    assert_eq!(sheet(&named("é".repeat(32))).dimensions.len(), 1);
    assert!(fault(&named("é".repeat(33))).contains("at most 32 characters"));
}
