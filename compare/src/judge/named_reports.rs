//! The worked report, each ending of a report, and arguments that are refused.

use super::expect::expect;
use super::kind::Kind;
use super::met::Met;
use super::named_tables::{file_with, WORKED_TABLE};
use super::reports::{agreed, same};
use crate::figures::MOST_EVENTS;
use crate::rackreport;
use crate::waiting_report::{texts, OPENING_LINE};

const WORKED_TRACE: &str = "\
Q 02\nQ 05\nQ 06\nA 00\nQ 06\nA 00\nR 05\nR 06\nA 00\nR 05\nA 00\nR 02\nA 00\nR 06\nA 00\n";

const WORKED_FIGURES: &str = "\
end. 00 00012
01 02 00001 00002/00001 0000000004 000000000000000/0000000001
02 05 00001 00001/00001 0000000001 000000000000000/0000000001
03 06 00002 00002/00002 0000000004 000000000000004/0000000004
";

const WORKED_SQUARE: &str = "\
02 00000 00001 00001
05 00000 00000 00001
06 00001 00001 00000
";

/// Rule 0: card 2 waits to the end, which shows in the square alone.
const STARVED_TRACE: &str = "Q 02\nQ 06\nA 00\nR 06\nQ 06\nA 00\nR 06\n";

const STARVED_FIGURES: &str = "\
end. 00 00007
01 02 00000 00000/00000 0000000000 000000000000000/0000000000
02 05 00000 00000/00000 0000000000 000000000000000/0000000000
03 06 00002 00000/00002 0000000000 000000000000000/0000000004
";

const STARVED_SQUARE: &str = "\
02 00000 00000 00002
05 00000 00000 00000
06 00000 00000 00000
";

/// Rule 0: card 2 is elected and has its grant by that, long before it holds the bus. Its request
/// before then is refused and is none.
const ELECTED_TRACE: &str = "Q 02\nQ 06\nA 00\nA 00\nQ 02\nQ 06\nR 06\nA 00\nR 02\nR 06\n";

const ELECTED_FIGURES: &str = "\
end. 00 00009
01 02 00001 00001/00001 0000000001 000000000000000/0000000001
02 05 00000 00000/00000 0000000000 000000000000000/0000000000
03 06 00002 00000/00002 0000000000 000000000000000/0000000004
";

const ELECTED_SQUARE: &str = "\
02 00000 00000 00001
05 00000 00000 00000
06 00000 00000 00000
";

/// A report that is written out here, by the reference and by the product, without and with its
/// square.
fn written(
    name: &str,
    file: Vec<u8>,
    trace: &'static str,
    figures: &'static str,
    square: &'static str,
) -> [Kind; 2] {
    let stated = [figures.to_string(), format!("{figures}{square}")];
    let (for_product, stated_too) = (file.clone(), stated.clone());
    let trace = trace.as_bytes();
    [
        Kind::named(format!("{name}-report-by-the-reference"), move |_| {
            let texts = texts(Some(&file), trace);
            same(&texts[0], stated[0].as_bytes())?;
            same(&texts[1], stated[1].as_bytes())
        }),
        Kind::named(format!("{name}-report-by-the-product"), move |_| {
            let of = |with_square| rackreport::run(Some(&for_product), trace, with_square);
            same(&of(false)?, stated_too[0].as_bytes())?;
            same(&of(true)?, stated_too[1].as_bytes())
        }),
    ]
}

/// Both agree on a report that opens as stated.
fn opens(file: Option<&[u8]>, trace: &[u8], stated: &str, met: &mut Met) -> Result<(), String> {
    let report = agreed(file, trace, met)?;
    same(&report[..OPENING_LINE], format!("{stated}\n").as_bytes())
}

fn opening(name: &str, trace: &'static str, stated: &'static str) -> Kind {
    Kind::named(format!("report-{name}"), move |met| {
        opens(Some(&WORKED_TABLE), trace.as_bytes(), stated, met)
    })
}

fn short() -> Vec<Kind> {
    vec![
        opening("of-an-empty-trace", "", "end. 00 00000"),
        opening("of-a-request", "Q 02\n", "end. 00 00001"),
        opening(
            "of-refused-events",
            "A 00\nR 02\nQ 03\nQ 99\nR 64\nR 00\n",
            "end. 00 00000",
        ),
        opening(
            "with-refused-events-between",
            "Q 02\nQ 02\nA 00\nA 00\nQ 06\nR 06\nR 02\nR 02\nA 00\n",
            "end. 00 00005",
        ),
        opening("of-a-malformed-line", "q 02\n", "end. 18 00000"),
        opening("of-an-incomplete-line", "Q 02\nQ 05", "end. 18 00001"),
        opening("of-one-byte", "Q", "end. 18 00000"),
        opening(
            "up-to-a-malformed-line",
            "Q 02\nA 00\nA 01\nR 02\nQ 05\n",
            "end. 18 00002",
        ),
        opening("up-to-a-blank-line", "Q 02\n\nA 00\n", "end. 18 00001"),
        opening(
            "of-an-election",
            "Q 02\nQ 06\nA 00\nA 00\n",
            "end. 00 00004",
        ),
        opening(
            "of-what-is-refused-after-an-election",
            "Q 02\nQ 06\nA 00\nA 00\nQ 02\nA 00\nR 02\nR 05\n",
            "end. 00 00004",
        ),
        opening(
            "of-a-bus-that-is-handed-on",
            "Q 02\nQ 06\nA 00\nA 00\nR 06\nR 06\nR 02\n",
            "end. 00 00006",
        ),
        opening(
            "of-a-holder-that-asks-again",
            "Q 05\nA 00\nQ 05\nR 05\nA 00\n",
            "end. 00 00005",
        ),
    ]
}

/// One card asks, is granted and lets go, over and over.
fn rounds(count: usize, card: &str) -> String {
    format!("Q {card}\nA 00\nR {card}\n").repeat(count)
}

/// As many done events as are counted.
fn full_trace() -> String {
    rounds(MOST_EVENTS / 3, "02")
}

fn full(name: &str, after: &'static str, stated: &'static str) -> Kind {
    Kind::named(format!("report-of-65535-events-{name}"), move |met| {
        let trace = full_trace() + after;
        opens(Some(&WORKED_TABLE), trace.as_bytes(), stated, met)
    })
}

/// One done event less than are counted, at a place where card 2 holds the bus.
fn almost_full(name: &str, after: &'static str, stated: &'static str) -> Kind {
    Kind::named(format!("report-of-65534-events-{name}"), move |met| {
        let mut trace = full_trace();
        trace.truncate(trace.len() - "R 02\n".len());
        trace.push_str(after);
        opens(Some(&WORKED_TABLE), trace.as_bytes(), stated, met)
    })
}

fn full_traces() -> Vec<Kind> {
    const FULL: &str = "end. 31 65535";
    const MALFORMED: &str = "end. 18 65535";
    vec![
        full("and-no-more", "", "end. 00 65535"),
        full("and-one-more", "Q 02\n", FULL),
        full("and-two-more", "Q 02\nA 00\n", FULL),
        full("and-a-refused-request", "Q 03\n", FULL),
        full("and-a-refused-arbitration", "A 00\n", FULL),
        full("and-a-refused-release", "R 02\n", FULL),
        full("and-a-number-over-63", "Q 99\n", FULL),
        full("and-a-malformed-line", "Q-02\n", MALFORMED),
        full("and-an-arbitration-of-01", "A 01\n", MALFORMED),
        full("and-an-incomplete-line", "Q 02", MALFORMED),
        full(
            "and-a-malformed-line-before-one-more",
            "x\nQ 02\n",
            MALFORMED,
        ),
        full("and-a-malformed-line-after-one-more", "Q 02\nQ-02\n", FULL),
        full(
            "and-an-incomplete-line-after-a-refused-one",
            "R 02\nQ",
            FULL,
        ),
        almost_full("and-no-more", "", "end. 00 65534"),
        almost_full("and-refused-ones", "A 00\nQ 03\nR 05\n", "end. 00 65534"),
        almost_full("and-a-malformed-line", "R-02\n", "end. 18 65534"),
        almost_full(
            "refused-ones-and-one-more",
            "A 00\nR 05\nR 02\n",
            "end. 00 65535",
        ),
        almost_full("refused-ones-and-two-more", "A 00\nR 02\nQ 05\n", FULL),
        almost_full("one-more-and-a-refused-one", "R 02\nR 02\n", FULL),
    ]
}

/// Rule 0: card 2 has many grants at once and then waits for very many grants to card 6, so that the
/// variance gets near the greatest there is.
fn a_great_variance(met: &mut Met) -> Result<(), String> {
    const AT_ONCE: usize = 7_281;
    const LOST: usize = 14_563;
    let lost = rounds(LOST, "06");
    let waits = format!("Q 06\nQ 02\n{}A 00\n", &lost["Q 06\n".len()..]);
    let trace = rounds(AT_ONCE, "02") + &waits;
    let file = file_with(3, 0, &[(2, 1), (6, 3)]);
    let figures = "01 02 07282 14563/07282 0212080969 001544161535289/0053027524";
    let report = agreed(Some(&file), trace.as_bytes(), met)?;
    let report = String::from_utf8_lossy(&report);
    expect(
        report.lines().take(2).collect(),
        vec!["end. 00 65534", figures],
    )
}

fn refused_tables() -> Vec<Kind> {
    let mut kinds: Vec<Kind> = [("no", None), ("an-empty", Some(&[][..]))]
        .map(|(name, file)| {
            Kind::named(format!("report-with-{name}-table"), move |met| {
                opens(file, WORKED_TRACE.as_bytes(), "tab. 01 00000", met)
            })
        })
        .into();
    kinds.push(Kind::named("report-with-rule-5", |met| {
        let file = file_with(3, 5, &[(2, 1), (6, 3)]);
        opens(Some(&file), b"", "tab. 03 00000", met)
    }));
    kinds.push(Kind::named(
        "report-with-a-table-that-cannot-be-read",
        |_| {
            let of = |square| rackreport::run_with_unreadable_table(b"Q 02\n", square);
            same(&of(false)?, b"tab. 01 00000\n")?;
            same(&of(true)?, b"tab. 01 00000\n")
        },
    ));
    kinds
}

/// A line on standard error, nothing on standard output, and nothing of the trace is read.
fn refuses(arguments: &[&str], table: &[u8]) -> Result<(), String> {
    let (output, read) = rackreport::run_with(arguments, table, WORKED_TRACE.as_bytes())?;
    same(&output.stdout, b"")?;
    expect(read, 0).map_err(|what| format!("bytes of the trace that were read: {what}"))?;
    let said = String::from_utf8_lossy(&output.stderr);
    let is_a_line = said.len() > 1 && said.find('\n') == Some(said.len() - 1);
    expect(is_a_line, true).map_err(|_| format!("{said:?} is no line"))
}

/// Without an argument, and with `square`, the same way of running prints the report.
fn accepts() -> Result<(), String> {
    let of = |arguments: &[&str]| {
        rackreport::run_with(arguments, &WORKED_TABLE, WORKED_TRACE.as_bytes())
    };
    same(&of(&[])?.0.stdout, WORKED_FIGURES.as_bytes())?;
    let both = format!("{WORKED_FIGURES}{WORKED_SQUARE}");
    same(&of(&["square"])?.0.stdout, both.as_bytes())
}

fn arguments() -> Vec<Kind> {
    const REFUSED: [(&str, &[&str]); 11] = [
        ("that-is-empty", &[""]),
        ("in-capitals", &["SQUARE"]),
        ("with-a-capital", &["Square"]),
        ("cut-short", &["squar"]),
        ("of-one-letter", &["s"]),
        ("too-long", &["squares"]),
        ("with-a-blank", &["square "]),
        ("that-is-a-help", &["--help"]),
        ("twice", &["square", "square"]),
        ("before-another", &["square", ""]),
        ("after-another", &["x", "square"]),
    ];
    let mut kinds = vec![Kind::named("report-with-its-argument", |_| accepts())];
    kinds.extend(REFUSED.map(|(name, arguments)| {
        Kind::named(format!("report-with-an-argument-{name}"), move |_| {
            refuses(arguments, &WORKED_TABLE)?;
            refuses(arguments, b"")
        })
    }));
    kinds
}

/// The reports that are written out here: table, trace, figures and square.
fn all_written() -> [(&'static str, Vec<u8>, [&'static str; 3]); 3] {
    let fixed = file_with(3, 0, &[(2, 1), (5, 2), (6, 3)]);
    [
        (
            "worked",
            WORKED_TABLE.to_vec(),
            [WORKED_TRACE, WORKED_FIGURES, WORKED_SQUARE],
        ),
        (
            "starved",
            fixed.clone(),
            [STARVED_TRACE, STARVED_FIGURES, STARVED_SQUARE],
        ),
        (
            "elected",
            fixed,
            [ELECTED_TRACE, ELECTED_FIGURES, ELECTED_SQUARE],
        ),
    ]
}

pub fn kinds() -> Vec<Kind> {
    let mut kinds = Vec::new();
    for (name, file, [trace, figures, square]) in all_written() {
        kinds.extend(written(name, file, trace, figures, square));
    }
    kinds.extend(short());
    kinds.extend(full_traces());
    kinds.push(Kind::named("report-of-a-great-variance", a_great_variance));
    kinds.extend(refused_tables());
    kinds.extend(arguments());
    kinds
}

#[cfg(test)]
mod tests {
    use super::all_written;
    use crate::judge::reports::same;
    use crate::waiting_report::texts;

    #[test]
    fn the_reference_reports_as_written() {
        for (name, file, [trace, figures, square]) in all_written() {
            let [plain, with_square] = texts(Some(&file), trace.as_bytes());
            assert_eq!(same(&plain, figures.as_bytes()), Ok(()), "{name}");
            let stated = format!("{figures}{square}");
            assert_eq!(same(&with_square, stated.as_bytes()), Ok(()), "{name}");
        }
    }
}
