//! The worked listing and the traces that the rules speak of.

use super::conversation::converse;
use super::expect::expect;
use super::kind::Kind;
use super::met::Met;
use super::named_tables::{file_with, WORKED_TABLE};
use super::traces::{hold, same};
use crate::listing::{self, TRACE_LINE};
use crate::racktrace;

pub const WORKED_LISTING: &str = "\
Q 02 00 00 0000 00 00
Q 05 00 00 0000 00 00
Q 06 00 00 0000 00 00
A 00 00 06 0006 02 01
Q 06 00 00 0000 00 00
A 00 00 05 0013 03 01
R 05 15 00 0000 00 00
R 06 00 00 0000 00 00
A 00 00 02 0010 02 01
R 05 00 00 0000 00 00
A 00 00 06 0006 02 01
R 02 00 00 0000 00 00
A 00 14 00 0000 00 00
R 06 00 00 0000 00 00
A 00 14 00 0000 00 00
";

/// P8: rule 0, cards 2, 5 and 6.
const P8_LISTING: &str = "\
Q 02 00 00 0000 00 00
Q 05 00 00 0000 00 00
Q 06 00 00 0000 00 00
A 00 00 06 0006 02 01
";

/// P10: rule 2, card 2 has lost twice and card 6 once.
const P10_LISTING: &str = "\
Q 02 00 00 0000 00 00
Q 05 00 00 0000 00 00
Q 07 00 00 0000 00 00
A 00 00 07 0007 01 01
R 07 00 00 0000 00 00
Q 06 00 00 0000 00 00
A 00 00 05 0013 03 01
R 05 00 00 0000 00 00
A 00 00 02 0018 03 01
";

/// Rule 3: a card that asks while a batch is served waits for the next one, also one with a
/// greater number. The holder that asks again is in the next batch too.
const BATCH_LISTING: &str = "\
Q 02 00 00 0000 00 00
Q 05 00 00 0000 00 00
A 00 00 05 0005 03 01
Q 07 00 00 0000 00 00
R 05 00 00 0000 00 00
A 00 00 02 0002 02 01
Q 02 00 00 0000 00 00
R 02 00 00 0000 00 00
A 00 00 07 0007 01 01
Q 06 00 00 0000 00 00
R 07 00 00 0000 00 00
A 00 00 02 0002 02 01
R 02 00 00 0000 00 00
A 00 00 06 0006 01 01
R 06 00 00 0000 00 00
A 00 14 00 0000 00 00
";

/// Rule 4: card 7 asks again and is passed over until 2 and 7 wait, both inhibited. Clearing also
/// frees card 6, which doesn't wait. The refused arbitration at the end clears nothing.
const INHIBIT_LISTING: &str = "\
Q 02 00 00 0000 00 00
Q 07 00 00 0000 00 00
A 00 00 07 0007 01 01
Q 07 00 00 0000 00 00
R 07 00 00 0000 00 00
A 00 00 02 0002 02 01
Q 06 00 00 0000 00 00
R 02 00 00 0000 00 00
A 00 00 06 0006 01 01
R 06 00 00 0000 00 00
Q 02 00 00 0000 00 00
A 00 00 07 0007 01 01
Q 06 00 00 0000 00 00
R 07 00 00 0000 00 00
A 00 00 06 0006 01 01
R 06 00 00 0000 00 00
A 00 00 02 0002 02 01
R 02 00 00 0000 00 00
A 00 14 00 0000 00 00
Q 05 00 00 0000 00 00
Q 07 00 00 0000 00 00
A 00 00 05 0005 02 01
";

/// Rule 0: the holder is elected itself, then another. Neither the elected card nor a third one can
/// release, and the elected card can't ask before it holds the bus.
const FIXED_ELECTIONS: &str = "\
Q 05 00 00 0000 00 00
A 00 00 05 0005 01 01
Q 05 00 00 0000 00 00
A 00 00 05 0005 00 01
Q 05 12 00 0000 00 00
A 00 13 00 0000 00 00
R 05 00 00 0000 00 00
Q 05 00 00 0000 00 00
Q 07 00 00 0000 00 00
A 00 00 07 0007 01 01
R 07 15 00 0000 00 00
Q 07 12 00 0000 00 00
Q 02 00 00 0000 00 00
R 05 00 00 0000 00 00
Q 07 00 00 0000 00 00
A 00 00 07 0007 00 01
R 02 15 00 0000 00 00
R 07 00 00 0000 00 00
R 07 00 00 0000 00 00
A 00 00 05 0005 02 01
A 00 00 02 0002 02 01
R 02 15 00 0000 00 00
R 05 00 00 0000 00 00
R 02 00 00 0000 00 00
A 00 14 00 0000 00 00
";

/// Rule 2: whoever loses an election counts it.
const ARRIVAL_ELECTIONS: &str = "\
Q 02 00 00 0000 00 00
Q 05 00 00 0000 00 00
Q 07 00 00 0000 00 00
A 00 00 07 0007 01 01
Q 07 00 00 0000 00 00
A 00 00 05 0013 03 01
R 07 00 00 0000 00 00
A 00 00 02 0018 03 01
R 05 00 00 0000 00 00
Q 05 00 00 0000 00 00
A 00 00 07 0023 01 01
R 02 00 00 0000 00 00
A 00 00 05 0013 02 01
R 07 00 00 0000 00 00
R 05 00 00 0000 00 00
A 00 14 00 0000 00 00
";

/// Rule 3: batch follows batch while the bus is handed on.
const BATCH_ELECTIONS: &str = "\
Q 02 00 00 0000 00 00
Q 05 00 00 0000 00 00
A 00 00 05 0005 03 01
Q 05 00 00 0000 00 00
Q 07 00 00 0000 00 00
A 00 00 02 0002 02 01
R 05 00 00 0000 00 00
A 00 00 07 0007 01 01
Q 02 00 00 0000 00 00
R 02 00 00 0000 00 00
A 00 00 05 0005 02 01
R 07 00 00 0000 00 00
A 00 00 02 0002 02 01
R 05 00 00 0000 00 00
R 02 00 00 0000 00 00
A 00 14 00 0000 00 00
";

/// Rule 4: card 7 has the bus and asks again, and is passed over at once. It is elected when all who
/// wait are inhibited, and then it alone is inhibited.
const INHIBIT_ELECTIONS: &str = "\
Q 07 00 00 0000 00 00
A 00 00 07 0007 01 01
Q 07 00 00 0000 00 00
Q 02 00 00 0000 00 00
A 00 00 02 0002 02 01
R 07 00 00 0000 00 00
A 00 00 07 0007 01 01
Q 02 00 00 0000 00 00
R 02 00 00 0000 00 00
A 00 00 02 0002 02 01
R 07 00 00 0000 00 00
Q 07 00 00 0000 00 00
Q 05 00 00 0000 00 00
A 00 00 05 0005 02 01
R 02 00 00 0000 00 00
A 00 00 07 0007 01 01
R 05 00 00 0000 00 00
R 07 00 00 0000 00 00
A 00 14 00 0000 00 00
";

/// The trace of a listing is the first four characters of each line.
pub fn trace_of(listing: &str) -> Vec<u8> {
    let lines = listing.lines().map(|line| format!("{}\n", &line[..4]));
    lines.collect::<String>().into_bytes()
}

/// A listing that is written out here, by the reference and by the product.
fn listed(name: &str, file: Vec<u8>, stated: &'static str) -> [Kind; 2] {
    let for_product = file.clone();
    [
        Kind::named(format!("{name}-by-the-reference"), move |_| {
            let listing = listing::listing(Some(&file), &trace_of(stated));
            same(&listing, stated.as_bytes())
        }),
        Kind::named(format!("{name}-by-the-product"), move |_| {
            let listing = racktrace::run(Some(&for_product), &trace_of(stated))?;
            same(&listing, stated.as_bytes())
        }),
    ]
}

/// The last line of the reference's listing.
fn last_line(trace: &str) -> String {
    let listing = listing::listing(Some(&WORKED_TABLE), trace.as_bytes());
    let listing = String::from_utf8_lossy(&listing);
    listing.lines().last().unwrap_or("").to_string()
}

fn ending((name, trace, stated): Ending) -> Kind {
    Kind::named(name, move |met| {
        hold(Some(&WORKED_TABLE), trace.as_bytes(), met)?;
        expect(&last_line(trace)[..], stated)
    })
}

const MALFORMED: &str = "---- 18 00 0000 00 00";

/// A trace for the worked table, with the last line of its listing as the rules state it.
type Ending = (&'static str, &'static str, &'static str);

fn malformed() -> Vec<Ending> {
    [
        ("line-ended-by-cr-lf", "Q 02\r\nQ 05\r\n"),
        ("blank-line", "Q 02\n\nQ 05\n"),
        ("lower-case-letter", "Q 02\nq 05\n"),
        ("letter-u", "Q 02\nU 05\n"),
        ("letter-w", "Q 02\nW 00\n"),
        ("tab-for-a-space", "Q 02\nQ\t05\n"),
        ("arbitrate-01", "Q 02\nA 01\n"),
        ("arbitrate-10", "Q 02\nA 10\n"),
        ("line-without-newline", "Q 02\nQ 05"),
        ("one-byte", "Q"),
        ("listing-line-as-trace", "Q 02 00 00 0000 00 00\n"),
    ]
    .map(|(name, trace)| (name, trace, MALFORMED))
    .into()
}

fn slips() -> Vec<Ending> {
    vec![
        ("empty-trace", "", ""),
        (
            "holder-asks-again",
            "Q 02\nA 00\nQ 02\n",
            "Q 02 00 00 0000 00 00",
        ),
        ("asks-twice", "Q 02\nQ 02\n", "Q 02 12 00 0000 00 00"),
        (
            "last-winner-is-not-less-than-itself",
            "Q 05\nA 00\nQ 05\nQ 02\nR 05\nA 00\n",
            "A 00 00 02 0010 03 01",
        ),
        (
            "last-winner-stays-after-release",
            "Q 06\nA 00\nR 06\nQ 02\nQ 05\nA 00\n",
            "A 00 00 05 0013 02 01",
        ),
        (
            "lines-start-from-the-last-settled-value",
            "Q 05\nA 00\nR 05\nQ 05\nA 00\n",
            "A 00 00 05 0005 00 01",
        ),
        (
            "a-refused-arbitration-leaves-the-lines",
            "Q 06\nA 00\nA 00\nR 06\nA 00\nQ 06\nA 00\n",
            "A 00 00 06 0006 00 01",
        ),
        (
            "a-refused-election-leaves-the-lines",
            "Q 06\nQ 05\nA 00\nA 00\nA 00\nR 06\nQ 05\nA 00\n",
            "A 00 00 05 0005 02 01",
        ),
        (
            "elected-card-asks-too-early",
            "Q 06\nQ 05\nA 00\nA 00\nQ 05\n",
            "Q 05 12 00 0000 00 00",
        ),
        (
            "elected-card-asks-once-it-holds",
            "Q 06\nQ 05\nA 00\nA 00\nR 06\nQ 05\n",
            "Q 05 00 00 0000 00 00",
        ),
        (
            "elected-card-releases-too-early",
            "Q 06\nQ 05\nA 00\nA 00\nR 05\n",
            "R 05 15 00 0000 00 00",
        ),
        (
            "elected-card-releases-once-it-holds",
            "Q 06\nQ 05\nA 00\nA 00\nR 06\nR 05\n",
            "R 05 00 00 0000 00 00",
        ),
        (
            "holder-that-handed-on-releases-again",
            "Q 06\nQ 05\nA 00\nA 00\nR 06\nR 06\n",
            "R 06 15 00 0000 00 00",
        ),
        (
            "second-election",
            "Q 06\nQ 05\nQ 02\nA 00\nA 00\nA 00\n",
            "A 00 13 00 0000 00 00",
        ),
        (
            "election-with-nobody-waiting",
            "Q 06\nA 00\nA 00\n",
            "A 00 14 00 0000 00 00",
        ),
        ("release-on-a-free-bus", "R 02\n", "R 02 15 00 0000 00 00"),
        (
            "release-of-no-card-on-a-held-bus",
            "Q 02\nA 00\nR 03\n",
            "R 03 11 00 0000 00 00",
        ),
    ]
}

/// Numbers 64 to 99 are well formed and in no table.
fn every_number(met: &mut Met) -> Result<(), String> {
    let lines =
        (0..100).flat_map(|number| ["Q", "R"].map(|letter| format!("{letter} {number:02}\n")));
    let trace: String = lines.collect();
    hold(Some(&WORKED_TABLE), trace.as_bytes(), met)
}

fn unreadable_table() -> Result<(), String> {
    let printed = racktrace::run_with_unreadable_table(b"Q 02\n")?;
    same(&printed, b"tab. 01 00 0000 00 00\n")
}

/// The listings that are written out here, each with its table.
fn written() -> [(&'static str, Vec<u8>, &'static str); 9] {
    let under = |rule| file_with(3, rule, &[(2, 1), (5, 2), (6, 3), (7, 4)]);
    [
        ("worked-listing", WORKED_TABLE.to_vec(), WORKED_LISTING),
        ("P8-listing", under(0), P8_LISTING),
        ("P10-listing", under(2), P10_LISTING),
        ("batch-listing", under(3), BATCH_LISTING),
        ("inhibit-listing", under(4), INHIBIT_LISTING),
        ("fixed-elections", under(0), FIXED_ELECTIONS),
        ("arrival-elections", under(2), ARRIVAL_ELECTIONS),
        ("batch-elections", under(3), BATCH_ELECTIONS),
        ("inhibit-elections", under(4), INHIBIT_ELECTIONS),
    ]
}

pub fn kinds() -> Vec<Kind> {
    let listings = written().into_iter();
    let mut kinds: Vec<Kind> = listings
        .flat_map(|(name, file, stated)| listed(name, file, stated))
        .collect();
    kinds.push(Kind::named("worked-listing-line-by-line", |met| {
        converse(&WORKED_TABLE, &trace_of(WORKED_LISTING), || TRACE_LINE, met)
    }));
    kinds.push(Kind::named("every-number-after-q-and-r", every_number));
    kinds.push(Kind::named("table-that-cannot-be-read", |_| {
        unreadable_table()
    }));
    kinds.extend(malformed().into_iter().chain(slips()).map(ending));
    kinds
}

#[cfg(test)]
mod tests {
    use super::{last_line, malformed, slips, trace_of, written};
    use crate::judge::traces::same;
    use crate::listing::listing;

    #[test]
    fn the_reference_lists_as_written() {
        for (name, file, stated) in written() {
            let listed = listing(Some(&file), &trace_of(stated));
            assert_eq!(same(&listed, stated.as_bytes()), Ok(()), "{name}");
        }
    }

    #[test]
    fn the_reference_ends_as_stated() {
        for (name, trace, stated) in malformed().into_iter().chain(slips()) {
            assert_eq!(last_line(trace), stated, "{name}");
        }
    }
}
