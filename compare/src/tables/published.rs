//! Tables 4.1 and 4.2 of document 001, for 10 and 30 agents, as they are printed there.
//!
//! Table 4.1 gives the throughput Λ and, for each protocol, the throughput of the highest card
//! over that of the lowest. Table 4.2 gives the mean wait W and the standard deviation of the wait
//! for each protocol. `±` is the half-width of a 90% confidence interval.

use crate::load::Load;

/// Adding a protocol is adding its column here and its line to `PROTOCOLS`.
pub const SYSTEMS: [System; 2] = [
    System {
        agents: 10,
        bandwidth: "
            load  throughput  RR           FCFS
            0.25  0.25        0.99 ± 0.04  1.00 ± 0.03
            0.50  0.48        0.96 ± 0.03  1.03 ± 0.05
            1.00  0.85        1.02 ± 0.04  1.04 ± 0.04
            1.50  0.99        0.98 ± 0.02  1.08 ± 0.03
            2.00  1.00        1.00 ± 0.02  1.09 ± 0.02
            2.50  1.00        1.00 ± 0.01  1.09 ± 0.01
            5.00  1.00        1.00 ± 0.00  1.05 ± 0.00
            7.52  1.00        1.00 ± 0.00  1.01 ± 0.00",
        waits: "
            load  W     FCFS  RR    RR/FCFS
            0.25  1.64  0.33  0.33  1.01 ± 0.03
            0.50  1.85  0.56  0.58  1.02 ± 0.03
            1.00  2.77  1.18  1.30  1.10 ± 0.03
            1.50  4.47  1.54  1.94  1.26 ± 0.02
            2.00  6.00  1.43  2.09  1.47 ± 0.02
            2.50  7.00  1.25  2.02  1.61 ± 0.01
            5.00  9.00  0.71  0.99  1.40 ± 0.02
            7.52  9.67  0.32  0.33  1.03 ± 0.01",
    },
    System {
        agents: 30,
        bandwidth: "
            load  throughput  RR           FCFS         AAP
            0.25  0.25        1.01 ± 0.09  1.00 ± 0.08  0.98 ± 0.09
            0.50  0.49        1.00 ± 0.06  0.98 ± 0.07  0.99 ± 0.07
            1.00  0.91        1.02 ± 0.07  1.05 ± 0.06  1.07 ± 0.07
            1.50  1.00        1.00 ± 0.05  1.06 ± 0.04  1.27 ± 0.04
            2.00  1.00        1.00 ± 0.03  1.06 ± 0.05  1.53 ± 0.05
            2.50  1.00        0.99 ± 0.02  1.03 ± 0.03  1.68 ± 0.04
            5.00  1.00        1.00 ± 0.01  1.04 ± 0.01  1.96 ± 0.02
            7.50  1.00        1.00 ± 0.00  1.03 ± 0.01  1.99 ± 0.02",
        waits: "
            load  W      FCFS  RR    RR/FCFS
            0.25  1.66   0.36  0.36  1.01 ± 0.04
            0.50  1.94   0.68  0.71  1.04 ± 0.04
            1.00  4.11   2.18  2.63  1.21 ± 0.07
            1.50  11.02  3.06  5.39  1.76 ± 0.04
            2.00  16.00  2.67  6.42  2.41 ± 0.00
            2.50  19.00  2.35  6.62  2.81 ± 0.04
            5.00  25.00  1.60  4.71  2.94 ± 0.03
            7.50  27.00  1.25  2.99  2.38 ± 0.03",
    },
];

/// The protocols of the document that the product has, under their names in the tables.
pub const PROTOCOLS: &[Protocol] = &[
    Protocol {
        name: "RR",
        rule: 1,
        load: Load::Share,
    },
    Protocol {
        name: "FCFS",
        rule: 2,
        load: Load::Share,
    },
    Protocol {
        name: "AAP",
        rule: 3,
        load: Load::Rate,
    },
];

/// The other assured access protocol. No column is printed for it, and it must not fit AAP's.
pub const INHIBIT: Protocol = Protocol {
    name: "inhibit",
    rule: 4,
    load: Load::Rate,
};

pub struct Protocol {
    pub name: &'static str,
    /// The product's number for it.
    pub rule: u8,
    /// What the loads beside its column mean.
    pub load: Load,
}

pub struct System {
    pub agents: usize,
    /// Table 4.1.
    pub bandwidth: &'static str,
    /// Table 4.2.
    pub waits: &'static str,
}

#[derive(Clone, Copy)]
pub struct Figure {
    pub value: f64,
    /// Of the 90% interval, where one is printed.
    pub half_width: Option<f64>,
}

/// The loads of a table, in order.
pub fn loads(table: &str) -> Vec<&str> {
    rows(table).skip(1).map(|row| row[0].0).collect()
}

/// The figure in the row of a load and the column of a name, if the table has such a column.
pub fn figure(table: &str, load: &str, column: &str) -> Option<Figure> {
    let names = rows(table).next()?;
    let place = names.iter().position(|(name, _)| *name == column)?;
    let row = rows(table).find(|row| row[0].0 == load)?;
    let (value, half_width) = row[place];
    Some(Figure {
        value: number(value),
        half_width: half_width.map(number),
    })
}

fn number(text: &str) -> f64 {
    text.parse().expect("the tables hold numbers")
}

/// A printed word, and the word after its `±` if it has one.
type Cell<'a> = (&'a str, Option<&'a str>);

fn rows(table: &str) -> impl Iterator<Item = Vec<Cell<'_>>> {
    table.trim().lines().map(cells)
}

fn cells(line: &str) -> Vec<Cell<'_>> {
    let mut cells = Vec::new();
    let mut words = line.split_whitespace().peekable();
    while let Some(word) = words.next() {
        let half_width = words.next_if_eq(&"±").and_then(|_| words.next());
        cells.push((word, half_width));
    }
    cells
}
