//! The product as the arbiter: who wins is decided by `racktrace` alone.

use compare::racktrace::Session;

pub struct Arbiter {
    session: Session,
    /// Lines that the product hears before the next arbitration.
    unsent: Vec<[u8; 5]>,
}

impl Arbiter {
    pub fn start(cards: usize, rule: u8) -> Result<Arbiter, String> {
        let session = Session::start(Some(&rack_tab(cards, rule)))?;
        Ok(Arbiter {
            session,
            unsent: Vec::new(),
        })
    }

    pub fn request(&mut self, card: usize) {
        self.unsent.push(line('Q', card));
    }

    pub fn release(&mut self, card: usize) {
        self.unsent.push(line('R', card));
    }

    /// Sends what was collected and the arbitration, and gives the winner.
    pub fn arbitrate(&mut self) -> Result<usize, String> {
        self.unsent.push(line('A', 0));
        self.session.send(&self.unsent.concat())?;
        let mut winner = 0;
        for line in std::mem::take(&mut self.unsent) {
            winner = self.hear(&line)?;
        }
        Ok(winner)
    }

    /// The winner that the answer to a line names. A refusal is an error: none belongs here.
    fn hear(&mut self, line: &[u8; 5]) -> Result<usize, String> {
        let answer = self.session.answer()?;
        let text = String::from_utf8_lossy(&answer);
        let event = String::from_utf8_lossy(&line[..4]);
        let after_done = text.strip_prefix(&format!("{event} 00 "));
        let winner = after_done.and_then(|rest| rest.get(..2)?.parse().ok());
        winner.ok_or_else(|| format!("{event} was answered {}", text.trim_end()))
    }
}

fn line(letter: char, card: usize) -> [u8; 5] {
    let text = format!("{letter} {card:02}\n");
    text.into_bytes()
        .try_into()
        .expect("card numbers have two digits")
}

/// ⌈log2(N + 1)⌉, as in the document.
fn number_width(cards: usize) -> u8 {
    (usize::BITS - cards.leading_zeros()) as u8
}

/// A table of edition 1 with cards 1 to N in slots 1 to N.
fn rack_tab(cards: usize, rule: u8) -> Vec<u8> {
    let count = cards as u8;
    let mut file = vec![
        1,
        0,
        2,
        count,
        number_width(cards),
        rule,
        12,
        0,
        24,
        0,
        2,
        0,
    ];
    file.extend(b"ANUM\x00\x01SLOT\x01\x01");
    file.extend((1..=count).flat_map(|card| [card, card]));
    file
}
