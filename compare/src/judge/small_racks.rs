//! A rack of three cards in every state that it reaches, and there every event.

use super::kind::Kind;
use super::met::Met;
use super::named_tables::file_with;
use super::{reports, traces};
use crate::listing::event;
use crate::rack::Rack;
use crate::rules::GREATEST_RULE;
use std::collections::VecDeque;

const LINES: [&[u8; 5]; 7] = [
    b"Q 01\n", b"Q 02\n", b"Q 03\n", b"A 00\n", b"R 01\n", b"R 02\n", b"R 03\n",
];

/// Everything that the rack reaches. States and lines are named by their places.
struct World {
    /// For each state, the state after each line. A refused event leaves the state as it is.
    after: Vec<Vec<usize>>,
}

fn place_of(rack: Rack, states: &mut Vec<Rack>) -> usize {
    let known = states.iter().position(|state| *state == rack);
    known.unwrap_or_else(|| {
        states.push(rack);
        states.len() - 1
    })
}

fn state_after(rack: Rack, line: &[u8; 5]) -> Rack {
    let event = event(line).expect("the lines are well formed");
    rack.after(event).map_or(rack, |(next, _)| next)
}

impl World {
    fn of(file: &[u8]) -> World {
        let mut states = vec![Rack::load(file).0];
        let mut after = Vec::new();
        while after.len() < states.len() {
            let rack = states[after.len()];
            let next = LINES.map(|line| place_of(state_after(rack, line), &mut states));
            after.push(next.to_vec());
        }
        World { after }
    }

    /// The shortest way from a state to one where a line is still untried.
    fn way(&self, from: usize, untried: &[Vec<usize>]) -> Option<Vec<usize>> {
        let mut seen = vec![false; self.after.len()];
        let mut ways = VecDeque::from([(from, Vec::new())]);
        while let Some((state, way)) = ways.pop_front() {
            if !untried[state].is_empty() {
                return Some(way);
            }
            for (line, &next) in self.after[state].iter().enumerate() {
                if !seen[next] {
                    seen[next] = true;
                    ways.push_back((next, [&way[..], &[line]].concat()));
                }
            }
        }
        None
    }

    /// A trace from the fresh state on, through untried lines as long as there are any in reach.
    fn tour(&self, untried: &mut [Vec<usize>]) -> Vec<u8> {
        let mut trace = Vec::new();
        let mut state = 0;
        while let Some(mut way) = self.way(state, untried) {
            let there = way.iter().fold(state, |at, &line| self.after[at][line]);
            way.extend(untried[there].pop());
            for line in way {
                trace.extend(LINES[line]);
                state = self.after[state][line];
            }
        }
        trace
    }

    /// Traces that together try every line in every state.
    fn tours(&self) -> Vec<Vec<u8>> {
        let mut untried = vec![(0..LINES.len()).collect(); self.after.len()];
        let mut tours = Vec::new();
        while untried.iter().any(|lines: &Vec<usize>| !lines.is_empty()) {
            tours.push(self.tour(&mut untried));
        }
        tours
    }
}

type Hold = fn(Option<&[u8]>, &[u8], &mut Met) -> Result<(), String>;

/// What is held on the tours, with what the names of its tests begin with.
const HELD: [(&str, Hold); 2] = [("", traces::hold), ("report-of-", reports::hold)];

fn every_state(rule: u8, what: &str, hold: Hold) -> Kind {
    let name = format!("{what}every-state-of-3-cards-rule-{rule}");
    Kind::named(name, move |met| {
        let file = file_with(2, rule, &[(1, 1), (2, 2), (3, 3)]);
        let mut tours = World::of(&file).tours().into_iter();
        tours.try_for_each(|trace| hold(Some(&file), &trace, met))
    })
}

pub fn kinds() -> Vec<Kind> {
    let both = |rule| HELD.map(|(what, hold)| every_state(rule, what, hold));
    (0..=GREATEST_RULE).flat_map(both).collect()
}
