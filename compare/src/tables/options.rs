//! Which rows are simulated, and how long.

pub const USAGE: &str = "compare/tables short|full [--seed S] [--agents N] [--load L]";

pub struct Mode {
    name: &'static str,
    pub batch_size: usize,
    /// All loads if empty.
    loads: &'static [&'static str],
}

const MODES: [Mode; 2] = [
    // The document's design: 10 batches of 8000.
    Mode {
        name: "full",
        batch_size: 8000,
        loads: &[],
    },
    // Below saturation, at its edge, and far above it.
    Mode {
        name: "short",
        batch_size: 1500,
        loads: &["0.50", "1.50", "5.00"],
    },
];

pub struct Options {
    pub mode: &'static Mode,
    pub seed: u64,
    agents: Option<String>,
    load: Option<String>,
}

impl Options {
    pub fn read(words: &[String]) -> Option<Options> {
        let mut words = words.iter().cloned();
        let name = words.next()?;
        let mut options = Options {
            mode: MODES.iter().find(|mode| mode.name == name)?,
            seed: 1,
            agents: None,
            load: None,
        };
        while let Some(word) = words.next() {
            let value = words.next()?;
            match word.as_str() {
                "--seed" => options.seed = value.parse().ok()?,
                "--agents" => options.agents = Some(value),
                "--load" => options.load = Some(value),
                _ => return None,
            }
        }
        Some(options)
    }

    pub fn takes(&self, agents: usize, load: &str) -> bool {
        let agents_fit = self
            .agents
            .as_ref()
            .is_none_or(|one| *one == agents.to_string());
        let load_fits = match &self.load {
            Some(one) => one == load,
            None => self.mode.loads.is_empty() || self.mode.loads.contains(&load),
        };
        agents_fit && load_fits
    }

    pub fn repeat(&self, agents: usize, load: &str) -> String {
        let (mode, seed) = (self.mode.name, self.seed);
        format!("compare/tables {mode} --seed {seed} --agents {agents} --load {load}")
    }
}
