//! Generated tables through the C entries.

use super::boundaries;
use super::damage::damaged;
use super::draft::Draft;
use super::expect::shown;
use super::guarded::{agreed, noise};
use super::kind::{dashed, Kind};
use super::met::Met;
use crate::entries;
use crate::rack::Rack;
use crate::rng::Rng;
use crate::seen_from_c::{self, TABLE_BYTES};
use crate::table;

const BUFFERS: [usize; 5] = [0, TABLE_BYTES - 1, TABLE_BYTES, TABLE_BYTES + 1, 200];

/// Both entries on one file; gives the table check's answer.
fn hold(file: &[u8], rng: &mut Rng, met: &mut Met) -> Result<u32, String> {
    agreed_answer(file, rng, met).map_err(|what| format!("{what}; file of {}", shown(file)))
}

fn agreed_answer(file: &[u8], rng: &mut Rng, met: &mut Met) -> Result<u32, String> {
    let answer = entries::check(file);
    let expected = seen_from_c::check(file);
    if answer != expected {
        return Err(format!("table check {answer}, expected {expected}"));
    }
    met.meet(answer);
    for buffer in BUFFERS {
        met.meet(table_in(file, buffer, rng)?.0);
    }
    if answer == 0 {
        saved_again(file, rng)?;
    }
    Ok(answer)
}

fn table_in(file: &[u8], buffer: usize, rng: &mut Rng) -> Result<(u32, Vec<u8>), String> {
    agreed(
        buffer,
        rng,
        |out| entries::table(file, out),
        |out| seen_from_c::table(file, out),
    )
    .map_err(|what| format!("table into {buffer} bytes: {what}"))
}

/// What the reference saves is the same table again, also for the product.
fn saved_again(file: &[u8], rng: &mut Rng) -> Result<(), String> {
    let (rack, _) = Rack::load(file);
    let mut buffer = noise(200, rng);
    let untouched = buffer.clone();
    let length = table::save(&rack, &mut buffer).map_err(|n| format!("save gives {n}"))?;
    if buffer[length..] != untouched[length..] {
        return Err("the save writes past its length".to_string());
    }
    let saved = &buffer[..length];
    if table::load(saved) != Ok(rack.table) {
        return Err("the saved table is another one".to_string());
    }
    if table_in(saved, TABLE_BYTES, rng)? != table_in(file, TABLE_BYTES, rng)? {
        return Err("the product reads another table from the saved file".to_string());
    }
    Ok(())
}

pub fn hold_expecting(
    expected: u32,
    file: &[u8],
    rng: &mut Rng,
    met: &mut Met,
) -> Result<(), String> {
    match hold(file, rng, met)? {
        answer if answer == expected => Ok(()),
        answer => Err(format!(
            "both give {answer}, made for {expected}; file of {}",
            shown(file)
        )),
    }
}

/// A sound file with a few bytes changed, or cut, or nothing but noise.
fn noisy(rng: &mut Rng) -> Vec<u8> {
    let mut file = Draft::sound(rng).file(rng);
    match rng.below(8) {
        0 => {
            let length = rng.below(100) as usize;
            noise(length, rng)
        }
        1 => {
            file.truncate(rng.below(file.len() as u64 + 1) as usize);
            file
        }
        _ => {
            for _ in 0..rng.between(1, 4) {
                let at = *rng.pick(&[12, 40, file.len() as u64]);
                let at = rng.below(at.min(file.len() as u64)) as usize;
                let any = rng.byte();
                file[at] = *rng.pick(&[0, 1, 255, file[at] ^ 1, file[at] ^ 128, any]);
            }
            file
        }
    }
}

/// One fault alone, and every two faults together.
fn faults() -> Vec<Vec<u32>> {
    let alone = (1..=7).map(|fault| vec![fault]);
    let pairs = (1..=7).flat_map(|low| (low + 1..=7).map(move |high| vec![low, high]));
    alone.chain(pairs).collect()
}

fn damage_kind(faults: Vec<u32>) -> Kind {
    let name = format!("table-refused-{}", dashed(&faults));
    Kind::new(name, 20, move |rng, met| {
        let file = damaged(&faults, rng);
        hold_expecting(faults[0], &file, rng, met)
    })
}

pub fn kinds() -> Vec<Kind> {
    let mut kinds = vec![
        Kind::new("table-sound", 200, |rng, met| {
            let file = Draft::sound(rng).file(rng);
            hold_expecting(0, &file, rng, met)
        }),
        Kind::new("table-noisy", 200, |rng, met| {
            let file = noisy(rng);
            hold(&file, rng, met).map(|_| ())
        }),
    ];
    kinds.extend(faults().into_iter().map(damage_kind));
    kinds.extend(boundaries::kinds());
    kinds
}
