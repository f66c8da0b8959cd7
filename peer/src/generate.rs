//! Scripts for the rig and the peer: scenes of a few lines each, in a random mixture.

mod chains;
mod frames;
mod history;
mod noise;
mod scribe;
mod states;

use std::io::{self, Write};

use scribe::Scribe;

use crate::script::{ChainCommand, LinkCommand};

type Scene = fn(&mut Scribe);

/// Each scene with its weight. A history is some 70 calls, a state scene 2 to 4. Joining
/// is rare because each of its lines prints the whole room of 4,096 bytes.
const SCENES: [(u32, Scene); 10] = [
    (40, history::two_ends),
    (30, history::hostile),
    (140, states::arbitrary),
    (90, states::ill_formed),
    (40, states::starts),
    (50, states::short_buffers),
    (80, states::timers),
    (40, chains::cuts),
    (14, chains::joins),
    (3, chains::round_trip),
];

/// Writes a script with exactly as many call lines as asked for. The same
/// seed and count give the same script.
pub fn generate<W: Write>(seed: u64, calls: u64, out: &mut W) -> io::Result<()> {
    let mut scribe = Scribe::new(seed, calls);
    opening(&mut scribe);
    while scribe.calls_left() {
        let place = scribe.random.weighted(SCENES.iter().map(|scene| scene.0));
        SCENES[place].1(&mut scribe);
        out.write_all(&scribe.take_text())?;
    }
    out.write_all(&scribe.take_text())?;
    out.write_all(noise::last_line(&mut scribe.random))?;
    out.flush()
}

/// Calls on what a script begins with: a state of zeros, empty buffers, no room.
fn opening(scribe: &mut Scribe) {
    scribe.write_line(b"# a generated script");
    scribe.call(LinkCommand::Look { ms: 0 });
    scribe.call(LinkCommand::Resynchronise { ms: u32::MAX });
    let limit = 11;
    scribe.call(ChainCommand::Join {
        limit,
        packet: &[0, 1],
    });
    scribe.call(ChainCommand::Cut {
        limit,
        index: 0,
        buffer: 0,
        message: &[1],
    });
    states::any_call(scribe, 5);
}
