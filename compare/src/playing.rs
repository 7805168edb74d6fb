//! Scripts of calls, made to the proved server and to the plain one: crates/load has what the bytes
//! of a script mean.

use crate::bay::{Bay, Kind, Place};
use crate::server::Server;

/// A start over 256 places, which is the longest request, needs fewer steps.
const MOST_STEPS: usize = 300;

const REQUEST_SLOTS: usize = 64;
const MESSAGE_SLOTS: usize = 32;

/// A place as the static library is told it.
#[repr(C)]
#[derive(Clone, Copy)]
pub struct Spot {
    pub cartridge: u32,
    pub kind: u8,
    pub in_service: bool,
}

/// How many calls were made, and the sum of what they told.
#[repr(C)]
#[derive(Clone, Copy, Debug, PartialEq, Eq)]
pub struct Outcome {
    pub calls: u64,
    pub sum: u64,
    pub is_made: bool,
}

extern "C" {
    fn cartridge_play(
        site: *const Spot,
        places: usize,
        hand: u32,
        tagged: bool,
        slots: usize,
        script: *const u8,
        length: usize,
        rounds: u32,
    ) -> Outcome;
}

/// What a server is made over.
pub struct Site {
    pub spots: Vec<Spot>,
    pub hand: u32,
    pub slots: usize,
}

/// A call of a script.
#[derive(Clone, Debug)]
pub enum Call {
    Receive(Vec<u8>),
    Ask(Vec<u8>),
    Steps(u8),
    Put(u8, u32),
    Take(u8),
    Service(u8, bool),
}

impl Call {
    /// The bytes that stand for it in a script.
    fn bytes(&self) -> Vec<u8> {
        let with = |code: usize, packet: &[u8]| [&[code as u8], packet].concat();
        match self {
            Call::Receive(packet) => with(packet.len(), packet),
            Call::Ask(packet) => with(32 + packet.len(), packet),
            Call::Steps(count) => vec![0x40, *count],
            Call::Put(place, number) => [&[0x41, *place][..], &number.to_be_bytes()].concat(),
            Call::Take(place) => vec![0x42, *place],
            Call::Service(place, on) => vec![0x43, *place, u8::from(*on)],
        }
    }
}

pub fn bytes_of(calls: &[Call]) -> Vec<u8> {
    calls.iter().flat_map(Call::bytes).collect()
}

/// The proved server, over a bay or over a tag frame.
pub fn proved(site: &Site, tagged: bool, script: &[u8], rounds: u32) -> Outcome {
    // The pointers and the lengths are those of slices.
    unsafe {
        cartridge_play(
            site.spots.as_ptr(),
            site.spots.len(),
            site.hand,
            tagged,
            site.slots,
            script.as_ptr(),
            script.len(),
            rounds,
        )
    }
}

/// What learns of each call: the number that it was refused by, or 0, and the bytes that it told.
trait Listener {
    fn hear(&mut self, refusal: u8, bytes: &[u8]);

    /// A take that was granted.
    fn hear_taken(&mut self, number: u32) {
        self.hear(0, &number.to_be_bytes());
    }
}

/// A sum over all that a server tells; what is told in another order gives another sum.
struct Tally {
    calls: u64,
    low: u64,
    high: u64,
}

impl Listener for Tally {
    fn hear(&mut self, refusal: u8, bytes: &[u8]) {
        self.calls += 1;
        self.high = self.high.wrapping_add(refusal.into());
        for byte in bytes {
            self.low = self.low.wrapping_add((*byte).into());
            self.high = self.high.wrapping_add(self.low);
        }
        self.high = self.high.rotate_left(1);
    }
}

/// How often each status and each refusal of a call was told.
#[derive(Default)]
pub struct Counts {
    pub statuses: [u64; 26],
    pub refusals: [u64; 9],
}

impl Listener for Counts {
    fn hear(&mut self, refusal: u8, bytes: &[u8]) {
        self.refusals[usize::from(refusal)] += 1;
        let Some(map) = bytes.first() else { return };
        let set = |bit: u8| usize::from(map >> bit & 1);
        let status = 2 + 2 * set(0) + set(1);
        self.statuses[usize::from(bytes[status])] += 1;
        if set(6) == 1 {
            let count = status + 1 + set(4) + set(5);
            bytes[count + 1..].chunks(9).for_each(|entry| self.statuses[usize::from(entry[8])] += 1);
        }
    }

    fn hear_taken(&mut self, _: u32) {
        self.hear(0, &[]);
    }
}

/// The plain server, and who hears what it tells.
struct Player<L> {
    server: Server,
    buffer: [u8; 2048],
    listener: L,
}

impl<L: Listener> Player<L> {
    fn new(site: &Site, listener: L) -> Player<L> {
        let server = Server::new(bay_of(site), site.slots.min(REQUEST_SLOTS), MESSAGE_SLOTS);
        Player { server, buffer: [0; 2048], listener }
    }

    /// Tells the length of what the call wrote.
    fn tell(&mut self, result: Result<usize, u8>) -> usize {
        let length = result.unwrap_or(0);
        self.listener.hear(result.err().unwrap_or(0), &self.buffer[..length]);
        length
    }

    fn receive(&mut self, packet: &[u8]) -> usize {
        let result = self.server.receive(packet, &mut self.buffer);
        self.tell(result)
    }

    fn step(&mut self) -> usize {
        let result = self.server.step(&mut self.buffer);
        self.tell(result)
    }

    fn ask(&mut self, packet: &[u8]) {
        if self.receive(packet) != 0 && self.buffer[0] == 0x0F && self.buffer[4] == 1 {
            (0..MOST_STEPS).find(|_| self.step() != 0);
        }
    }

    /// Makes the first call of the script, and tells what stands behind it.
    fn make<'a>(&mut self, script: &'a [u8]) -> Option<&'a [u8]> {
        Some(match script {
            [0x40, count, rest @ ..] => {
                for _ in 0..*count {
                    self.step();
                }
                rest
            }
            [0x41, place, a, b, c, d, rest @ ..] => {
                let result = self.server.put((*place).into(), u32::from_be_bytes([*a, *b, *c, *d]));
                self.listener.hear(result.err().unwrap_or(0), &[]);
                rest
            }
            [0x42, place, rest @ ..] => {
                match self.server.take((*place).into()) {
                    Ok(number) => self.listener.hear_taken(number),
                    Err(refusal) => self.listener.hear(refusal, &[]),
                }
                rest
            }
            [0x43, place, on, rest @ ..] => {
                let result = self.server.service((*place).into(), *on == 1);
                self.listener.hear(result.err().unwrap_or(0), &[]);
                rest
            }
            [code @ 0..=0x3F, rest @ ..] => {
                let (packet, rest) = rest.split_at_checked((code % 32).into())?;
                if *code < 32 {
                    self.receive(packet);
                } else {
                    self.ask(packet);
                }
                rest
            }
            _ => return None,
        })
    }

    fn play(mut self, script: &[u8], rounds: u32) -> L {
        for _ in 0..rounds {
            let mut rest = script;
            while let Some(behind) = self.make(rest) {
                rest = behind;
            }
        }
        self.listener
    }
}

fn bay_of(site: &Site) -> Bay {
    let place = |spot: &Spot| Place {
        kind: match spot.kind {
            0 => Kind::Cell,
            1 => Kind::Drive,
            _ => Kind::Port,
        },
        cartridge: spot.cartridge,
        in_service: spot.in_service,
    };
    Bay::new(site.spots.iter().map(place).collect(), site.hand)
}

/// The plain server. Not inlined, as a function of a library is not.
#[inline(never)]
pub fn plain(site: &Site, script: &[u8], rounds: u32) -> Outcome {
    let tally = Tally { calls: 0, low: 1, high: 0 };
    let Tally { calls, low, high } = Player::new(site, tally).play(script, rounds);
    Outcome { calls, sum: high.rotate_left(32) ^ low, is_made: true }
}

/// What the plain server tells in one round.
pub fn counts(site: &Site, script: &[u8]) -> Counts {
    Player::new(site, Counts::default()).play(script, 1)
}
