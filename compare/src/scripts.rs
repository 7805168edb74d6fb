//! Sites and scripts, the same in every run.

use crate::bay::UNREADABLE;
use crate::generator::{self, Numbers};
use crate::playing::{Call, Site, Spot};

/// The number of `V00000`; those of `V00001`, `V00002` and so on follow it.
const FIRST: u32 = 1_874_451_457;

const DIGITS: &[u8; 36] = b"0123456789ABCDEFGHIJKLMNOPQRSTUVWXYZ";

/// `V00000` for 0, `V00001` for 1, and so on up to 1,295.
fn label(index: usize) -> [u8; 6] {
    [b'V', b'0', b'0', b'0', DIGITS[index / 36], DIGITS[index % 36]]
}

fn number(index: usize) -> u32 {
    FIRST + index as u32
}

/// The packets of requests.
struct Host {
    /// The number of the last request.
    last: u16,
}

impl Host {
    /// A packet with the next number: map, number, command and the other fields.
    fn packet(&mut self, map: u8, command: u8, fields: &[&[u8]]) -> Vec<u8> {
        self.last = self.last.wrapping_add(1);
        let mut packet = vec![map];
        packet.extend(self.last.to_be_bytes());
        packet.push(command);
        packet.extend(fields.concat());
        packet
    }

    fn cancel(&mut self, target: u16) -> Vec<u8> {
        self.packet(0x23, 2, &[&target.to_be_bytes()])
    }

    fn dismount(&mut self, index: usize, drive: u8) -> Vec<u8> {
        self.packet(0x1B, 3, &[&label(index), &[drive]])
    }

    fn dismount_any(&mut self, index: usize, drive: u8) -> Vec<u8> {
        self.packet(0x1F, 3, &[&[1], &label(index), &[drive]])
    }

    fn eject(&mut self, index: usize) -> Vec<u8> {
        self.packet(0x0B, 4, &[&label(index)])
    }

    fn enter(&mut self) -> Vec<u8> {
        self.packet(0x03, 5, &[])
    }

    fn idle(&mut self) -> Vec<u8> {
        self.packet(0x03, 6, &[])
    }

    fn idle_now(&mut self) -> Vec<u8> {
        self.packet(0x07, 6, &[&[1]])
    }

    fn mount(&mut self, index: usize, drive: u8) -> Vec<u8> {
        self.packet(0x1B, 7, &[&label(index), &[drive]])
    }

    fn state(&mut self) -> Vec<u8> {
        self.packet(0x03, 8, &[])
    }

    fn query(&mut self, index: usize) -> Vec<u8> {
        self.packet(0x0B, 8, &[&label(index)])
    }

    fn start(&mut self) -> Vec<u8> {
        self.packet(0x03, 9, &[])
    }

    fn vary(&mut self, drive: u8, online: bool) -> Vec<u8> {
        self.packet(0x53, 10, &[&[drive], &[2 - u8::from(online)]])
    }
}

/// The first drive of the large site, and how many there are.
const DRIVE: u8 = 8;
const DRIVES: usize = 8;

/// The labels of the large site: cell 16 has the first.
const LABELS: usize = 192;

/// 8 port places, 8 drives and 240 cells, 192 of them full.
pub fn large_site() -> Site {
    let spot = |p: usize| Spot {
        cartridge: if (16..16 + LABELS).contains(&p) { number(p - 16) } else { 0 },
        kind: match p {
            0..=7 => 2,
            8..=15 => 1,
            _ => 0,
        },
        in_service: true,
    };
    Site { spots: (0..256).map(spot).collect(), hand: 0, slots: 64 }
}

/// A day of work on the large site, from idle to idle, after which every cartridge is in a cell again.
pub fn day() -> Vec<Call> {
    let mut g = Numbers::new(3);
    let mut host = Host { last: 0 };
    let mut calls = vec![Call::Ask(host.start())];
    for turn in 0..100 {
        let index = g.below(LABELS);
        let other = (index + 1 + g.below(LABELS - 1)) % LABELS;
        let drive = DRIVE + g.below(DRIVES) as u8;
        match turn % 10 {
            // A volume is looked up, mounted and dismounted.
            0..=4 => {
                calls.push(Call::Ask(host.query(index)));
                calls.push(Call::Ask(host.mount(index, drive)));
                calls.push(Call::Ask(host.mount(other, drive)));
                calls.push(Call::Ask(host.query(index)));
                calls.push(Call::Ask(host.dismount(index, drive)));
            }
            // Several requests wait at once; a drive goes offline as soon as it is answered.
            5 | 6 => {
                let second = DRIVE + (drive - DRIVE + 1) % DRIVES as u8;
                calls.push(Call::Receive(host.mount(index, drive)));
                calls.push(Call::Receive(host.mount(other, second)));
                calls.push(Call::Receive(host.dismount(index, drive)));
                calls.push(Call::Receive(host.dismount_any(index, second)));
                calls.push(Call::Receive(host.vary(drive, false)));
                calls.push(Call::Receive(host.mount(other, drive)));
                calls.push(Call::Steps(4));
                calls.push(Call::Receive(host.vary(drive, true)));
            }
            // Two volumes go to the port and come back; a third does not go.
            7 | 8 => {
                calls.push(Call::Ask(host.eject(index)));
                calls.push(Call::Ask(host.eject(other)));
                calls.push(Call::Receive(host.eject((other + 1) % LABELS)));
                let last = host.last;
                calls.push(Call::Receive(host.cancel(last)));
                calls.push(Call::Steps(1));
                calls.push(Call::Ask(host.enter()));
            }
            // What is refused.
            _ => {
                calls.push(Call::Ask(host.query(LABELS + index)));
                calls.push(Call::Ask(host.mount(LABELS + index, drive)));
                calls.push(Call::Ask(host.dismount(index, drive)));
                calls.push(Call::Ask(host.mount(index, 0)));
                calls.push(Call::Ask(host.cancel(0)));
                calls.push(Call::Ask(host.start()));
                calls.push(Call::Receive(generator::packet(&mut g, 2)));
                calls.push(Call::Steps(1));
                calls.push(Call::Receive(host.state()));
            }
        }
    }
    calls.push(Call::Ask(host.idle()));
    calls
}

/// A small site, of any make-up, in which something is to be refused often.
pub fn random_site(g: &mut Numbers) -> Site {
    let count = match g.below(40) {
        0 => 0,
        1 => 256,
        2 => 22 + g.below(100),
        _ => 3 + g.below(20),
    };
    let of_ports = g.below(60) == 0;
    let spot = |g: &mut Numbers| Spot {
        cartridge: cartridge(g),
        kind: if of_ports { 2 } else { g.below(3) as u8 },
        in_service: g.below(8) != 0,
    };
    let spots = (0..count).map(|_| spot(g)).collect();
    let hand = if g.below(4) == 0 { cartridge(g) } else { 0 };
    Site { spots, hand, slots: if g.below(2) == 0 { 64 } else { g.below(4) } }
}

/// How many labels the random sites use: few, so that they are met again.
const FEW: usize = 12;

fn cartridge(g: &mut Numbers) -> u32 {
    match g.below(8) {
        0..=3 => 0,
        4 => UNREADABLE,
        _ => number(g.below(FEW)),
    }
}

/// One random call, valid more often than not.
fn random_call(g: &mut Numbers, host: &mut Host) -> Call {
    let index = g.below(FEW);
    let drive = if g.below(8) == 0 { g.byte() } else { g.below(24) as u8 };
    let place = g.below(26) as u8;
    if g.below(12) == 0 {
        host.last = host.last.wrapping_sub(1 + g.below(4) as u16);
    }
    match g.below(40) {
        0..=1 => Call::Receive(host.cancel(host.last.wrapping_sub(g.below(4) as u16))),
        2..=3 => Call::Receive(host.dismount(index, drive)),
        4..=5 => Call::Receive(host.dismount_any(index, drive)),
        6..=8 => Call::Receive(host.eject(index)),
        9..=11 => Call::Receive(host.enter()),
        12 => Call::Receive(host.idle()),
        13 => Call::Receive(if g.below(2) == 0 { host.idle_now() } else { host.idle() }),
        14..=17 => Call::Receive(host.mount(index, drive)),
        18..=19 => Call::Receive(host.query(index)),
        20 => Call::Receive(host.state()),
        21..=22 => Call::Ask(host.start()),
        23 => Call::Receive(host.vary(drive, g.below(2) == 0)),
        24 => Call::Receive(host.vary(drive, true)),
        25..=27 => Call::Put(place, cartridge(g)),
        28..=29 => Call::Take(place),
        30 => Call::Service(place, g.below(2) == 0),
        31 => Call::Service(place, true),
        32 => Call::Receive(generator::packet(g, 0)),
        33 => Call::Receive(generator::packet(g, 1)),
        34 => Call::Receive(generator::packet(g, 2)),
        35 => Call::Steps(40),
        _ => Call::Steps(1 + g.below(3) as u8),
    }
}

pub fn random_calls(g: &mut Numbers, count: usize) -> Vec<Call> {
    let mut host = Host { last: g.any() as u16 };
    (0..count).map(|_| random_call(g, &mut host)).collect()
}
