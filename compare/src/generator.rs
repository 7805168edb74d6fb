//! Packets and values, the same in every run.

use crate::packets::Values;

/// The numbers of splitmix64.
pub struct Numbers(u64);

impl Numbers {
    pub fn new(seed: u64) -> Numbers {
        Numbers(seed)
    }

    pub fn any(&mut self) -> u64 {
        self.0 = self.0.wrapping_add(0x9E37_79B9_7F4A_7C15);
        let z = (self.0 ^ (self.0 >> 30)).wrapping_mul(0xBF58_476D_1CE4_E5B9);
        let z = (z ^ (z >> 27)).wrapping_mul(0x94D0_49BB_1331_11EB);
        z ^ (z >> 31)
    }

    pub fn below(&mut self, bound: usize) -> usize {
        (self.any() % bound as u64) as usize
    }

    pub fn byte(&mut self) -> u8 {
        self.any() as u8
    }

    fn one_in(&mut self, count: usize) -> bool {
        self.below(count) == 0
    }
}

/// The map and the command of each form that a request has.
const FORMS: [(u8, u8); 12] = [
    (0x23, 2),
    (0x1B, 3),
    (0x1F, 3),
    (0x0B, 4),
    (0x03, 5),
    (0x03, 6),
    (0x07, 6),
    (0x1B, 7),
    (0x03, 8),
    (0x0B, 8),
    (0x03, 9),
    (0x53, 10),
];

const RIGHT: &[u8; 36] = b"0123456789ABCDEFGHIJKLMNOPQRSTUVWXYZ";

/// Characters next to the right ones, where a reader errs first.
const NEAR: &[u8; 8] = b"/:@[`az?";

fn right_values(g: &mut Numbers, command: u8) -> Values {
    Values {
        number: g.any() as u16,
        command,
        option: 1,
        label: std::array::from_fn(|_| RIGHT[g.below(RIGHT.len())]),
        place: g.byte(),
        target: g.any() as u16,
        drive_state: 1 + g.below(2) as u8,
    }
}

/// A map with a value for each field: right ones, or with something wrong in one field or more.
pub fn values(g: &mut Numbers) -> (u8, Values) {
    let (mut map, command) = FORMS[g.below(FORMS.len())];
    let mut v = right_values(g, command);
    if g.one_in(2) {
        return (map, v);
    }
    if g.one_in(3) {
        map ^= 1 << g.below(8);
    }
    if g.one_in(12) {
        map = g.byte();
    }
    if g.one_in(4) {
        v.command = g.below(13) as u8;
    }
    if g.one_in(16) {
        v.command = g.byte();
    }
    if g.one_in(4) {
        v.option = g.below(4) as u8;
    }
    if g.one_in(2) {
        let at = g.below(6);
        v.label[at] = if g.one_in(2) { NEAR[g.below(NEAR.len())] } else { g.byte() };
    }
    if g.one_in(4) {
        v.drive_state = g.below(5) as u8;
    }
    (map, v)
}

/// The bytes of a map and its fields, whether or not a command takes them.
fn lay_out(map: u8, v: &Values) -> Vec<u8> {
    let fields: [&[u8]; 7] = [
        &v.number.to_be_bytes(),
        &[v.command],
        &[v.option],
        &v.label,
        &[v.place],
        &v.target.to_be_bytes(),
        &[v.drive_state],
    ];
    let mut packet = vec![map];
    for (bit, field) in fields.iter().enumerate() {
        if map >> bit & 1 == 1 {
            packet.extend_from_slice(field);
        }
    }
    packet
}

fn damage(g: &mut Numbers, packet: &mut Vec<u8>) {
    match g.below(5) {
        0 => packet.truncate(g.below(packet.len())),
        1 => packet.extend((0..1 + g.below(3)).map(|k| k as u8)),
        2 => packet[0] ^= 1 << g.below(8),
        3 => {
            packet.remove(g.below(packet.len()));
        }
        _ => {
            let at = g.below(packet.len());
            packet[at] = g.byte();
        }
    }
}

/// The packet of the turn `i`: by turns a right one, one with wrong values, a damaged one, and
/// random bytes of every length from 0 to 20.
pub fn packet(g: &mut Numbers, i: usize) -> Vec<u8> {
    match i % 4 {
        0 => {
            let (map, command) = FORMS[g.below(FORMS.len())];
            lay_out(map, &right_values(g, command))
        }
        1 => {
            let (map, v) = values(g);
            lay_out(map, &v)
        }
        2 => {
            let (map, v) = values(g);
            let mut packet = lay_out(map, &v);
            damage(g, &mut packet);
            packet
        }
        _ => (0..i / 4 % 21).map(|_| g.byte()).collect(),
    }
}
