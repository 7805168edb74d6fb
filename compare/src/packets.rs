//! Request packets read and written in plain Rust, from docs/PACKETS.md and from nothing else.

/// What a packet check tells.
#[derive(Clone, Copy, Debug, PartialEq, Eq)]
pub struct Verdict {
    pub status: u8,
    pub detail: Option<u8>,
    pub number: Option<u16>,
    pub command: Option<u8>,
}

/// A value for each field of a request.
#[derive(Clone, Copy, Debug)]
pub struct Values {
    pub number: u16,
    pub command: u8,
    pub option: u8,
    pub label: [u8; 6],
    pub place: u8,
    pub target: u16,
    pub drive_state: u8,
}

const SHORT: u8 = 1;
const LONG: u8 = 2;
const UNKNOWN_COMMAND: u8 = 3;
const WRONG_BIT: u8 = 4;
const WRONG_CHARACTER: u8 = 5;
const WRONG_DRIVE_STATE: u8 = 6;

const NUMBER: u8 = 0x01;
const COMMAND: u8 = 0x02;
const OPTION: u8 = 0x04;
const LABEL: u8 = 0x08;
const PLACE: u8 = 0x10;
const TARGET: u8 = 0x20;
const DRIVE_STATE: u8 = 0x40;

/// The longest packet that any map asks for.
const LONGEST: usize = 15;

/// A request as read.
#[derive(Clone, Copy, Debug)]
pub struct Request {
    pub number: u16,
    pub body: Body,
}

#[derive(Clone, Copy, Debug)]
pub enum Body {
    Cancel { target: u16 },
    Dismount { label: [u8; 6], drive: u8, force: bool },
    Eject { label: [u8; 6] },
    Enter,
    Idle { force: bool },
    Mount { label: [u8; 6], drive: u8 },
    Query { label: Option<[u8; 6]> },
    Start,
    Vary { drive: u8, online: bool },
}

/// The fields of a packet that the second stage judges, those that are there.
#[derive(Clone, Copy, Default)]
struct Fields {
    map: u8,
    number: Option<u16>,
    command: Option<u8>,
    option: Option<u8>,
    label: Option<[u8; 6]>,
    drive_state: Option<u8>,
}

/// The fields that the second stage does not look at, since they may have every value.
#[derive(Clone, Copy, Default)]
struct FreeFields {
    place: Option<u8>,
    target: Option<u16>,
}

/// Which bits a command needs, and which it may have; none for an unknown command.
fn bits_of(command: u8) -> Option<(u8, u8)> {
    let both = NUMBER | COMMAND;
    Some(match command {
        2 => (both | TARGET, 0),
        3 => (both | LABEL | PLACE, OPTION),
        4 => (both | LABEL, 0),
        5 => (both, 0),
        6 => (both, OPTION),
        7 => (both | LABEL | PLACE, 0),
        8 => (both, LABEL),
        9 => (both, 0),
        10 => (both | PLACE | DRIVE_STATE, 0),
        _ => return None,
    })
}

/// Cuts the next `N` bytes off, if the bit is set. An error says that the bytes end before.
fn next<const N: usize>(map: u8, bit: u8, rest: &mut &[u8]) -> Result<Option<[u8; N]>, ()> {
    if map & bit == 0 {
        return Ok(None);
    }
    let (head, tail) = rest.split_first_chunk::<N>().ok_or(())?;
    *rest = tail;
    Ok(Some(*head))
}

/// The first stage, from the byte behind the map on. It fills in what it reads.
#[inline(always)]
fn take(fields: &mut Fields, free: &mut FreeFields, rest: &mut &[u8]) -> Result<(), ()> {
    let map = fields.map;
    fields.number = next(map, NUMBER, rest)?.map(u16::from_be_bytes);
    fields.command = next(map, COMMAND, rest)?.map(|[b]| b);
    fields.option = next(map, OPTION, rest)?.map(|[b]| b);
    fields.label = next(map, LABEL, rest)?;
    free.place = next(map, PLACE, rest)?.map(|[b]| b);
    free.target = next(map, TARGET, rest)?.map(u16::from_be_bytes);
    fields.drive_state = next(map, DRIVE_STATE, rest)?.map(|[b]| b);
    Ok(())
}

/// The second stage: the status, and the detail where there is one.
fn judge(fields: &Fields) -> (u8, Option<u8>) {
    let Some((needs, may)) = fields.command.and_then(bits_of) else {
        return (UNKNOWN_COMMAND, None);
    };
    let mut wrong = (needs & !fields.map) | (fields.map & !(needs | may));
    if fields.option.is_some_and(|option| option != 1) {
        wrong |= OPTION;
    }
    if wrong != 0 {
        return (WRONG_BIT, Some(wrong.trailing_zeros() as u8));
    }
    if let Some(label) = fields.label {
        let is_right = |b: &u8| b.is_ascii_digit() || b.is_ascii_uppercase();
        if let Some(index) = label.iter().position(|b| !is_right(b)) {
            return (WRONG_CHARACTER, Some(index as u8));
        }
    }
    if fields.drive_state.is_some_and(|state| state != 1 && state != 2) {
        return (WRONG_DRIVE_STATE, None);
    }
    (0, None)
}

/// Both stages: what they tell, and the fields read.
#[inline(always)]
fn inspect(packet: &[u8]) -> (Verdict, Fields, FreeFields) {
    let mut fields = Fields::default();
    let mut free = FreeFields::default();
    let (status, detail) = match packet.split_first() {
        None => (SHORT, None),
        Some((map, mut rest)) => {
            fields.map = *map;
            match take(&mut fields, &mut free, &mut rest) {
                Err(()) => (SHORT, None),
                Ok(()) if !rest.is_empty() => (LONG, None),
                Ok(()) => judge(&fields),
            }
        }
    };
    let verdict = Verdict {
        status,
        detail,
        number: fields.number,
        command: fields.command,
    };
    (verdict, fields, free)
}

/// Checks a packet. Not inlined, as a function of a library is not.
#[inline(never)]
pub fn check(packet: &[u8]) -> Verdict {
    inspect(packet).0
}

/// The request that fields which passed the second stage stand for.
fn request_of(fields: &Fields, free: &FreeFields) -> Option<Request> {
    let force = fields.option.is_some();
    let body = match fields.command? {
        2 => Body::Cancel { target: free.target? },
        3 => Body::Dismount { label: fields.label?, drive: free.place?, force },
        4 => Body::Eject { label: fields.label? },
        5 => Body::Enter,
        6 => Body::Idle { force },
        7 => Body::Mount { label: fields.label?, drive: free.place? },
        8 => Body::Query { label: fields.label },
        9 => Body::Start,
        10 => Body::Vary { drive: free.place?, online: fields.drive_state? == 1 },
        _ => return None,
    };
    Some(Request { number: fields.number?, body })
}

/// Reads a packet: a request, or why it is none.
pub fn read(packet: &[u8]) -> Result<Request, Verdict> {
    let (verdict, fields, free) = inspect(packet);
    if verdict.status != 0 {
        return Err(verdict);
    }
    request_of(&fields, &free).ok_or(verdict)
}

/// Writes a request to the front of the buffer: the status, and the length of what was written.
#[inline(never)]
pub fn write(buffer: &mut [u8], map: u8, values: &Values) -> (u8, usize) {
    if buffer.len() < LONGEST {
        return (LONG, 0);
    }
    let given = |bit| map & bit != 0;
    let fields = Fields {
        map,
        number: given(NUMBER).then_some(values.number),
        command: given(COMMAND).then_some(values.command),
        option: given(OPTION).then_some(values.option),
        label: given(LABEL).then_some(values.label),
        drive_state: given(DRIVE_STATE).then_some(values.drive_state),
    };
    let (status, _) = judge(&fields);
    if status != 0 {
        return (status, 0);
    }
    let mut end = 0;
    let mut put = |bytes: &[u8]| {
        buffer[end..end + bytes.len()].copy_from_slice(bytes);
        end += bytes.len();
    };
    put(&[map]);
    if given(NUMBER) {
        put(&values.number.to_be_bytes());
    }
    if given(COMMAND) {
        put(&[values.command]);
    }
    if given(OPTION) {
        put(&[values.option]);
    }
    if given(LABEL) {
        put(&values.label);
    }
    if given(PLACE) {
        put(&[values.place]);
    }
    if given(TARGET) {
        put(&values.target.to_be_bytes());
    }
    if given(DRIVE_STATE) {
        put(&[values.drive_state]);
    }
    (0, end)
}
