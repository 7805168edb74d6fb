//! The request server in plain Rust, by docs/SERVER.md, docs/CALLS.md and docs/PACKETS.md. No code is
//! taken from the proved one. The door and the message call are left out, as they are there.

use crate::bay::{Bay, Cause, Fault, Kind, Stopped, Target, UNREADABLE};
use crate::packets::{self, Body, Request, Verdict};
use std::collections::VecDeque;

const RESPONSE_ROOM: usize = 2048;
const MOST_REQUESTS: usize = 64;
const MOST_MESSAGES: usize = 32;
const MOST_PLACES: usize = 256;
const MOST_PORTS: usize = 21;

#[derive(Clone, Copy, PartialEq, Eq)]
enum State {
    Run = 1,
    IdlePending = 2,
    Idle = 3,
    Recovery = 4,
}

#[derive(Clone, Copy, PartialEq, Eq)]
enum Drive {
    Online,
    Offline,
    OfflinePending,
}

#[derive(Clone, Copy, PartialEq, Eq)]
enum Mark {
    Unmarked,
    Cancelled,
    Aborted,
}

#[derive(Clone, Copy)]
#[allow(dead_code)]
struct Message {
    kind: u8,
    number: u16,
}

#[derive(Clone, Copy)]
#[repr(u8)]
enum Status {
    Success = 0,
    NotServed = 7,
    IdlePending = 8,
    NoDrive = 9,
    NotOnline = 10,
    AlreadySo = 11,
    NothingToCancel = 12,
    LibraryBusy = 13,
    Cancelled = 14,
    BadMakeUp = 15,
    NoFreeCell = 16,
    NoVolume = 17,
    SeveralVolumes = 18,
    InDrive = 19,
    DriveInUse = 20,
    DriveEmpty = 21,
    OtherVolume = 22,
    NoPortPlace = 23,
    UnreadableLabel = 24,
    LibraryFailure = 25,
}

/// A status other than success, with its detail where it has one.
struct Refusal(Status, Option<u8>);

/// A request that was queued.
#[derive(Clone, Copy)]
struct Queued {
    request: Request,
    mark: Mark,
}

/// The request at work.
struct Work {
    queued: Queued,
    /// The next place to read, or to look from.
    next: usize,
    entries: Vec<Entry>,
}

#[derive(Clone, Copy)]
struct Entry {
    cartridge: u32,
    from: usize,
    to: usize,
    status: Status,
}

/// What a final has behind its status and detail.
enum Tail {
    Nothing,
    One(Entry),
    Entries(Vec<Entry>),
    Inventory,
}

struct Final {
    status: Status,
    detail: Option<u8>,
    tail: Tail,
}

/// What a step makes of a request.
enum Turn {
    Stays(Work),
    Ends(Final),
}

#[derive(Clone, Copy)]
struct Record {
    number: u32,
    place: usize,
}

pub struct Server {
    bay: Bay,
    state: State,
    catalogue: Vec<Record>,
    drives: [Drive; 256],
    work: Option<Work>,
    waiting: VecDeque<Queued>,
    waiting_limit: usize,
    messages: VecDeque<Message>,
    messages_limit: usize,
    dropped: u16,
}

fn number_of(label: &[u8; 6]) -> u32 {
    let digit = |b: u8| u32::from(if b.is_ascii_digit() { b - b'0' } else { b - b'A' + 10 });
    label.iter().fold(0, |value, b| value * 36 + digit(*b)) + 1
}

/// The six bytes that stand for a cartridge in a response.
fn six_for(number: u32) -> [u8; 6] {
    if number == UNREADABLE {
        return [b'?'; 6];
    }
    let mut value = number - 1;
    let mut six = [0; 6];
    for byte in six.iter_mut().rev() {
        let digit = (value % 36) as u8;
        *byte = if digit < 10 { b'0' + digit } else { b'A' + digit - 10 };
        value /= 36;
    }
    six
}

fn command_of(body: &Body) -> u8 {
    match body {
        Body::Cancel { .. } => 2,
        Body::Dismount { .. } => 3,
        Body::Eject { .. } => 4,
        Body::Enter => 5,
        Body::Idle { .. } => 6,
        Body::Mount { .. } => 7,
        Body::Query { .. } => 8,
        Body::Start => 9,
        Body::Vary { .. } => 10,
    }
}

fn names(body: &Body, place: u8) -> bool {
    matches!(body, Body::Mount { drive, .. } | Body::Dismount { drive, .. } if *drive == place)
}

fn layer_of(status: u8) -> Option<u8> {
    match status {
        0 => None,
        1..=6 => Some(1),
        25 => Some(3),
        _ => Some(2),
    }
}

impl State {
    fn serves(self, body: &Body) -> bool {
        match body {
            Body::Cancel { .. } | Body::Query { label: None } => true,
            Body::Query { label: Some(_) } => matches!(self, State::Run | State::IdlePending),
            Body::Idle { .. } | Body::Vary { .. } => self != State::Recovery,
            Body::Start => matches!(self, State::Run | State::Idle),
            Body::Dismount { .. } | Body::Eject { .. } | Body::Enter | Body::Mount { .. } => self == State::Run,
        }
    }
}

impl Drive {
    /// After an answer to a mount or dismount that names it.
    fn answered(self, named: bool) -> Drive {
        match self {
            Drive::OfflinePending if !named => Drive::Offline,
            same => same,
        }
    }
}

impl Queued {
    fn cancelled_by(&self, target: u16) -> bool {
        self.request.number == target
            && self.mark == Mark::Unmarked
            && matches!(self.request.body, Body::Enter | Body::Eject { .. })
    }

    fn abort(&mut self) {
        if self.mark == Mark::Unmarked {
            self.mark = Mark::Aborted;
        }
    }
}

impl Final {
    fn done(tail: Tail) -> Final {
        Final { status: Status::Success, detail: None, tail }
    }
}

impl From<Refusal> for Final {
    fn from(Refusal(status, detail): Refusal) -> Final {
        Final { status, detail, tail: Tail::Nothing }
    }
}

impl From<Status> for Refusal {
    fn from(status: Status) -> Refusal {
        Refusal(status, None)
    }
}

impl From<Fault> for Refusal {
    fn from(fault: Fault) -> Refusal {
        at(Status::LibraryFailure, fault.place)
    }
}

/// A refusal whose detail is a place.
fn at(status: Status, place: usize) -> Refusal {
    Refusal(status, Some(place as u8))
}

/// Bytes put one behind the other at the front of a buffer.
struct Writer<'a> {
    buffer: &'a mut [u8],
    length: usize,
}

impl Writer<'_> {
    fn put(&mut self, bytes: &[u8]) {
        self.buffer[self.length..self.length + bytes.len()].copy_from_slice(bytes);
        self.length += bytes.len();
    }

    /// The map, number, command, kind, status, layer and detail.
    fn head(&mut self, extra: u8, number: Option<u16>, command: Option<u8>, kind: u8, status: u8, detail: Option<u8>) {
        let layer = layer_of(status);
        let map = u8::from(number.is_some())
            | u8::from(command.is_some()) << 1
            | 0x0C
            | u8::from(layer.is_some()) << 4
            | u8::from(detail.is_some()) << 5
            | extra;
        self.put(&[map]);
        if let Some(number) = number {
            self.put(&number.to_be_bytes());
        }
        if let Some(command) = command {
            self.put(&[command]);
        }
        self.put(&[kind, status]);
        if let Some(layer) = layer {
            self.put(&[layer]);
        }
        if let Some(detail) = detail {
            self.put(&[detail]);
        }
    }

    fn entries(&mut self, entries: &[Entry]) {
        self.put(&[entries.len() as u8]);
        for entry in entries {
            self.put(&six_for(entry.cartridge));
            self.put(&[entry.from as u8, entry.to as u8, entry.status as u8]);
        }
    }

    fn inventory(&mut self, bay: &Bay) {
        let shown = || {
            let places = bay.places().iter().enumerate();
            places.filter(|(_, place)| place.kind != Kind::Port && place.cartridge != 0)
        };
        let mut map = [0; 32];
        for (p, _) in shown() {
            map[p / 8] |= 1 << (p % 8);
        }
        self.put(&map);
        for (_, place) in shown() {
            self.put(&six_for(place.cartridge));
        }
    }
}

impl Server {
    /// A new server with so many slots for requests and for messages.
    pub fn new(bay: Bay, request_slots: usize, message_slots: usize) -> Server {
        let waiting_limit = request_slots.min(MOST_REQUESTS);
        let messages_limit = message_slots.min(MOST_MESSAGES);
        Server {
            bay,
            state: State::Idle,
            catalogue: Vec::with_capacity(MOST_PLACES),
            drives: [Drive::Online; 256],
            work: None,
            waiting: VecDeque::with_capacity(waiting_limit),
            waiting_limit,
            messages: VecDeque::with_capacity(messages_limit),
            messages_limit,
            dropped: 0,
        }
    }

    fn post(&mut self, kind: u8, number: u16) {
        if self.messages.len() < self.messages_limit {
            self.messages.push_back(Message { kind, number });
        } else {
            self.dropped = self.dropped.saturating_add(1);
        }
    }

    fn in_use(&self, number: u16) -> bool {
        self.work.as_ref().is_some_and(|work| work.queued.request.number == number)
            || self.waiting.iter().any(|queued| queued.request.number == number)
    }

    /// Whether a waiting mount or dismount names the drive.
    fn is_named(&self, place: u8) -> bool {
        self.waiting.iter().any(|queued| names(&queued.request.body, place))
    }

    /// The one record of the label, by its index.
    fn find(&self, number: u32) -> Result<usize, Refusal> {
        let mut rows = self.catalogue.iter().enumerate().filter(|(_, record)| record.number == number);
        let (index, _) = rows.next().ok_or(Status::NoVolume)?;
        match rows.next() {
            Some(_) => Err(Status::SeveralVolumes.into()),
            None => Ok(index),
        }
    }

    /// The tests at receipt.
    fn check(&self, body: &Body) -> Result<(), Refusal> {
        if !self.state.serves(body) {
            return Err(Refusal(Status::NotServed, Some(self.state as u8)));
        }
        if matches!(body, Body::Idle { force: false }) && self.state == State::IdlePending {
            return Err(Status::IdlePending.into());
        }
        if let Body::Mount { drive, .. } | Body::Dismount { drive, .. } | Body::Vary { drive, .. } = *body {
            if !self.bay.is_a(Kind::Drive, drive.into()) {
                return Err(at(Status::NoDrive, drive.into()));
            }
        }
        let is_online = |drive: u8| self.drives[usize::from(drive)] == Drive::Online;
        match *body {
            Body::Mount { drive, .. } | Body::Dismount { drive, .. } if !is_online(drive) => {
                return Err(at(Status::NotOnline, drive.into()));
            }
            Body::Start if self.state == State::Run => return Err(Status::AlreadySo.into()),
            Body::Idle { .. } if self.state == State::Idle => return Err(Status::AlreadySo.into()),
            Body::Vary { drive, online } if is_online(drive) == online => return Err(Status::AlreadySo.into()),
            Body::Cancel { target } => {
                let at_work = self.work.as_ref().is_some_and(|work| work.queued.cancelled_by(target));
                if !at_work && !self.waiting.iter().any(|queued| queued.cancelled_by(target)) {
                    return Err(Status::NothingToCancel.into());
                }
            }
            _ => {}
        }
        let is_queued = !matches!(
            body,
            Body::Cancel { .. } | Body::Idle { force: true } | Body::Query { .. } | Body::Vary { .. }
        );
        if is_queued && self.waiting.len() >= self.waiting_limit {
            return Err(Status::LibraryBusy.into());
        }
        Ok(())
    }

    /// The final of a received request, or none where it was queued.
    fn accept(&mut self, request: Request) -> Result<Option<Final>, Refusal> {
        self.check(&request.body)?;
        match request.body {
            Body::Query { label: None } => {
                let detail = Some(self.state as u8);
                return Ok(Some(Final { status: Status::Success, detail, tail: Tail::Nothing }));
            }
            Body::Query { label: Some(label) } => {
                let cartridge = number_of(&label);
                let place = self.catalogue[self.find(cartridge)?].place;
                let entry = Entry { cartridge, from: place, to: place, status: Status::Success };
                return Ok(Some(Final::done(Tail::One(entry))));
            }
            Body::Cancel { target } => {
                let all = self.waiting.iter_mut().chain(self.work.as_mut().map(|work| &mut work.queued));
                all.filter(|queued| queued.cancelled_by(target)).for_each(|queued| queued.mark = Mark::Cancelled);
            }
            Body::Idle { force: true } => {
                self.state = State::Idle;
                let all = self.waiting.iter_mut().chain(self.work.as_mut().map(|work| &mut work.queued));
                all.for_each(Queued::abort);
                self.post(4, request.number);
            }
            Body::Vary { drive, online } => {
                self.drives[usize::from(drive)] = match online {
                    true => Drive::Online,
                    false if self.is_named(drive) => Drive::OfflinePending,
                    false => Drive::Offline,
                };
            }
            _ => {
                self.waiting.push_back(Queued { request, mark: Mark::Unmarked });
                match request.body {
                    Body::Start => self.state = State::Recovery,
                    Body::Idle { .. } => {
                        self.state = State::IdlePending;
                        self.post(3, request.number);
                    }
                    _ => {}
                }
                return Ok(None);
            }
        }
        Ok(Some(Final::done(Tail::Nothing)))
    }

    fn write_final(&self, request: &Request, end: &Final, buffer: &mut [u8]) -> usize {
        let mut writer = Writer { buffer, length: 0 };
        let extra = match end.tail {
            Tail::Nothing => 0,
            Tail::One(_) | Tail::Entries(_) => 0x40,
            Tail::Inventory => 0x80,
        };
        let command = command_of(&request.body);
        writer.head(extra, Some(request.number), Some(command), 3, end.status as u8, end.detail);
        match &end.tail {
            Tail::Nothing => {}
            Tail::One(entry) => writer.entries(std::slice::from_ref(entry)),
            Tail::Entries(entries) => writer.entries(entries),
            Tail::Inventory => writer.inventory(&self.bay),
        }
        writer.length
    }

    /// Receives a packet: the length of the response, or the refusal of the call.
    pub fn receive(&mut self, packet: &[u8], buffer: &mut [u8]) -> Result<usize, u8> {
        if buffer.len() < RESPONSE_ROOM {
            return Err(1);
        }
        let read = packets::read(packet);
        let number = match &read {
            Ok(request) => Some(request.number),
            Err(verdict) => verdict.number,
        };
        if number.is_some_and(|number| self.in_use(number)) {
            return Err(2);
        }
        let mut writer = Writer { buffer, length: 0 };
        match read {
            Err(Verdict { status, detail, number, command }) => {
                writer.head(0, number, command, 3, status, detail);
                Ok(writer.length)
            }
            Ok(request) => match self.accept(request) {
                Ok(None) => {
                    writer.head(0, Some(request.number), Some(command_of(&request.body)), 1, 0, None);
                    Ok(writer.length)
                }
                Ok(Some(end)) => Ok(self.write_final(&request, &end, buffer)),
                Err(refusal) => Ok(self.write_final(&request, &refusal.into(), buffer)),
            },
        }
    }

    /// The record of a label that is in a cell, by its index.
    fn find_in_cell(&self, label: &[u8; 6]) -> Result<usize, Refusal> {
        let index = self.find(number_of(label))?;
        let place = self.catalogue[index].place;
        if self.bay.is_a(Kind::Drive, place) {
            return Err(at(Status::InDrive, place));
        }
        Ok(index)
    }

    fn mount(&mut self, label: &[u8; 6], drive: usize) -> Result<Entry, Refusal> {
        let index = self.find_in_cell(label)?;
        if self.bay.cartridge(drive) != 0 {
            return Err(at(Status::DriveInUse, drive));
        }
        let from = self.catalogue[index].place;
        let (cartridge, to) = self.bay.move_cartridge(from, Target::At(drive)).map_err(no_cell)?;
        self.catalogue[index].place = to;
        Ok(Entry { cartridge, from, to, status: Status::Success })
    }

    fn dismount(&mut self, label: &[u8; 6], drive: usize, force: bool) -> Result<Entry, Refusal> {
        match self.bay.cartridge(drive) {
            0 => return Err(at(Status::DriveEmpty, drive)),
            number if !force && number != number_of(label) => return Err(at(Status::OtherVolume, drive)),
            _ => {}
        }
        let (cartridge, to) = self.bay.move_cartridge(drive, Target::NextCell).map_err(no_cell)?;
        if let Some(record) = self.catalogue.iter_mut().find(|record| record.place == drive) {
            record.place = to;
        }
        Ok(Entry { cartridge, from: drive, to, status: Status::Success })
    }

    fn eject(&mut self, label: &[u8; 6]) -> Result<Entry, Refusal> {
        let index = self.find_in_cell(label)?;
        let from = self.catalogue[index].place;
        let (cartridge, to) = self.bay.move_cartridge(from, Target::LowestPort).map_err(|stopped| match stopped {
            Stopped::NoTarget => Status::NoPortPlace.into(),
            Stopped::Refused(fault) => Refusal::from(fault),
        })?;
        self.catalogue.remove(index);
        Ok(Entry { cartridge, from, to, status: Status::Success })
    }

    /// Enters the cartridge at the port place p, or tells why it stays.
    fn enter(&mut self, p: usize) -> Entry {
        let cartridge = self.bay.cartridge(p);
        let entered = if cartridge == UNREADABLE {
            Err(Status::UnreadableLabel.into())
        } else if self.catalogue.iter().any(|record| record.number == cartridge) {
            Err(Status::SeveralVolumes.into())
        } else {
            self.bay.move_cartridge(p, Target::NextCell).map_err(no_cell)
        };
        match entered {
            Ok((number, to)) => {
                self.catalogue.push(Record { number, place: to });
                Entry { cartridge, from: p, to, status: Status::Success }
            }
            Err(Refusal(status, _)) => Entry { cartridge, from: p, to: p, status },
        }
    }

    /// The step of a start that takes it.
    fn begin_start(&mut self) -> Result<(), Refusal> {
        let places = self.bay.places();
        let ports = places.iter().filter(|place| place.kind == Kind::Port).count();
        if places.is_empty() || places.len() > MOST_PLACES || ports > MOST_PORTS {
            return Err(Status::BadMakeUp.into());
        }
        self.catalogue.clear();
        if !self.bay.empty_hand() {
            return Err(Status::NoFreeCell.into());
        }
        Ok(())
    }

    /// A start reads the next place.
    fn read_place(&mut self, mut work: Work) -> Turn {
        let place = self.bay.places()[work.next];
        if place.kind != Kind::Port && place.cartridge != 0 && place.cartridge != UNREADABLE {
            self.catalogue.push(Record { number: place.cartridge, place: work.next });
        }
        work.next += 1;
        if work.next < self.bay.places().len() {
            return Turn::Stays(work);
        }
        self.state = State::Run;
        Turn::Ends(Final::done(Tail::Inventory))
    }

    fn marked(&self, work: Work) -> Final {
        let tail = match work.queued.request.body {
            Body::Enter => Tail::Entries(work.entries),
            _ => Tail::Nothing,
        };
        match work.queued.mark {
            Mark::Cancelled => Final { status: Status::Cancelled, detail: None, tail },
            _ => Final { status: Status::NotServed, detail: Some(self.state as u8), tail },
        }
    }

    fn turn(&mut self, mut work: Work, is_new: bool) -> Turn {
        if work.queued.mark != Mark::Unmarked {
            return Turn::Ends(self.marked(work));
        }
        let moved = |result: Result<Entry, Refusal>| match result {
            Ok(entry) => Turn::Ends(Final::done(Tail::One(entry))),
            Err(refusal) => Turn::Ends(refusal.into()),
        };
        match work.queued.request.body {
            Body::Mount { label, drive } => moved(self.mount(&label, drive.into())),
            Body::Dismount { label, drive, force } => moved(self.dismount(&label, drive.into(), force)),
            Body::Eject { label } => moved(self.eject(&label)),
            Body::Enter if is_new => {
                self.post(1, work.queued.request.number);
                Turn::Stays(work)
            }
            Body::Enter => match self.bay.full_port(work.next) {
                Some(p) => {
                    let entry = self.enter(p);
                    work.entries.push(entry);
                    work.next = p + 1;
                    Turn::Stays(work)
                }
                None => Turn::Ends(Final::done(Tail::Entries(work.entries))),
            },
            Body::Start if is_new => match self.begin_start() {
                Ok(()) => Turn::Stays(work),
                Err(refusal) => {
                    self.state = State::Idle;
                    Turn::Ends(refusal.into())
                }
            },
            Body::Start => self.read_place(work),
            // Only an unforced idle is left: the others are never queued.
            _ => {
                self.state = State::Idle;
                self.post(4, work.queued.request.number);
                Turn::Ends(Final::done(Tail::Nothing))
            }
        }
    }

    /// Goes one step on: the length of the final that it writes, or 0.
    pub fn step(&mut self, buffer: &mut [u8]) -> Result<usize, u8> {
        if buffer.len() < RESPONSE_ROOM {
            return Err(1);
        }
        let (work, is_new) = match self.work.take() {
            Some(work) => (work, false),
            None => match self.waiting.pop_front() {
                Some(queued) => (Work { queued, next: 0, entries: Vec::new() }, true),
                None => return Ok(0),
            },
        };
        let request = work.queued.request;
        match self.turn(work, is_new) {
            Turn::Stays(work) => {
                self.work = Some(work);
                Ok(0)
            }
            Turn::Ends(end) => {
                match request.body {
                    Body::Mount { drive, .. } | Body::Dismount { drive, .. } => {
                        let named = self.is_named(drive);
                        let state = &mut self.drives[usize::from(drive)];
                        *state = state.answered(named);
                    }
                    Body::Enter if self.bay.full_port(0).is_some() => self.post(2, request.number),
                    _ => {}
                }
                Ok(self.write_final(&request, &end, buffer))
            }
        }
    }

    /// Whether a hand reaches the place while the door is shut.
    fn reach(&self, place: usize) -> Result<(), u8> {
        if place >= self.bay.places().len() {
            return Err(3);
        }
        if !self.bay.is_a(Kind::Port, place) {
            return Err(4);
        }
        let enters = |work: &Work| matches!(work.queued.request.body, Body::Enter);
        if self.work.as_ref().is_some_and(enters) {
            return Err(5);
        }
        Ok(())
    }

    pub fn put(&mut self, place: u16, number: u32) -> Result<(), u8> {
        self.reach(place.into())?;
        self.bay.put(place.into(), number).map_err(|fault| match fault.cause {
            Cause::BadNumber => 6,
            _ => 7,
        })
    }

    pub fn take(&mut self, place: u16) -> Result<u32, u8> {
        self.reach(place.into())?;
        self.bay.take(place.into()).map_err(|_| 8)
    }

    pub fn service(&mut self, place: u16, on: bool) -> Result<(), u8> {
        self.bay.switch(place.into(), on).map_err(|_| 3)
    }
}

/// Why a movement to a given place or to a cell was stopped.
fn no_cell(stopped: Stopped) -> Refusal {
    match stopped {
        Stopped::NoTarget => Status::NoFreeCell.into(),
        Stopped::Refused(fault) => fault.into(),
    }
}
