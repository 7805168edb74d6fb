//! A robot in plain Rust, by docs/ROBOTS.md. No code is taken from the proved one.

/// The number of every cartridge whose label cannot be read.
pub const UNREADABLE: u32 = 2_176_782_337;

#[derive(Clone, Copy, PartialEq, Eq)]
pub enum Kind {
    Cell,
    Drive,
    Port,
}

#[derive(Clone, Copy)]
pub struct Place {
    pub kind: Kind,
    /// 0 where the place is empty.
    pub cartridge: u32,
    pub in_service: bool,
}

#[derive(Clone, Copy, PartialEq, Eq)]
pub enum Cause {
    NoPlace,
    HandFull,
    HandEmpty,
    OutOfService,
    PlaceEmpty,
    PlaceFull,
    BadNumber,
}

/// Why an act was refused, and the place that it was asked for.
#[derive(Clone, Copy)]
pub struct Fault {
    pub cause: Cause,
    pub place: usize,
}

#[derive(Clone, Copy)]
pub enum Target {
    At(usize),
    NextCell,
    LowestPort,
}

/// Why a movement did not succeed.
pub enum Stopped {
    NoTarget,
    Refused(Fault),
}

/// A bay of at most 65,535 places.
pub struct Bay {
    places: Vec<Place>,
    hand: u32,
}

impl Place {
    fn is_free(&self, kind: Kind) -> bool {
        self.kind == kind && self.cartridge == 0 && self.in_service
    }
}

impl Bay {
    pub fn new(places: Vec<Place>, hand: u32) -> Bay {
        Bay { places, hand }
    }

    pub fn places(&self) -> &[Place] {
        &self.places
    }

    pub fn is_a(&self, kind: Kind, p: usize) -> bool {
        self.places.get(p).is_some_and(|place| place.kind == kind)
    }

    /// The cartridge at p, 0 where there is none.
    pub fn cartridge(&self, p: usize) -> u32 {
        self.places.get(p).map_or(0, |place| place.cartridge)
    }

    /// The lowest full port place from `from` on.
    pub fn full_port(&self, from: usize) -> Option<usize> {
        let behind = self.places.get(from..)?;
        let at = behind.iter().position(|place| place.kind == Kind::Port && place.cartridge != 0)?;
        Some(from + at)
    }

    fn next_free_cell(&self, p: usize) -> Option<usize> {
        let middle = (p + 1).min(self.places.len());
        let free = |place: &Place| place.is_free(Kind::Cell);
        let (front, back) = self.places.split_at(middle);
        back.iter().position(free).map(|at| middle + at).or_else(|| front.iter().position(free))
    }

    fn place(&mut self, p: usize) -> Result<&mut Place, Fault> {
        self.places.get_mut(p).ok_or(Fault { cause: Cause::NoPlace, place: p })
    }

    fn lift(&mut self, p: usize) -> Result<u32, Fault> {
        let hand = self.hand;
        let place = self.place(p)?;
        let refuse = |cause| Err(Fault { cause, place: p });
        if hand != 0 {
            return refuse(Cause::HandFull);
        }
        if !place.in_service {
            return refuse(Cause::OutOfService);
        }
        if place.cartridge == 0 {
            return refuse(Cause::PlaceEmpty);
        }
        self.hand = std::mem::take(&mut place.cartridge);
        Ok(self.hand)
    }

    fn set(&mut self, p: usize) -> Result<(), Fault> {
        let hand = self.hand;
        let place = self.place(p)?;
        let refuse = |cause| Err(Fault { cause, place: p });
        if hand == 0 {
            return refuse(Cause::HandEmpty);
        }
        if !place.in_service {
            return refuse(Cause::OutOfService);
        }
        if place.cartridge != 0 {
            return refuse(Cause::PlaceFull);
        }
        place.cartridge = hand;
        self.hand = 0;
        Ok(())
    }

    /// A person brings a cartridge.
    pub fn put(&mut self, p: usize, number: u32) -> Result<(), Fault> {
        let place = self.place(p)?;
        if !(1..=UNREADABLE).contains(&number) {
            return Err(Fault { cause: Cause::BadNumber, place: p });
        }
        if place.cartridge != 0 {
            return Err(Fault { cause: Cause::PlaceFull, place: p });
        }
        place.cartridge = number;
        Ok(())
    }

    /// A person removes a cartridge.
    pub fn take(&mut self, p: usize) -> Result<u32, Fault> {
        let place = self.place(p)?;
        match std::mem::take(&mut place.cartridge) {
            0 => Err(Fault { cause: Cause::PlaceEmpty, place: p }),
            number => Ok(number),
        }
    }

    pub fn switch(&mut self, p: usize, on: bool) -> Result<(), Fault> {
        self.place(p)?.in_service = on;
        Ok(())
    }

    /// Moves the cartridge at `from`, or leaves everything as it was: its number, and where it is now.
    pub fn move_cartridge(&mut self, from: usize, target: Target) -> Result<(u32, usize), Stopped> {
        let number = self.lift(from).map_err(Stopped::Refused)?;
        let to = match target {
            Target::At(p) => Some(p),
            Target::NextCell => self.next_free_cell(from),
            Target::LowestPort => self.places.iter().position(|place| place.is_free(Kind::Port)),
        };
        let stopped = match to {
            None => Stopped::NoTarget,
            Some(to) => match self.set(to) {
                Ok(()) => return Ok((number, to)),
                Err(fault) => Stopped::Refused(fault),
            },
        };
        // The place was left a moment ago, so it is in service and empty.
        self.places[from].cartridge = std::mem::take(&mut self.hand);
        Err(stopped)
    }

    /// Sets what the hand holds into the lowest free cell; false where there is none.
    pub fn empty_hand(&mut self) -> bool {
        if self.hand == 0 {
            return true;
        }
        match self.places.iter_mut().find(|place| place.is_free(Kind::Cell)) {
            Some(cell) => {
                cell.cartridge = std::mem::take(&mut self.hand);
                true
            }
            None => false,
        }
    }
}
