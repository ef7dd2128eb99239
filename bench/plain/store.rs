//! The store: sixteen seats, a row for each entry, and a keeper of versions.
use crate::card::{Card, Refusal, Version};
use crate::keepers::{Keeper, ENTRIES, MOST_PLACES};

const SEATS: usize = 16;
const READS: usize = 32;
const DRAFTS: usize = 16;
const LAST_TIME: u32 = 1_000_000;

#[derive(Clone, Copy)]
enum Stage {
    Idle,
    Proof { start: u32 },
    Edit { start: u32 },
    Locked { start: u32 },
    Stamped { time: u32, put: usize },
}

struct Draft {
    entry: u16,
    card: Card,
}

struct Seat {
    stage: Stage,
    reads: Vec<u16>,
    drafts: Vec<Draft>,
}

impl Seat {
    fn new() -> Self {
        Seat {
            stage: Stage::Idle,
            reads: Vec::with_capacity(READS),
            drafts: Vec::with_capacity(DRAFTS),
        }
    }

    fn begin(&mut self, stage: Stage) {
        self.stage = stage;
        self.reads.clear();
        self.drafts.clear();
    }

    fn unput(&self) -> usize {
        match self.stage {
            Stage::Stamped { put, .. } => self.drafts.len() - put,
            _ => 0,
        }
    }
}

#[derive(Clone, Copy, Default)]
struct Row {
    time: u32,
    lock: Option<u16>,
}

impl Row {
    fn held(&self, seat: u16) -> bool {
        self.lock.is_some_and(|holder| holder != seat)
    }
}

pub struct Store<K> {
    letters: usize,
    marks: usize,
    clock: u32,
    seats: Vec<Seat>,
    rows: Vec<Row>,
    keeper: K,
}

/// The least of the clock and, for each stamped edit with a draft not yet put, its time less one.
fn ready(seats: &[Seat], clock: u32) -> u32 {
    seats.iter().fold(clock, |least, seat| match seat.stage {
        Stage::Stamped { time, put } if put < seat.drafts.len() => least.min(time - 1),
        _ => least,
    })
}

impl<K: Keeper> Store<K> {
    pub fn new(letters: usize, marks: usize, pairs: usize, places: usize) -> Result<Self, Refusal> {
        let entries = letters.saturating_add(marks).saturating_add(pairs);
        if entries == 0 || entries > ENTRIES || places > MOST_PLACES {
            return Err(Refusal::Sizes);
        }
        Ok(Store {
            letters,
            marks,
            clock: 0,
            seats: (0..SEATS).map(|_| Seat::new()).collect(),
            rows: vec![Row::default(); entries],
            keeper: K::with_places(places),
        })
    }

    fn seat(&mut self, seat: u16) -> Result<&mut Seat, Refusal> {
        self.seats.get_mut(usize::from(seat)).ok_or(Refusal::Seat)
    }

    fn card_at(&self, entry: u16, time: u32) -> Card {
        self.keeper
            .find(entry, time)
            .map_or(Card::default(), |version| version.card)
    }

    pub fn proof(&mut self, seat: u16) -> Result<u32, Refusal> {
        let start = ready(&self.seats, self.clock);
        let seat = self.seat(seat)?;
        let Stage::Idle = seat.stage else {
            return Err(Refusal::Stage);
        };
        seat.begin(Stage::Proof { start });
        Ok(start)
    }

    pub fn edit(&mut self, seat: u16) -> Result<u32, Refusal> {
        let start = self.clock;
        let seat = self.seat(seat)?;
        let Stage::Idle = seat.stage else {
            return Err(Refusal::Stage);
        };
        seat.begin(Stage::Edit { start });
        Ok(start)
    }

    pub fn read(&mut self, number: u16, entry: u16) -> Result<Card, Refusal> {
        let seat = self
            .seats
            .get_mut(usize::from(number))
            .ok_or(Refusal::Seat)?;
        let (start, edits) = match seat.stage {
            Stage::Proof { start } => (start, false),
            Stage::Edit { start } => (start, true),
            _ => return Err(Refusal::Stage),
        };
        let row = self.rows.get(usize::from(entry)).ok_or(Refusal::Entry)?;
        if !edits {
            return Ok(self.card_at(entry, start));
        }
        if let Some(draft) = seat.drafts.iter().find(|draft| draft.entry == entry) {
            return Ok(draft.card);
        }
        if row.held(number) {
            return Err(Refusal::Held);
        }
        if row.time > start {
            return Err(Refusal::Stale);
        }
        if !seat.reads.contains(&entry) {
            if seat.reads.len() == READS {
                return Err(Refusal::List);
            }
            seat.reads.push(entry);
        }
        let time = row.time;
        Ok(self.card_at(entry, time))
    }

    fn may_bear(&self, entry: u16) -> u8 {
        let entry = usize::from(entry);
        if entry < self.letters {
            15
        } else if entry < self.letters + self.marks {
            28
        } else {
            32
        }
    }

    pub fn write(&mut self, seat: u16, entry: u16, card: Card) -> Result<(), Refusal> {
        let may = self.may_bear(entry);
        let entries = self.rows.len();
        let seat = self.seat(seat)?;
        let Stage::Edit { .. } = seat.stage else {
            return Err(Refusal::Stage);
        };
        if usize::from(entry) >= entries {
            return Err(Refusal::Entry);
        }
        if card.map() & !may != 0 {
            return Err(Refusal::Misfit);
        }
        if let Some(draft) = seat.drafts.iter_mut().find(|draft| draft.entry == entry) {
            draft.card = card;
            return Ok(());
        }
        if seat.drafts.len() == DRAFTS {
            return Err(Refusal::List);
        }
        seat.drafts.push(Draft { entry, card });
        Ok(())
    }

    pub fn lock(&mut self, number: u16) -> Result<u32, Refusal> {
        let seat = self
            .seats
            .get_mut(usize::from(number))
            .ok_or(Refusal::Seat)?;
        let Stage::Edit { start } = seat.stage else {
            return Err(Refusal::Stage);
        };
        let rows = &mut self.rows;
        if seat
            .drafts
            .iter()
            .any(|draft| rows[usize::from(draft.entry)].held(number))
        {
            return Err(Refusal::Held);
        }
        for draft in &seat.drafts {
            rows[usize::from(draft.entry)].lock = Some(number);
        }
        seat.stage = Stage::Locked { start };
        Ok(seat.drafts.len() as u32)
    }

    pub fn stamp(&mut self, number: u16) -> Result<u32, Refusal> {
        let unput: usize = self.seats.iter().map(Seat::unput).sum();
        let seat = self
            .seats
            .get_mut(usize::from(number))
            .ok_or(Refusal::Seat)?;
        let Stage::Locked { start } = seat.stage else {
            return Err(Refusal::Stage);
        };
        let rows = &self.rows;
        let reads = &seat.reads;
        if reads
            .iter()
            .any(|entry| rows[usize::from(*entry)].held(number))
        {
            return Err(Refusal::Held);
        }
        if reads
            .iter()
            .any(|entry| rows[usize::from(*entry)].time > start)
        {
            return Err(Refusal::Stale);
        }
        if self.keeper.spare() < unput + seat.drafts.len() {
            return Err(Refusal::Places);
        }
        if self.clock >= LAST_TIME {
            return Err(Refusal::Clock);
        }
        self.clock += 1;
        seat.stage = Stage::Stamped {
            time: self.clock,
            put: 0,
        };
        Ok(self.clock)
    }

    pub fn put(&mut self, seat: u16) -> Result<u32, Refusal> {
        let seat = self.seats.get_mut(usize::from(seat)).ok_or(Refusal::Seat)?;
        let Stage::Stamped { time, put } = seat.stage else {
            return Err(Refusal::Stage);
        };
        let &Draft { entry, card } = seat.drafts.get(put).ok_or(Refusal::Stage)?;
        self.keeper.add(Version { entry, time, card })?;
        self.rows[usize::from(entry)] = Row { time, lock: None };
        seat.stage = Stage::Stamped { time, put: put + 1 };
        Ok((seat.drafts.len() - put - 1) as u32)
    }

    pub fn settle(&mut self, seat: u16) -> Result<u32, Refusal> {
        let ready = ready(&self.seats, self.clock);
        let seat = self.seat(seat)?;
        let Stage::Stamped { time, put } = seat.stage else {
            return Err(Refusal::Stage);
        };
        if put < seat.drafts.len() {
            return Err(Refusal::Unput);
        }
        if ready < time {
            return Err(Refusal::Waiting);
        }
        seat.begin(Stage::Idle);
        Ok(time)
    }

    pub fn drop_edit(&mut self, number: u16) -> Result<(), Refusal> {
        let seat = self
            .seats
            .get_mut(usize::from(number))
            .ok_or(Refusal::Seat)?;
        let (Stage::Edit { .. } | Stage::Locked { .. }) = seat.stage else {
            return Err(Refusal::Stage);
        };
        for draft in &seat.drafts {
            let lock = &mut self.rows[usize::from(draft.entry)].lock;
            if *lock == Some(number) {
                *lock = None;
            }
        }
        seat.begin(Stage::Idle);
        Ok(())
    }

    pub fn end(&mut self, seat: u16) -> Result<(), Refusal> {
        let seat = self.seat(seat)?;
        let Stage::Proof { .. } = seat.stage else {
            return Err(Refusal::Stage);
        };
        seat.begin(Stage::Idle);
        Ok(())
    }

    pub fn collect(&mut self, entry: u16) -> Result<u32, Refusal> {
        if usize::from(entry) >= self.rows.len() {
            return Err(Refusal::Entry);
        }
        let ready = ready(&self.seats, self.clock);
        let floor = self.seats.iter().fold(ready, |least, seat| match seat.stage {
            Stage::Proof { start } => least.min(start),
            _ => least,
        });
        let next = |time| {
            self.keeper
                .after(entry, time)
                .filter(|next| *next <= floor)
                .ok_or(Refusal::Needed)
        };
        let oldest = next(0)?;
        next(oldest)?;
        self.keeper.remove(entry, oldest);
        Ok(oldest)
    }
}
