//! Where versions are held: in chains, one for each entry, or in their order of arrival.
use crate::card::{Refusal, Version};

pub const ENTRIES: usize = 1024;
pub const MOST_PLACES: usize = 65_536;

pub trait Keeper {
    const NAME: &'static str;

    fn with_places(places: usize) -> Self;

    fn spare(&self) -> usize;

    /// Takes a version in, later than every one of its entry.
    fn add(&mut self, version: Version) -> Result<(), Refusal>;

    /// The newest version of an entry up to a time.
    fn find(&self, entry: u16, up_to: u32) -> Option<Version>;

    /// The least time of an entry above a time.
    fn after(&self, entry: u16, time: u32) -> Option<u32>;

    /// Takes a version out, and says whether it was there.
    fn remove(&mut self, entry: u16, time: u32) -> bool;
}

/// A place holds a version or none, and leads to the next older version of its entry, or to the next free place.
#[derive(Clone, Copy)]
struct Place {
    version: Version,
    next: Option<u16>,
}

pub struct Linked {
    places: Vec<Place>,
    heads: Vec<Option<u16>>,
    free: Option<u16>,
    held: usize,
}

impl Keeper for Linked {
    const NAME: &'static str = "rust-linked";

    fn with_places(places: usize) -> Self {
        let places: Vec<Place> = (0..places.min(MOST_PLACES))
            .map(|at| Place {
                version: Version::default(),
                next: at.checked_sub(1).map(|below| below as u16),
            })
            .collect();
        let free = places.len().checked_sub(1).map(|last| last as u16);
        Linked {
            places,
            heads: vec![None; ENTRIES],
            free,
            held: 0,
        }
    }

    fn spare(&self) -> usize {
        self.places.len() - self.held
    }

    fn add(&mut self, version: Version) -> Result<(), Refusal> {
        let head = self
            .heads
            .get_mut(usize::from(version.entry))
            .ok_or(Refusal::Entry)?;
        let at = self.free.ok_or(Refusal::Full)?;
        let newest = head.map_or(0, |newest| self.places[usize::from(newest)].version.time);
        if version.time <= newest {
            return Err(Refusal::Order);
        }
        let place = &mut self.places[usize::from(at)];
        self.free = place.next;
        *place = Place {
            version,
            next: *head,
        };
        *head = Some(at);
        self.held += 1;
        Ok(())
    }

    fn find(&self, entry: u16, up_to: u32) -> Option<Version> {
        let mut at = *self.heads.get(usize::from(entry))?;
        while let Some(here) = at {
            let place = &self.places[usize::from(here)];
            if place.version.time <= up_to {
                return Some(place.version);
            }
            at = place.next;
        }
        None
    }

    fn after(&self, entry: u16, time: u32) -> Option<u32> {
        let mut at = *self.heads.get(usize::from(entry))?;
        let mut least = None;
        while let Some(here) = at {
            let place = &self.places[usize::from(here)];
            if place.version.time <= time {
                break;
            }
            least = Some(place.version.time);
            at = place.next;
        }
        least
    }

    fn remove(&mut self, entry: u16, time: u32) -> bool {
        let Some(head) = self.heads.get_mut(usize::from(entry)) else {
            return false;
        };
        let mut before: Option<u16> = None;
        let mut at = *head;
        while let Some(here) = at {
            let place = &mut self.places[usize::from(here)];
            if place.version.time <= time {
                if place.version.time < time {
                    return false;
                }
                let next = place.next;
                place.next = self.free;
                self.free = Some(here);
                self.held -= 1;
                match before {
                    Some(before) => self.places[usize::from(before)].next = next,
                    None => *head = next,
                }
                return true;
            }
            before = at;
            at = place.next;
        }
        false
    }
}

pub struct Roll {
    versions: Vec<Version>,
    places: usize,
}

impl Roll {
    fn position(&self, entry: u16, up_to: u32) -> Option<usize> {
        self.versions
            .iter()
            .rposition(|version| version.entry == entry && version.time <= up_to)
    }
}

impl Keeper for Roll {
    const NAME: &'static str = "rust-roll";

    fn with_places(places: usize) -> Self {
        let places = places.min(MOST_PLACES);
        Roll {
            versions: Vec::with_capacity(places),
            places,
        }
    }

    fn spare(&self) -> usize {
        self.places - self.versions.len()
    }

    fn add(&mut self, version: Version) -> Result<(), Refusal> {
        if usize::from(version.entry) >= ENTRIES {
            return Err(Refusal::Entry);
        }
        if self.spare() == 0 {
            return Err(Refusal::Full);
        }
        let newest = self.find(version.entry, u32::MAX).map_or(0, |newest| newest.time);
        if version.time <= newest {
            return Err(Refusal::Order);
        }
        self.versions.push(version);
        Ok(())
    }

    fn find(&self, entry: u16, up_to: u32) -> Option<Version> {
        self.position(entry, up_to).map(|at| self.versions[at])
    }

    fn after(&self, entry: u16, time: u32) -> Option<u32> {
        self.versions
            .iter()
            .find(|version| version.entry == entry && version.time > time)
            .map(|version| version.time)
    }

    fn remove(&mut self, entry: u16, time: u32) -> bool {
        match self.position(entry, time) {
            Some(at) if self.versions[at].time == time => {
                self.versions.remove(at);
                true
            }
            _ => false,
        }
    }
}
