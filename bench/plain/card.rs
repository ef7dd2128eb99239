//! Cards, versions and refusals.

/// What one entry looks like at one moment: six numbers in font units, each of which may be absent.
#[derive(Clone, Copy, Default, PartialEq, Eq, Debug)]
pub struct Card {
    pub advance: Option<i16>,
    pub left_bearing: Option<i16>,
    pub anchor_across: Option<i16>,
    pub anchor_up: Option<i16>,
    pub mark_class: Option<i16>,
    pub kern: Option<i16>,
}

impl Card {
    /// Which fields are there, the advance lowest.
    pub fn map(&self) -> u8 {
        u8::from(self.advance.is_some())
            | u8::from(self.left_bearing.is_some()) << 1
            | u8::from(self.anchor_across.is_some()) << 2
            | u8::from(self.anchor_up.is_some()) << 3
            | u8::from(self.mark_class.is_some()) << 4
            | u8::from(self.kern.is_some()) << 5
    }
}

/// A card that an entry has from a time on.
#[derive(Clone, Copy, Default, PartialEq, Eq, Debug)]
pub struct Version {
    pub entry: u16,
    pub time: u32,
    pub card: Card,
}

/// Why a call is declined; where several apply, the first of these.
#[derive(Clone, Copy, PartialEq, Eq, Debug)]
pub enum Refusal {
    Seat = 1,
    Stage,
    Entry,
    Misfit,
    Held,
    Stale,
    List,
    Places,
    Clock,
    Unput,
    Waiting,
    Needed,
    Sizes,
    Full = 17,
    Order,
}
