//! The list of messages in flight.

use super::triple::Triple;

#[derive(Clone, Copy)]
pub enum Kind {
    Up,
    Down,
    Ask,
}

#[derive(Clone, Copy)]
pub struct Message {
    pub kind: Kind,
    pub from: u8,
    pub to: u8,
    pub triple: Triple,
}

/// What moves up in the list: a message of eight bytes, with the slot where its sets stay.
#[derive(Clone, Copy)]
struct Entry {
    kind: Kind,
    from: u8,
    to: u8,
    slot: u8,
    word: u32,
}

/// The most messages in flight.
pub const ROOM: usize = 128;

/// Every slot is some place's, past the last message too: whoever joins takes the slot that is found there.
const EMPTY: [Entry; 2 * ROOM] = {
    let mut places = [Entry { kind: Kind::Up, from: 0, to: 0, slot: 0, word: 0 }; 2 * ROOM];
    let mut place = 0;
    while place < 2 * ROOM {
        places[place].slot = place as u8;
        place += 1;
    }
    places
};

/// Twice the room: what a rule sends joins the list before it is known whether there is room. Sets in slots are faster than whole messages
/// in a list: a third of the bytes moves up.
pub struct Net {
    pub count: usize,
    places: [Entry; 2 * ROOM],
    sets: [[u64; 2]; 2 * ROOM],
}

impl Net {
    pub fn empty() -> Net {
        Net { count: 0, places: EMPTY, sets: [[0; 2]; 2 * ROOM] }
    }

    pub fn at(&self, place: usize) -> Message {
        let Entry { kind, from, to, slot, word } = self.places[place];
        let [known, acknowledged] = self.sets[slot as usize];
        Message { kind, from, to, triple: Triple { word, known, acknowledged } }
    }

    pub fn join(&mut self, kind: Kind, from: usize, to: u8, triple: Triple) {
        let place = &mut self.places[self.count];
        *place = Entry { kind, from: from as u8, to, slot: place.slot, word: triple.word };
        self.sets[place.slot as usize] = [triple.known, triple.acknowledged];
        self.count += 1;
    }

    /// The message at a place leaves, and later ones move up. Its slot goes to the place that is free now.
    pub fn leave(&mut self, place: usize) {
        let slot = self.places[place].slot;
        self.places.copy_within(place + 1..self.count, place);
        self.count -= 1;
        self.places[self.count].slot = slot;
    }
}
