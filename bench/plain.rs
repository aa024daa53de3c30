//! The plain receiver: document 01's step list in straightforward Rust, its state behind `&mut`, the store and the ledger lent. It is what the
//! proved receiver is measured against: one pass over the memory, one over the slots, one over the held fragments, one copy of the data.

pub const SLOTS: usize = 8;
pub const SENDERS: usize = 16;
pub const KEYS: usize = 32;
pub const MAX_NAME: usize = 63;
pub const MAX_COUNT: usize = 1024;
pub const MAX_SIZE: usize = 1_048_576;
pub const MAX_DATAGRAM: usize = 65_535;
pub const LEDGER: usize = 2 * MAX_COUNT * SLOTS;

pub type Name = [u8; MAX_NAME];

#[derive(Clone, Copy, PartialEq, Eq, Debug)]
pub enum Answer {
    Kept,
    Repeat,
    InDatagram(usize, usize),
    InStore(usize, usize),
    Refused(u32),
}

/// The answer, the key of the slot that was emptied, and for a delivered message its name with zeros after it.
#[derive(Clone, Copy, PartialEq, Eq, Debug)]
pub struct Outcome {
    pub answer: Answer,
    pub emptied: Option<(u64, u64)>,
    pub name: Name,
}

fn stay(answer: Answer) -> Outcome {
    Outcome { answer, emptied: None, name: [0; MAX_NAME] }
}

// ---- what a datagram says

struct Fragment<'a> {
    small: bool,
    sequence: u32,
    size: u32,
    offset: u32,
    number: usize,
    count: usize,
    name: &'a [u8],
    bytes: &'a [u8],
    at: usize,
}

fn be16(p: &[u8], at: usize) -> u32 {
    u16::from_be_bytes([p[at], p[at + 1]]) as u32
}

fn be32(p: &[u8], at: usize) -> u32 {
    u32::from_be_bytes([p[at], p[at + 1], p[at + 2], p[at + 3]])
}

/// The good name at the front of p, before a zero byte.
fn name_of(p: &[u8]) -> Option<&[u8]> {
    let n = p.iter().take(MAX_NAME + 1).position(|&b| b == 0)?;
    let name = &p[..n];
    let good = n != 0 && name.iter().all(|&b| b >= 32 && b != 127) && std::str::from_utf8(name).is_ok();
    good.then_some(name)
}

fn read(p: &[u8], room: usize) -> Result<Fragment<'_>, u32> {
    if p.len() > MAX_DATAGRAM {
        return Err(3);
    }
    if p.len() < 8 {
        return Err(1);
    }
    let magic = be32(p, 0);
    let sequence = be32(p, 4);
    if magic == 0x4c43_3032 {
        let name = name_of(&p[8..]).ok_or(4u32)?;
        let at = 9 + name.len();
        let size = (p.len() - at) as u32;
        return Ok(Fragment { small: true, sequence, size, offset: 0, number: 0, count: 1, name, bytes: &p[at..], at });
    }
    if magic != 0x4c43_3033 {
        return Err(2);
    }
    if p.len() < 20 {
        return Err(1);
    }
    let (size, offset) = (be32(p, 8), be32(p, 12));
    let (number, count) = (be16(p, 16) as usize, be16(p, 18) as usize);
    if count == 0 || count > MAX_COUNT || number >= count {
        return Err(5);
    }
    if size as usize > room {
        return Err(6);
    }
    let name = if number == 0 { name_of(&p[20..]).ok_or(4u32)? } else { &p[..0] };
    let at = if number == 0 { 21 + name.len() } else { 20 };
    let bytes = &p[at..];
    if if number == 0 { offset != 0 } else { bytes.is_empty() } {
        return Err(7);
    }
    let end = offset as u64 + bytes.len() as u64;
    if end > size as u64 || (number + 1 == count && end != size as u64) {
        return Err(7);
    }
    Ok(Fragment { small: false, sequence, size, offset, number, count, name, bytes, at })
}

// ---- the memory

/// The last keys of a sender, the oldest first, and when the latest of them was delivered.
#[derive(Clone, Copy)]
struct Known {
    sender: u64,
    used: usize,
    latest: u64,
    sequences: [u32; KEYS],
}

struct Memory {
    deliveries: u64,
    places: [Known; SENDERS],
}

impl Memory {
    fn find(&self, sender: u64) -> Option<usize> {
        self.places.iter().position(|k| k.used != 0 && k.sender == sender)
    }

    fn is_remembered(&self, sender: u64, sequence: u32) -> bool {
        match self.find(sender) {
            Some(i) => {
                let k = &self.places[i];
                k.sequences[..k.used].contains(&sequence)
            }
            None => false,
        }
    }

    /// A place for a sender that has none: a free one, else that of the sender whose latest delivery lies furthest back.
    fn new_place(&mut self, sender: u64) -> usize {
        let mut best = 0;
        for (i, k) in self.places.iter().enumerate() {
            if k.used == 0 {
                best = i;
                break;
            }
            if k.latest < self.places[best].latest {
                best = i;
            }
        }
        self.places[best].sender = sender;
        self.places[best].used = 0;
        best
    }

    fn remember(&mut self, sender: u64, sequence: u32) {
        let i = match self.find(sender) {
            Some(i) => i,
            None => self.new_place(sender),
        };
        self.deliveries += 1;
        let k = &mut self.places[i];
        if k.used == KEYS {
            k.sequences.copy_within(1.., 0);
            k.used -= 1;
        }
        k.sequences[k.used] = sequence;
        k.used += 1;
        k.latest = self.deliveries;
    }
}

// ---- the slots

#[derive(Clone, Copy)]
struct Slot {
    sender: u64,
    sequence: u32,
    size: u32,
    count: usize, // 0: free
    turn: u32,    // 0 is the one opened longest ago
    held: [u64; MAX_COUNT / 64],
    name: Name,
}

const FREE: Slot = Slot { sender: 0, sequence: 0, size: 0, count: 0, turn: 0, held: [0; MAX_COUNT / 64], name: [0; MAX_NAME] };

impl Slot {
    fn is_held(&self, k: usize) -> bool {
        self.held[k / 64] >> (k % 64) & 1 != 0
    }

    fn all_held(&self) -> bool {
        (0..self.count).all(|k| self.is_held(k))
    }

    /// The fragment agrees with every held one: of two the lower number ends at or before the higher begins, and exactly there when they are
    /// neighbours.
    fn fits(&self, row: &[u32], f: &Fragment) -> bool {
        let from = f.offset as u64;
        let to = from + f.bytes.len() as u64;
        (0..self.count).all(|j| {
            if !self.is_held(j) {
                return true;
            }
            let start = row[2 * j] as u64;
            let end = start + row[2 * j + 1] as u64;
            if j < f.number {
                if j + 1 == f.number { end == from } else { end <= from }
            } else if f.number + 1 == j {
                to == start
            } else {
                to <= start
            }
        })
    }

    /// The fragment is the one that is held under its number. `place` is the slot's part of the store.
    fn has(&self, place: &[u8], row: &[u32], f: &Fragment) -> bool {
        if row[2 * f.number] != f.offset || row[2 * f.number + 1] as usize != f.bytes.len() {
            return false;
        }
        if place[f.offset as usize..][..f.bytes.len()] != *f.bytes {
            return false;
        }
        f.number != 0 || self.name == padded(f.name)
    }
}

fn padded(name: &[u8]) -> Name {
    let mut all = [0; MAX_NAME];
    all[..name.len()].copy_from_slice(name);
    all
}

pub struct Receiver {
    store_length: usize,
    room: usize, // of a slot
    slots: [Slot; SLOTS],
    memory: Memory,
}

impl Receiver {
    pub fn open(store_length: usize) -> Receiver {
        let nobody = Known { sender: 0, used: 0, latest: 0, sequences: [0; KEYS] };
        Receiver {
            store_length,
            room: (store_length / SLOTS).min(MAX_SIZE),
            slots: [FREE; SLOTS],
            memory: Memory { deliveries: 0, places: [nobody; SENDERS] },
        }
    }

    /// None of refusal 9.
    fn is_ready(&self, store: &[u8], ledger: &[u32]) -> bool {
        store.len() == self.store_length
            && ledger.len() == LEDGER
            && self.room == (store.len() / SLOTS).min(MAX_SIZE)
            && self.slots.iter().all(|s| s.count == 0 || (s.size as usize <= self.room && s.count <= MAX_COUNT))
            && self.memory.places.iter().all(|k| k.used <= KEYS)
    }

    fn find_open(&self, sender: u64, sequence: u32) -> Option<usize> {
        self.slots.iter().position(|s| s.count != 0 && s.sender == sender && s.sequence == sequence)
    }

    fn release(&mut self, s: usize) {
        let turn = self.slots[s].turn;
        self.slots[s] = FREE;
        for other in &mut self.slots {
            if other.count != 0 && other.turn > turn {
                other.turn -= 1;
            }
        }
    }

    /// Step 4: the lowest free slot, or the one that was opened longest ago, emptied.
    fn take(&mut self) -> (usize, Option<(u64, u64)>) {
        if let Some(s) = self.slots.iter().position(|s| s.count == 0) {
            return (s, None);
        }
        let mut s = 0;
        for (i, slot) in self.slots.iter().enumerate() {
            if slot.turn < self.slots[s].turn {
                s = i;
            }
        }
        let gone = (self.slots[s].sender, self.slots[s].sequence as u64);
        self.release(s);
        (s, Some(gone))
    }

    /// Step 5.
    fn put(&mut self, store: &mut [u8], ledger: &mut [u32], s: usize, f: &Fragment, emptied: Option<(u64, u64)>) -> Outcome {
        let base = s * self.room;
        let slot = &mut self.slots[s];
        store[base + f.offset as usize..][..f.bytes.len()].copy_from_slice(f.bytes);
        let row = 2 * (MAX_COUNT * s + f.number);
        ledger[row] = f.offset;
        ledger[row + 1] = f.bytes.len() as u32;
        slot.held[f.number / 64] |= 1 << (f.number % 64);
        if f.number == 0 {
            slot.name = padded(f.name);
        }
        if !slot.all_held() {
            return Outcome { answer: Answer::Kept, emptied, name: [0; MAX_NAME] };
        }
        let (sender, sequence) = (slot.sender, slot.sequence);
        let done = Outcome { answer: Answer::InStore(base, slot.size as usize), emptied, name: slot.name };
        self.memory.remember(sender, sequence);
        self.release(s);
        done
    }

    fn small(&mut self, sender: u64, f: &Fragment) -> Outcome {
        self.memory.remember(sender, f.sequence);
        Outcome { answer: Answer::InDatagram(f.at, f.bytes.len()), emptied: None, name: padded(f.name) }
    }

    /// Step 3: the key is open in slot s.
    fn join(&mut self, store: &mut [u8], ledger: &mut [u32], s: usize, f: &Fragment) -> Outcome {
        let slot = &self.slots[s];
        let row = &ledger[2 * MAX_COUNT * s..][..2 * MAX_COUNT];
        if slot.size != f.size || slot.count != f.count {
            return stay(Answer::Refused(8));
        }
        if slot.is_held(f.number) {
            let same = slot.has(&store[s * self.room..][..self.room], row, f);
            return stay(if same { Answer::Repeat } else { Answer::Refused(8) });
        }
        if !slot.fits(row, f) {
            return stay(Answer::Refused(8));
        }
        self.put(store, ledger, s, f, None)
    }

    /// Steps 4 and 5.
    fn begin(&mut self, store: &mut [u8], ledger: &mut [u32], sender: u64, f: &Fragment) -> Outcome {
        let (s, emptied) = self.take();
        let busy = self.slots.iter().filter(|s| s.count != 0).count();
        self.slots[s] = Slot { sender, sequence: f.sequence, size: f.size, count: f.count, turn: busy as u32, ..FREE };
        self.put(store, ledger, s, f, emptied)
    }

    pub fn receive(&mut self, store: &mut [u8], ledger: &mut [u32], sender: u64, d: &[u8]) -> Outcome {
        if !self.is_ready(store, ledger) {
            return stay(Answer::Refused(9));
        }
        let f = match read(d, self.room) {
            Ok(f) => f,
            Err(number) => return stay(Answer::Refused(number)),
        };
        if self.memory.is_remembered(sender, f.sequence) {
            return stay(Answer::Repeat);
        }
        match (self.find_open(sender, f.sequence), f.small) {
            (Some(_), true) => stay(Answer::Refused(8)),
            (None, true) => self.small(sender, &f),
            (Some(s), false) => self.join(store, ledger, s, &f),
            (None, false) => self.begin(store, ledger, sender, &f),
        }
    }
}
