//! Feeds one log of fragments to the plain receiver and to the proved one. `run` beside it builds it and says what it prints.
//!   check                          both give the same answers, stores and ledgers, on every log and on hostile datagrams
//!   most                           the most fragments of a message
//!   time LOG N M REPEATS           nanoseconds a fragment of each: the log is fed so many times to the one and the other by turns, and of each
//!                                  round of the log, some 256 fragments, the best time counts, since the machine may be shared
//!   plain_receive LOG N M          one receiver over the log once, to be counted by a tool; prints how many fragments
//!   proved_receive LOG N M
mod plain;

use plain::{Answer, LEDGER, MAX_COUNT, MAX_NAME, MAX_SIZE, Outcome, Receiver, SENDERS, SLOTS};
use std::time::Instant;

const STORE: usize = SLOTS * MAX_SIZE;

// ---- the proved receiver, as `run` exports it

unsafe extern "C" {
    fn proved_state_words() -> usize;
    fn proved_name_bytes() -> usize;
    fn proved_open(state: *mut u64, words: usize, names: *mut u8, bytes: usize, store_length: usize) -> u32;
    fn proved_receive(
        state: *mut u64,
        words: usize,
        names: *mut u8,
        bytes: usize,
        store: *mut u8,
        store_length: usize,
        ledger: *mut u32,
        ledger_length: usize,
        sender: u64,
        d: *const u8,
        length: usize,
        told: *mut u64,
        told_length: usize,
        name: *mut u8,
        name_length: usize,
    );
}

// What the proved receiver tells: eight words and a name. What does not belong to an answer is not written.
struct Told {
    words: [u64; 8],
    name: [u8; MAX_NAME],
}

impl Told {
    const NOTHING: Told = Told { words: [0; 8], name: [0; MAX_NAME] };

    fn outcome(&self) -> Outcome {
        let [answer, number, place, at, length, emptied, sender, sequence] = self.words;
        let answer = match (answer, place) {
            (0, _) => Answer::Kept,
            (1, _) => Answer::Repeat,
            (2, 1) => Answer::InDatagram(at as usize, length as usize),
            (2, 2) => Answer::InStore(at as usize, length as usize),
            _ => Answer::Refused(number as u32),
        };
        Outcome { answer, emptied: (emptied != 0).then_some((sender, sequence)), name: self.name }
    }
}

// ---- the two receivers, each with its own memory

trait Joins {
    // Whether a message was delivered.
    fn delivers(&mut self, sender: u64, d: &[u8]) -> bool;
}

struct Plain {
    receiver: Receiver,
    store: Vec<u8>,
    ledger: Vec<u32>,
}

struct Proved {
    state: Vec<u64>,
    names: Vec<u8>,
    store: Vec<u8>,
    ledger: Vec<u32>,
    told: Told,
}

#[unsafe(no_mangle)]
#[inline(never)]
fn plain_receive(receiver: &mut Receiver, store: &mut [u8], ledger: &mut [u32], sender: u64, d: &[u8]) -> Outcome {
    receiver.receive(store, ledger, sender, d)
}

impl Plain {
    fn open(store_length: usize) -> Plain {
        Plain { receiver: Receiver::open(store_length), store: vec![0; store_length], ledger: vec![0; LEDGER] }
    }

    fn receive(&mut self, sender: u64, d: &[u8]) -> Outcome {
        plain_receive(&mut self.receiver, &mut self.store, &mut self.ledger, sender, d)
    }
}

impl Joins for Plain {
    fn delivers(&mut self, sender: u64, d: &[u8]) -> bool {
        let outcome = self.receive(sender, d);
        matches!(outcome.answer, Answer::InDatagram(..) | Answer::InStore(..))
    }
}

impl Proved {
    fn open(store_length: usize) -> Proved {
        // SAFETY: the exports take slices as a pointer and a length, and keep none of them.
        let (words, bytes) = unsafe { (proved_state_words(), proved_name_bytes()) };
        let mut all = Proved {
            state: vec![0; words],
            names: vec![0; bytes],
            store: vec![0; store_length],
            ledger: vec![0; LEDGER],
            told: Told::NOTHING,
        };
        let refused = unsafe { proved_open(all.state.as_mut_ptr(), words, all.names.as_mut_ptr(), bytes, store_length) };
        assert_eq!(refused, 0, "the proved receiver did not open");
        all
    }

    fn receive(&mut self, sender: u64, d: &[u8]) {
        unsafe {
            proved_receive(
                self.state.as_mut_ptr(),
                self.state.len(),
                self.names.as_mut_ptr(),
                self.names.len(),
                self.store.as_mut_ptr(),
                self.store.len(),
                self.ledger.as_mut_ptr(),
                self.ledger.len(),
                sender,
                d.as_ptr(),
                d.len(),
                self.told.words.as_mut_ptr(),
                self.told.words.len(),
                self.told.name.as_mut_ptr(),
                MAX_NAME,
            )
        }
    }
}

impl Joins for Proved {
    fn delivers(&mut self, sender: u64, d: &[u8]) -> bool {
        self.receive(sender, d);
        self.told.words[0] == 2
    }
}

// ---- the log

const FRAGMENTS: usize = 100_000;
const ROUND: usize = 256;

struct Random(u64);

impl Random {
    fn any(&mut self, below: usize) -> usize {
        self.0 = self.0.wrapping_mul(6364136223846793005).wrapping_add(1442695040888963407);
        (self.0 >> 33) as usize % below
    }
}

#[derive(Clone, Copy)]
struct Entry {
    buffer: usize,
    message: usize, // of the round
    sender: u64,
}

// A round: some messages whose datagrams stand here. For the next round each gets another sequence, so that the datagrams are in the cache, as
// they are when they have just come from the network.
struct Log {
    buffers: Vec<Vec<u8>>,
    entries: Vec<Entry>,
    messages: usize,
    rounds: usize,
    senders_in_turn: bool,
}

fn put32(d: &mut [u8], at: usize, x: usize) {
    d[at..at + 4].copy_from_slice(&(x as u32).to_be_bytes());
}

// Fragment k of n, as the cutter cuts at M: all are full where the payload is as long as n fragments hold, at most MAX_SIZE.
fn cut(k: usize, n: usize, m: usize, random: &mut Random) -> Vec<u8> {
    let size = (n * (m - 20) - 5).min(MAX_SIZE);
    let offset = if k == 0 { 0 } else { k * (m - 20) - 5 };
    let mut d = b"LC03".to_vec();
    d.resize(20, 0);
    put32(&mut d, 8, size);
    put32(&mut d, 12, offset);
    put32(&mut d, 16, k << 16 | n);
    if k == 0 {
        d.extend(b"TILE\0");
    }
    assert!(offset < size, "no message of so many fragments at that M");
    let length = (m - d.len()).min(size - offset);
    assert!(k + 1 != n || offset + length == size, "no message of so many fragments at that M");
    d.extend((0..length).map(|_| random.any(256) as u8));
    d
}

impl Log {
    fn new(kind: &str, n: usize, m: usize) -> Log {
        assert!((1..=MAX_COUNT).contains(&n) && (96..=1500).contains(&m), "n is 1 to {MAX_COUNT} and M 96 to 1,500");
        let mut random = Random(1);
        let (group, copies) = match kind {
            "in-order" | "sixteen" => (1, 1),
            "mixed" => (SLOTS, 1),
            "twice" => (1, 2),
            _ => panic!("a log is in-order, mixed, twice or sixteen"),
        };
        let mut log = Log { buffers: vec![], entries: vec![], messages: 0, rounds: 0, senders_in_turn: kind == "sixteen" };
        while log.entries.len() < ROUND {
            let from = log.entries.len();
            for g in 0..group {
                for k in 0..n {
                    let entry = Entry { buffer: log.buffers.len(), message: log.messages, sender: if group == 1 { 7 } else { g as u64 } };
                    log.buffers.push(cut(k, n, m, &mut random));
                    log.entries.extend((0..copies).map(|_| entry));
                }
                log.messages += 1;
            }
            if group != 1 {
                for i in (from + 1..log.entries.len()).rev() {
                    log.entries.swap(i, from + random.any(i - from + 1));
                }
            }
        }
        log.rounds = FRAGMENTS.div_ceil(log.entries.len());
        log
    }

    fn number(&mut self, round: usize) {
        for entry in &mut self.entries {
            let message = round * self.messages + entry.message;
            put32(&mut self.buffers[entry.buffer], 4, message);
            if self.senders_in_turn {
                entry.sender = (message % SENDERS) as u64;
            }
        }
    }

    fn fragments(&self) -> usize {
        self.rounds * self.entries.len()
    }

    // The log once. The best time of each round is kept.
    fn feed(&mut self, receiver: &mut impl Joins, best: &mut [u64]) {
        let mut delivered = 0;
        for (round, kept) in best.iter_mut().enumerate() {
            self.number(round);
            let began = Instant::now();
            for entry in &self.entries {
                delivered += receiver.delivers(entry.sender, &self.buffers[entry.buffer]) as usize;
            }
            *kept = (*kept).min(began.elapsed().as_nanos() as u64);
        }
        assert_eq!(delivered, self.rounds * self.messages, "not every message was delivered");
    }

    fn time(&mut self, repeats: usize) {
        let mut best = [vec![u64::MAX; self.rounds], vec![u64::MAX; self.rounds]];
        for turn in 0..2 * repeats {
            // the one that goes first changes from turn to turn
            match (turn + turn / 2) % 2 {
                0 => self.feed(&mut Plain::open(STORE), &mut best[0]),
                _ => self.feed(&mut Proved::open(STORE), &mut best[1]),
            }
        }
        let each = best.map(|all| all.iter().sum::<u64>() as f64 / self.fragments() as f64);
        println!("{:.1} {:.1}", each[0], each[1]);
    }
}

// ---- both give the same

struct Both {
    plain: Plain,
    proved: Proved,
    answers: [u64; 13], // kept, repeats, delivered, then the refusals by number
    emptied: u64,
}

impl Both {
    fn open(store_length: usize) -> Both {
        Both { plain: Plain::open(store_length), proved: Proved::open(store_length), answers: [0; 13], emptied: 0 }
    }

    fn receive(&mut self, sender: u64, d: &[u8]) {
        self.proved.told = Told::NOTHING;
        self.proved.receive(sender, d);
        let outcome = self.plain.receive(sender, d);
        assert_eq!(outcome, self.proved.told.outcome(), "two answers differ");
        self.answers[match outcome.answer {
            Answer::Kept => 0,
            Answer::Repeat => 1,
            Answer::InDatagram(..) | Answer::InStore(..) => 2,
            Answer::Refused(number) => 2 + number as usize,
        }] += 1;
        self.emptied += outcome.emptied.is_some() as u64;
    }

    fn compare(&self) {
        assert!(self.plain.store == self.proved.store, "two stores differ");
        assert!(self.plain.ledger == self.proved.ledger, "two ledgers differ");
    }
}

fn check_log(kind: &str, n: usize, m: usize) {
    let mut log = Log::new(kind, n, m);
    let mut both = Both::open(STORE);
    for round in 0..log.rounds {
        log.number(round);
        for entry in &log.entries {
            both.receive(entry.sender, &log.buffers[entry.buffer]);
        }
        if round % 64 == 0 {
            both.compare();
        }
    }
    both.compare();
    assert_eq!(both.answers[2], (log.rounds * log.messages) as u64, "not every message was delivered");
}

// Short messages of 20 senders, three of them often, and few sequences, many of them spoilt, on a store of a hundred bytes a slot.
fn check_short(count: usize) -> Both {
    let mut random = Random(1);
    let mut both = Both::open(SLOTS * 100 + 3);
    for i in 0..count {
        let n = 1 + random.any(4);
        let k = random.any(n);
        let each = 1 + random.any(3);
        let size = n * each + random.any(2);
        let offset = k * each;
        let small = random.any(20) == 0;
        let mut d = vec![0; if small { 8 } else { 20 }];
        d[..4].copy_from_slice(if small { b"LC02" } else { b"LC03" });
        put32(&mut d, 4, random.any(40));
        if !small {
            put32(&mut d, 8, size);
            put32(&mut d, 12, offset);
            put32(&mut d, 16, k << 16 | n);
        }
        if small || k == 0 {
            let names: [&[u8]; 4] = [b"P", b"PP", b"P\xc3\xa9", b"\xf0\x9f\x98\x80"];
            d.extend(names[random.any(4)]);
            d.push(0);
        }
        let length = if small { random.any(9) } else if k + 1 == n { size - offset } else { each };
        for _ in 0..length {
            let odd = random.any(8) == 0;
            d.push(random.any(if odd { 2 } else { 1 }) as u8);
        }
        if random.any(6) == 0 {
            for _ in 0..1 + random.any(2) {
                let at = random.any(d.len());
                d[at] = random.any(256) as u8;
            }
        }
        if random.any(40) == 0 {
            d.truncate(random.any(d.len() + 1));
        }
        let sender = if random.any(2) == 0 { random.any(3) } else { random.any(20) };
        both.receive(sender as u64, &d);
        if i % 16 == 0 {
            both.compare();
        }
    }
    both.compare();
    both
}

// Eight long messages at once in random order; before some fragments comes a copy with one spoilt byte of its header, which may be kept, and some
// come again with one spoilt byte anywhere.
fn check_long(n: usize, m: usize) -> Both {
    let mut random = Random(2);
    let mut log = Log::new("mixed", n, m);
    let mut both = Both::open(STORE);
    for round in 0..log.rounds {
        log.number(round);
        for entry in &log.entries {
            let d = &log.buffers[entry.buffer];
            let mut spoilt = d.clone();
            if random.any(8) == 0 {
                spoilt[8 + random.any(12)] ^= 1 << random.any(8);
                both.receive(entry.sender, &spoilt);
            }
            both.receive(entry.sender, d);
            if random.any(16) == 0 {
                spoilt[random.any(d.len())] ^= 1 << random.any(8);
                both.receive(entry.sender, &spoilt);
            }
        }
        both.compare();
    }
    both
}

fn check() {
    for kind in ["in-order", "mixed", "twice", "sixteen"] {
        for (n, m) in [(2, 1400), (100, 1400), (190, 1400), (MAX_COUNT, 20 + MAX_SIZE / MAX_COUNT)] {
            check_log(kind, n, m);
        }
    }
    let long = check_long(MAX_COUNT, 20 + MAX_SIZE / MAX_COUNT);
    for (name, both) in [("short messages", check_short(1_000_000)), ("messages of 100", check_long(100, 1400)), ("the longest", long)] {
        let [kept, repeats, delivered, refused @ ..] = both.answers;
        print!("hostile datagrams, {name}: {kept} kept, {repeats} repeats, {delivered} delivered, {} emptied; refused", both.emptied);
        for (i, times) in refused.iter().enumerate().filter(|(_, times)| **times != 0) {
            print!(" {}: {times}", i + 1);
        }
        println!();
    }
    println!("both receivers gave the same answers, stores and ledgers");
}

fn main() {
    let args: Vec<String> = std::env::args().skip(1).collect();
    let words: Vec<&str> = args.iter().map(String::as_str).collect();
    let number = |i: usize| words[i].parse::<usize>().expect("a number");
    match words[..] {
        ["check"] => check(),
        ["most"] => println!("{MAX_COUNT}"),
        ["time", log, _, _, _] => Log::new(log, number(2), number(3)).time(number(4)),
        [who, log, _, _] => {
            let mut log = Log::new(log, number(2), number(3));
            let mut best = vec![u64::MAX; log.rounds];
            match who {
                "plain_receive" => log.feed(&mut Plain::open(STORE), &mut best),
                _ => log.feed(&mut Proved::open(STORE), &mut best),
            }
            println!("{}", log.fragments());
        }
        _ => panic!("usage: check | most | time LOG N M REPEATS | plain_receive LOG N M | proved_receive LOG N M"),
    }
}
