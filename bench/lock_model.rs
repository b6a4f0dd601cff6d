//! All orders in which a few threads may take turns at the lock of `crates/turn_lock`, by single steps of the machine: a
//! load, a store, an addition, a sleep that the kernel begins only if the bell still has the count that was heard, a wake. A
//! sleeper may also return for no reason, and who wakes one of several wakes any of them. Contracts say nothing of sleeping
//! and waking, so this looks for a wake that is lost.
//!
//!     rustc -O --edition 2021 bench/lock_model.rs -o lock_model && ./lock_model
//!
//! It goes through the lock as it is, which must hold what `find_fault` looks for and must end in each order, and then
//! through seven locks with one mistake each, of which each must leave somebody asleep. It takes a few seconds.
//! `./lock_model 3 3 9` does the same to the lock as it is for 3 threads with 3 calls each at 9 bells, which takes 2 GB, and
//! `./lock_model NAME` prints how a sleeper is left by the mistake of that name.
use std::collections::hash_map::{Entry, HashMap};
use std::process::ExitCode;

const THREADS: usize = 4;
const BELLS: usize = 9;

/// The lock as it is, or with one mistake.
#[derive(Clone, Copy, PartialEq)]
enum Lock {
    Right,
    /// The flag goes up before the count is read.
    AskBeforeHearing,
    /// Who has asked sleeps without another look.
    NoSecondLook,
    /// The common bell rings before the flag is down.
    RingBeforeClearing,
    /// Who sleeps is woken before the flag is down.
    WakeBeforeClearing,
    /// The common bell wakes without counting.
    NoCount,
    /// The flag is read before the turn is over.
    ReadFlagEarly,
    /// Who was woken looks, and draws without asking again.
    WokenDoesNotAsk,
}

const MISTAKES: [(&str, Lock); 7] = [
    ("ask-before-hearing", Lock::AskBeforeHearing),
    ("no-second-look", Lock::NoSecondLook),
    ("ring-before-clearing", Lock::RingBeforeClearing),
    ("wake-before-clearing", Lock::WakeBeforeClearing),
    ("no-count", Lock::NoCount),
    ("read-flag-early", Lock::ReadFlagEarly),
    ("woken-does-not-ask", Lock::WokenDoesNotAsk),
];

/// What a thread does next, in the order of a call. `Asleep` and `AsleepOnTicket` wait to be woken.
#[derive(Clone, Copy, PartialEq, Eq, Hash, PartialOrd, Ord, Debug)]
#[rustfmt::skip]
enum Next {
    Call, LookAtTurn, LookAtTicket, Hear, Ask, LookAgainAtTurn, LookAgainAtTicket, Sleep, Asleep,
    WokenLooksAtTurn, WokenLooksAtTicket, Draw, HearTicket, Poll, SleepOnTicket, AsleepOnTicket, Lift, PutBack,
    ReadFlagFirst, Advance, Peek, RingTicket, WakeTicket, ReadFlag, Clear, Ring, Wake,
}
use Next::*;

/// A thread: `number` is what it read of the turn, its ticket, or the turn that follows its own; `heard` the count of a bell;
/// `flag` what `ReadFlagFirst` read; `calls` how many calls are left.
#[derive(Clone, Copy, PartialEq, Eq, Hash, PartialOrd, Ord)]
struct Thread {
    next: Next,
    number: u8,
    heard: u8,
    flag: bool,
    calls: u8,
}

/// The words of the lock, its bells, and the threads.
#[derive(Clone, Copy, PartialEq, Eq, Hash)]
struct State {
    ticket: u8,
    turn: u8,
    is_home: bool,
    rings: [u8; BELLS],
    common: u8,
    asked: bool,
    threads: [Thread; THREADS],
}

/// How many threads, calls of each, and bells for tickets.
#[derive(Clone, Copy)]
struct Size {
    threads: usize,
    calls: u8,
    bells: usize,
}

/// A state that follows, and whether it does by a sleeper's return for no reason.
struct Following {
    state: State,
    is_spurious: bool,
}

impl State {
    fn first(size: Size) -> State {
        let mut threads = [Thread { next: Call, number: 0, heard: 0, flag: false, calls: 0 }; THREADS];
        for thread in &mut threads[..size.threads] {
            thread.calls = size.calls;
        }
        State { ticket: 0, turn: 0, is_home: true, rings: [0; BELLS], common: 0, asked: false, threads }
    }

    /// The same state with the thread of this place as it is given. Threads are alike, so their order says nothing.
    fn with(mut self, place: usize, thread: Thread) -> State {
        self.threads[place] = thread;
        self.threads.sort();
        self
    }

    fn is_asleep(&self) -> bool {
        self.threads.iter().any(|thread| matches!(thread.next, Asleep | AsleepOnTicket))
    }

    /// What must not be: a sleeper while all others are between two calls, so that nobody is left to wake it; two threads
    /// with the value; an end with tickets out or without the value.
    fn find_fault(&self) -> Option<&'static str> {
        let rests = |thread: &Thread| matches!(thread.next, Call | Asleep | AsleepOnTicket);
        if self.is_asleep() && self.threads.iter().all(rests) {
            return Some("somebody sleeps whom nobody is left to wake");
        }
        let inside = self.threads.iter().filter(|thread| thread.next == PutBack).count();
        if inside > 1 || (inside == 1 && self.is_home) {
            return Some("two have the value");
        }
        if self.threads.iter().any(|thread| thread.next == Lift) && !self.is_home {
            return Some("the turn came before the value");
        }
        let is_over = self.threads.iter().all(|thread| thread.next == Call && thread.calls == 0);
        if is_over && (self.ticket != self.turn || !self.is_home) {
            return Some("a turn is left over");
        }
        None
    }
}

/// All states that follow by a step of the thread of this place.
fn follow(state: &State, place: usize, lock: Lock, size: Size, into: &mut Vec<Following>) {
    let thread = state.threads[place];
    match thread.next {
        Call if thread.calls == 0 => {}
        Asleep | AsleepOnTicket => {
            let next = if thread.next == Asleep { woken(lock) } else { HearTicket };
            into.push(Following { state: state.with(place, Thread { next, ..thread }), is_spurious: true });
        }
        Wake => wake_one(state, place, lock, into),
        Draw | HearTicket | Poll | SleepOnTicket | Lift => {
            into.push(Following { state: take(*state, place, size), is_spurious: false });
        }
        PutBack | ReadFlagFirst | Advance | Peek | RingTicket | WakeTicket | ReadFlag | Clear | Ring => {
            into.push(Following { state: give(*state, place, lock, size), is_spurious: false });
        }
        _ => into.push(Following { state: stand_by(*state, place, lock), is_spurious: false }),
    }
}

/// What a thread does that was woken from the common bell.
fn woken(lock: Lock) -> Next {
    match lock {
        Lock::WokenDoesNotAsk => WokenLooksAtTurn,
        Lock::AskBeforeHearing => Ask,
        _ => Hear,
    }
}

/// A step of a thread that has no ticket yet.
fn stand_by(mut state: State, place: usize, lock: Lock) -> State {
    let mut thread = state.threads[place];
    let is_free = thread.number == state.ticket;
    thread.next = match thread.next {
        Call => {
            thread.calls -= 1;
            LookAtTurn
        }
        LookAtTurn => LookAtTicket,
        LookAtTicket if is_free => Draw,
        LookAtTicket => woken(if lock == Lock::WokenDoesNotAsk { Lock::Right } else { lock }),
        Hear if lock == Lock::AskBeforeHearing => LookAgainAtTurn,
        Hear => Ask,
        Ask if lock == Lock::AskBeforeHearing => Hear,
        Ask if lock == Lock::NoSecondLook => Sleep,
        Ask => LookAgainAtTurn,
        LookAgainAtTurn => LookAgainAtTicket,
        LookAgainAtTicket if is_free => Draw,
        LookAgainAtTicket => Sleep,
        Sleep if state.common == thread.heard => Asleep,
        Sleep => woken(lock),
        WokenLooksAtTurn => WokenLooksAtTicket,
        WokenLooksAtTicket if is_free => Draw,
        WokenLooksAtTicket => Hear,
        other => unreachable!("{other:?}"),
    };
    match state.threads[place].next {
        LookAtTurn | LookAgainAtTurn | WokenLooksAtTurn => thread.number = state.turn,
        LookAtTicket | LookAgainAtTicket | WokenLooksAtTicket => thread.number = 0,
        Hear => thread.heard = state.common,
        Ask => state.asked = true,
        Sleep => thread.heard = 0,
        _ => {}
    }
    if thread.next == Draw {
        thread.heard = 0;
    }
    state.with(place, thread)
}

/// A step of a thread that draws a ticket, waits for its turn and lifts the value.
fn take(mut state: State, place: usize, size: Size) -> State {
    let mut thread = state.threads[place];
    let rings = state.rings[thread.number as usize % size.bells];
    thread.next = match thread.next {
        Draw => {
            thread.number = state.ticket;
            state.ticket += 1;
            HearTicket
        }
        HearTicket => {
            thread.heard = rings;
            Poll
        }
        Poll if state.turn == thread.number => {
            (thread.number, thread.heard) = (0, 0);
            Lift
        }
        Poll => SleepOnTicket,
        SleepOnTicket => {
            let is_unchanged = rings == thread.heard;
            thread.heard = 0;
            if is_unchanged {
                AsleepOnTicket
            } else {
                HearTicket
            }
        }
        Lift => {
            state.is_home = false;
            PutBack
        }
        other => unreachable!("{other:?}"),
    };
    state.with(place, thread)
}

/// A step of a thread that puts the value back, gives the turn on and rings.
fn give(mut state: State, place: usize, lock: Lock, size: Size) -> State {
    let mut thread = state.threads[place];
    let bell = thread.number as usize % size.bells;
    thread.next = match thread.next {
        PutBack => {
            state.is_home = true;
            if lock == Lock::ReadFlagEarly {
                ReadFlagFirst
            } else {
                Advance
            }
        }
        ReadFlagFirst => {
            thread.flag = state.asked;
            Advance
        }
        Advance => {
            state.turn += 1;
            thread.number = state.turn;
            Peek
        }
        Peek if state.ticket != thread.number => RingTicket,
        Peek if lock == Lock::ReadFlagEarly => {
            if thread.flag {
                Clear
            } else {
                Call
            }
        }
        Peek => ReadFlag,
        RingTicket => {
            state.rings[bell] += 1;
            WakeTicket
        }
        WakeTicket => {
            let waits =
                |other: &&mut Thread| other.next == AsleepOnTicket && other.number as usize % size.bells == bell;
            state.threads.iter_mut().filter(waits).for_each(|other| other.next = HearTicket);
            Call
        }
        ReadFlag if !state.asked => Call,
        ReadFlag if matches!(lock, Lock::RingBeforeClearing | Lock::WakeBeforeClearing) => Ring,
        ReadFlag => Clear,
        Clear => {
            state.asked = false;
            match lock {
                Lock::RingBeforeClearing | Lock::NoCount => Wake,
                Lock::WakeBeforeClearing => Call,
                _ => Ring,
            }
        }
        Ring => {
            state.common += 1;
            if lock == Lock::RingBeforeClearing {
                Clear
            } else {
                Wake
            }
        }
        other => unreachable!("{other:?}"),
    };
    if matches!(thread.next, Call | ReadFlag | Clear | Ring | Wake) {
        (thread.number, thread.flag) = (0, false);
    }
    state.with(place, thread)
}

/// A wake of any one of those that sleep on the common bell, or of nobody if none does.
fn wake_one(state: &State, place: usize, lock: Lock, into: &mut Vec<Following>) {
    let mut after = *state;
    after.threads[place].next = if lock == Lock::WakeBeforeClearing { Clear } else { Call };
    let sleepers: Vec<usize> = (0..THREADS).filter(|other| state.threads[*other].next == Asleep).collect();
    if sleepers.is_empty() {
        into.push(Following { state: after.with(place, after.threads[place]), is_spurious: false });
    }
    for sleeper in sleepers {
        let thread = Thread { next: woken(lock), ..state.threads[sleeper] };
        into.push(Following { state: after.with(sleeper, thread), is_spurious: false });
    }
}

/// All states that are reached, in the order of their finding, each with the one that it was found from, and the steps
/// between them that no sleeper's return for no reason makes.
struct Found {
    states: Vec<State>,
    from: Vec<u32>,
    steps: Vec<(u32, u32)>,
    fault: Option<&'static str>,
}

/// Goes through all orders, up to the first fault.
fn explore(lock: Lock, size: Size) -> Found {
    let first = State::first(size);
    let mut found = Found { states: vec![first], from: vec![0], steps: Vec::new(), fault: None };
    let mut places = HashMap::from([(first, 0u32)]);
    let mut following = Vec::new();
    let mut at = 0;
    while at < found.states.len() {
        let state = found.states[at];
        found.fault = state.find_fault();
        if found.fault.is_some() {
            found.states.truncate(at + 1);
            return found;
        }
        (0..THREADS).for_each(|place| follow(&state, place, lock, size, &mut following));
        for next in following.drain(..) {
            let place = match places.entry(next.state) {
                Entry::Occupied(known) => *known.get(),
                Entry::Vacant(new) => {
                    found.states.push(next.state);
                    found.from.push(at as u32);
                    *new.insert(found.states.len() as u32 - 1)
                }
            };
            if !next.is_spurious {
                found.steps.push((at as u32, place));
            }
        }
        at += 1;
    }
    found
}

/// Whether the steps never lead back to where they came from, so that each order ends: states that no step leads to are
/// taken away until none is left.
fn each_order_ends(found: &Found) -> bool {
    let count = found.states.len();
    let mut into = vec![0u32; count];
    found.steps.iter().for_each(|(_, to)| into[*to as usize] += 1);
    let mut begins = vec![0usize; count + 1];
    found.steps.iter().for_each(|(from, _)| begins[*from as usize + 1] += 1);
    (0..count).for_each(|place| begins[place + 1] += begins[place]);
    let mut left: Vec<usize> = (0..count).filter(|place| into[*place] == 0).collect();
    let mut taken = 0;
    while let Some(place) = left.pop() {
        taken += 1;
        for (_, to) in &found.steps[begins[place]..begins[place + 1]] {
            into[*to as usize] -= 1;
            if into[*to as usize] == 0 {
                left.push(*to as usize);
            }
        }
    }
    taken == count
}

/// How many steps lead to the last state that was found; if `is_shown` it prints them.
fn run_to_last(found: &Found, is_shown: bool) -> usize {
    let mut run = vec![found.states.len() - 1];
    while run[run.len() - 1] != 0 {
        run.push(found.from[run[run.len() - 1]] as usize);
    }
    for place in run.iter().rev().filter(|_| is_shown) {
        let state = &found.states[*place];
        let threads: Vec<String> =
            state.threads.iter().map(|thread| format!("{:?} {}", thread.next, thread.number)).collect();
        println!(
            "ticket {} turn {} rings {} asked {}: {}",
            state.ticket,
            state.turn,
            state.common,
            state.asked,
            threads.join(", ")
        );
    }
    run.len() - 1
}

/// Whether the lock as it is has no fault, and ends in each order.
fn is_right(size: Size) -> bool {
    let found = explore(Lock::Right, size);
    print!("{} threads, {} calls each, {} bells: ", size.threads, size.calls, size.bells);
    if let Some(fault) = found.fault {
        println!("{fault}, after {} steps", run_to_last(&found, true));
        return false;
    }
    let ends = each_order_ends(&found);
    println!(
        "{} states, no lasting sleeper; {}",
        found.states.len(),
        if ends { "each order ends" } else { "AN ORDER NEED NOT END" }
    );
    ends
}

/// Whether a mistake leaves somebody asleep.
fn is_found(name: &str, lock: Lock, is_shown: bool) -> bool {
    let found = explore(lock, Size { threads: 3, calls: 2, bells: 6 });
    let Some(fault) = found.fault else {
        println!("{name}: NOT FOUND");
        return false;
    };
    println!("{name}: {fault}, after {} steps", run_to_last(&found, is_shown));
    found.states[found.states.len() - 1].is_asleep()
}

fn main() -> ExitCode {
    let words: Vec<String> = std::env::args().skip(1).collect();
    let is_good = match words.as_slice() {
        [] => {
            let sizes = [(3, 2, 6), (3, 2, 2), (3, 2, 1), (4, 1, 4)];
            let right = sizes.map(|(threads, calls, bells)| is_right(Size { threads, calls, bells }));
            let found = MISTAKES.map(|(name, lock)| is_found(name, lock, false));
            right.iter().chain(&found).all(|good| *good)
        }
        [name] => MISTAKES.iter().filter(|mistake| mistake.0 == name).any(|(name, lock)| is_found(name, *lock, true)),
        [threads, calls, bells] => {
            let number = |word: &String| word.parse::<u8>().expect("a small number");
            is_right(Size { threads: number(threads) as usize, calls: number(calls), bells: number(bells) as usize })
        }
        _ => false,
    };
    if is_good {
        ExitCode::SUCCESS
    } else {
        ExitCode::FAILURE
    }
}
