//! What is prepared of a table before a search: masks of events, in plain Rust. No pair of events is asked.

use crate::table::{Event, Mask, Table, EVENTS, HARTS, LOCATIONS};
use crate::table::{ACQUIRE, FENCE, FENCE_TSO, LR, PR, PW, RCSC, RELEASE, SC, SR, STORE, SW};

/// For each event of up to N a mask of others. Where a mask says nothing of an event, as that of the own writers of one that
/// doesn't read, it is empty.
#[derive(Clone)]
pub struct Facts<const N: usize = EVENTS> {
    pub memory: u32,
    /// Those that steady rules put before it, and those that wait for it.
    pub pred: [u32; N],
    pub succ: [u32; N],
    /// The writers to the location that it reads, earlier on its hart.
    pub own: [u32; N],
    /// Those that have to be placed before its hart returns from it: what it depends on, and itself unless it is a plain store.
    pub needs: [u32; N],
    /// Once one of these and all of its ground are placed, and it isn't, no other hart may write its location: by rule 2, or by
    /// atomicity.
    pub window: [u32; N],
    pub ground: [u32; N],
    /// Those at the location that it writes, of other harts, that have a window.
    pub guards: [u32; N],
    /// The readers at the location that it writes, and of these those that state what it writes.
    pub here: [u32; N],
    pub right: [u32; N],
    /// The other writers to the location that it writes.
    pub peers: [u32; N],
    /// The writers to locations whose final value is stated, and the events that leave no wrong one.
    pub stated: u32,
    pub ends: u32,
    /// The events that read no wrong initial value.
    pub good: u32,
    /// A location that nothing writes has another final value.
    pub unmet: bool,
}

/// Sets of a table's events.
#[derive(Default)]
struct Sets {
    readers: u32,
    writers: u32,
    acquires: u32,
    releases: u32,
    rcscs: u32,
    harts: [u32; HARTS],
    locations: [u32; LOCATIONS],
}

fn bit_if(condition: bool, e: usize) -> u32 {
    u32::from(condition) << e
}

fn mask_if(condition: bool, mask: u32) -> u32 {
    if condition {
        mask
    } else {
        0
    }
}

fn under(mask: u32, e: usize) -> u32 {
    mask & ((1 << e) - 1)
}

pub fn highest(mask: u32) -> usize {
    mask.ilog2() as usize
}

impl Sets {
    fn of<M: Mask, const N: usize>(t: &Table<M, N>) -> Sets {
        let mut sets = Sets::default();
        for (e, x) in t.events[..t.count].iter().enumerate() {
            sets.readers |= bit_if(x.reads(), e);
            sets.writers |= bit_if(x.writes(), e);
            let annotations = x.annotations(t.model);
            sets.acquires |= bit_if(annotations & ACQUIRE != 0, e);
            sets.releases |= bit_if(annotations & RELEASE != 0, e);
            sets.rcscs |= bit_if(annotations & RCSC != 0, e);
            sets.harts[usize::from(x.hart)] |= 1 << e;
            sets.locations[usize::from(x.location)] |= 1 << e;
        }
        sets
    }

    fn memory(&self) -> u32 {
        self.readers | self.writers
    }

    /// The memory events earlier on an event's hart, and those at its location.
    fn earlier<M>(&self, e: usize, x: &Event<M>) -> u32 {
        under(self.harts[usize::from(x.hart)], e) & self.memory()
    }

    fn place<M>(&self, x: &Event<M>) -> u32 {
        self.locations[usize::from(x.location)] & self.memory()
    }
}

/// Masks that run along the events: those that a fence puts before what follows, those that an address depends on, and the LRs
/// that wait for their SC.
#[derive(Default)]
struct Passed {
    before_reads: u32,
    before_writes: u32,
    addressed: u32,
    reserved: u32,
}

impl Passed {
    fn pass<M: Mask + Into<u32>>(&mut self, sets: &Sets, e: usize, x: &Event<M>) {
        let earlier = sets.earlier(e, x);
        match x.kind {
            FENCE => {
                let before = mask_if(x.flags & PR != 0, sets.readers) | mask_if(x.flags & PW != 0, sets.writers);
                self.before_reads |= mask_if(x.flags & SR != 0, earlier & before);
                self.before_writes |= mask_if(x.flags & SW != 0, earlier & before);
            }
            FENCE_TSO => {
                self.before_reads |= earlier & sets.readers;
                self.before_writes |= earlier;
            }
            _ => {
                self.addressed |= earlier & x.addr.into();
                self.reserved &= !mask_if(matches!(x.kind, LR | SC), earlier);
                self.reserved |= bit_if(x.kind == LR, e);
            }
        }
    }

    /// The memory events that steady rules put before this one.
    fn predecessors<M: Mask + Into<u32>>(&self, sets: &Sets, e: usize, x: &Event<M>) -> u32 {
        let earlier = sets.earlier(e, x);
        let always = sets.acquires | (x.addr | x.data).into();
        let if_writes = sets.place(x) | self.before_writes | self.addressed | x.ctrl.into();
        earlier
            & (always
                | mask_if(x.reads(), self.before_reads)
                | mask_if(x.writes(), if_writes)
                | mask_if(sets.releases >> e & 1 == 1, earlier)
                | mask_if(sets.rcscs >> e & 1 == 1, sets.rcscs)
                | self.pair(x))
    }

    /// The LR paired with an SC, among those of its hart.
    fn pair<M>(&self, x: &Event<M>) -> u32 {
        mask_if(x.kind == SC, self.reserved)
    }
}

impl<const N: usize> Facts<N> {
    /// Of a table with these memory events, without what each says.
    fn blank(memory: u32) -> Facts<N> {
        let none = [0; N];
        Facts {
            memory,
            pred: none,
            succ: none,
            own: none,
            needs: none,
            window: none,
            ground: none,
            guards: none,
            here: none,
            right: none,
            peers: none,
            stated: 0,
            ends: 0,
            good: 0,
            unmet: false,
        }
    }

    pub fn of<M: Mask + Into<u32>>(t: &Table<M, N>) -> Facts<N> {
        let sets = Sets::of(t);
        let mut facts = Facts::blank(sets.memory());
        let mut passed = Passed::default();
        let mut windows = 0;
        for (e, x) in t.events[..t.count].iter().enumerate() {
            facts.good |= bit_if(!x.reads() || t.initial[usize::from(x.location)] == x.read, e);
            if x.is_memory() {
                facts.put_order(&sets, &passed, e, x);
                facts.put_values(t, &sets, e, x);
                windows |= bit_if(facts.window[e] != 0, e);
            }
            passed.pass(&sets, e, x);
        }
        for (e, x) in t.events[..t.count].iter().enumerate() {
            facts.guards[e] = mask_if(x.writes(), sets.place(x) & windows & !sets.harts[usize::from(x.hart)]);
        }
        facts.unmet = (0..t.locations)
            .any(|x| t.stated >> x & 1 == 1 && sets.locations[x] & sets.writers == 0 && t.initial[x] != t.finals[x]);
        facts
    }

    /// What has to do with the order alone.
    fn put_order<M: Mask + Into<u32>>(&mut self, sets: &Sets, passed: &Passed, e: usize, x: &Event<M>) {
        let earlier = sets.earlier(e, x);
        self.pred[e] = passed.predecessors(sets, e, x);
        let mut left = self.pred[e];
        while left != 0 {
            self.succ[left.trailing_zeros() as usize] |= 1 << e;
            left &= left - 1;
        }
        self.own[e] = mask_if(x.reads(), earlier & sets.place(x) & sets.writers);
        self.needs[e] = (x.addr | x.data).into() | bit_if(x.kind != STORE, e);
        if x.kind == SC {
            self.window[e] = earlier & passed.pair(x);
            self.ground[e] = self.own[highest(self.window[e])];
        } else if !x.writes() {
            self.window[e] = rereads(sets, e, x);
            self.ground[e] = self.own[e];
        }
    }

    fn put_values<M: Mask>(&mut self, t: &Table<M, N>, sets: &Sets, e: usize, x: &Event<M>) {
        let (place, location) = (sets.place(x), usize::from(x.location));
        let is_stated = x.writes() && t.stated >> location & 1 == 1;
        self.stated |= bit_if(is_stated, e);
        self.ends |= bit_if(!is_stated || t.finals[location] == x.written, e);
        if x.writes() {
            self.here[e] = place & sets.readers;
            self.peers[e] = place & sets.writers & !(1 << e);
            let mut left = self.here[e];
            while left != 0 {
                let r = left.trailing_zeros() as usize;
                left &= left - 1;
                self.right[e] |= bit_if(t.events[r].read == x.written, r);
            }
        }
    }
}

/// A fence with no bits, and the memory events of its hart on either side.
pub struct Fence {
    pub event: usize,
    before: u32,
    behind: u32,
}

impl Fence {
    pub fn empty_ones(t: &Table) -> Vec<Fence> {
        let sets = Sets::of(t);
        let empty = t.events[..t.count].iter().enumerate().filter(|(_, x)| x.kind == FENCE && x.flags == 0);
        let fence = |(event, x): (usize, &Event)| {
            let own = sets.harts[usize::from(x.hart)] & sets.memory();
            let before = under(own, event);
            Fence { event, before, behind: own & !before }
        };
        empty.map(fence).collect()
    }
}

impl Facts {
    /// A fence puts all memory events before it before all behind it.
    pub fn fill(&mut self, fence: &Fence) {
        for e in 0..EVENTS {
            self.pred[e] |= mask_if(fence.behind >> e & 1 == 1, fence.before);
            self.succ[e] |= mask_if(fence.before >> e & 1 == 1, fence.behind);
        }
    }
}

/// The later readers of an event's hart and location, up to the first that writes there.
fn rereads<M>(sets: &Sets, e: usize, x: &Event<M>) -> u32 {
    let later = sets.place(x) & sets.harts[usize::from(x.hart)] & !((2 << e) - 1);
    let again = later & sets.readers;
    match later & sets.writers {
        0 => again,
        stops => again & (stops ^ (stops - 1)),
    }
}
