//! The engine beside two hand-written versions of arc consistency, on the same seeded instances in one run.
//!
//! (i)  AC-3 that asks for a partner option by option, with residues, as the engine does;
//! (ii) AC-3 that revises a whole set by masks, with no book in between.
//!
//! Every instance is settled by all three, and the sets that they leave must be the same. Build and run: sh bench/run.sh

use std::time::{Duration, Instant};

const FIELDS: usize = 16;
const OPTIONS: usize = 32;
const RULES: usize = 128;

#[repr(C)]
#[derive(Clone, Copy)]
struct Ends {
    left: u8,
    right: u8,
}

/// What a settle came to: how many options it struck, or that a field became empty.
#[derive(Clone, Copy, PartialEq, Eq, Debug)]
enum Outcome {
    Struck(u32),
    WipedOut,
}

mod engine {
    use super::{Ends, Outcome};

    unsafe extern "C" {
        fn bugbiloja_settle(
            sets: *mut u32,
            fields: usize,
            ends: *const Ends,
            rules: usize,
            rows: *const u32,
            words: usize,
        ) -> u32;
    }

    /// Settles with the engine: table book, remembering book, first-come agenda.
    pub fn settle(sets: &mut [u32], ends: &[Ends], rows: &[u32]) -> Outcome {
        // The function refuses whatever does not fit, so any slices will do.
        let answer = unsafe {
            bugbiloja_settle(sets.as_mut_ptr(), sets.len(), ends.as_ptr(), ends.len(), rows.as_ptr(), rows.len())
        };
        match answer {
            u32::MAX => Outcome::WipedOut,
            n if n < 1000 => Outcome::Struck(n),
            n => panic!("refused with {}", n - 1000),
        }
    }
}

/// Arcs by number: rule × 2 + side, in a ring with a mark for each.
struct Queue {
    ring: [u16; 256],
    marked: [bool; 256],
    head: usize,
    len: usize,
}

impl Queue {
    fn all(rules: usize) -> Queue {
        let mut q = Queue { ring: [0; 256], marked: [false; 256], head: 0, len: 0 };
        for arc in 0..2 * rules {
            q.put(arc as u16);
        }
        q
    }

    fn put(&mut self, arc: u16) {
        if !self.marked[arc as usize] {
            self.marked[arc as usize] = true;
            self.ring[(self.head + self.len) & 255] = arc;
            self.len += 1;
        }
    }

    fn take(&mut self) -> Option<u16> {
        if self.len == 0 {
            return None;
        }
        let arc = self.ring[self.head];
        self.head = (self.head + 1) & 255;
        self.len -= 1;
        self.marked[arc as usize] = false;
        Some(arc)
    }
}

fn ends_of(ends: &[Ends], arc: u16) -> (usize, usize) {
    let e = ends[arc as usize / 2];
    if arc % 2 == 0 { (e.left as usize, e.right as usize) } else { (e.right as usize, e.left as usize) }
}

/// Puts every arc that leads to a field that was changed.
fn put_neighbours(q: &mut Queue, ends: &[Ends], field: usize) {
    for (r, e) in ends.iter().enumerate() {
        if e.right as usize == field {
            q.put(2 * r as u16);
        }
        if e.left as usize == field {
            q.put(2 * r as u16 + 1);
        }
    }
}

/// (i) option by option, with residues.
fn settle_by_options(sets: &mut [u32], ends: &[Ends], rows: &[u32]) -> Outcome {
    let mut residues = vec![255u8; RULES * 2 * OPTIONS];
    let mut strikes: Vec<(u8, u8, u16)> = Vec::with_capacity(512);
    let mut q = Queue::all(ends.len());
    while let Some(arc) = q.take() {
        let (field, other) = ends_of(ends, arc);
        let before = strikes.len();
        let mut waiting = sets[field];
        while waiting != 0 {
            let a = waiting.trailing_zeros() as usize;
            waiting &= waiting - 1;
            if !has_partner(&mut residues, rows, arc as usize, a, sets[other]) {
                sets[field] &= !(1 << a);
                strikes.push((field as u8, a as u8, arc));
            }
        }
        if strikes.len() != before {
            if sets[field] == 0 {
                return Outcome::WipedOut;
            }
            put_neighbours(&mut q, ends, field);
        }
    }
    Outcome::Struck(strikes.len() as u32)
}

fn has_partner(residues: &mut [u8], rows: &[u32], arc: usize, a: usize, set: u32) -> bool {
    let table = arc / 2 * OPTIONS;
    let kept = residues[arc * OPTIONS + a];
    if kept < 32 && set >> kept & 1 == 1 && allows(rows, table, arc, a, kept as usize) {
        return true;
    }
    let found = if arc % 2 == 0 {
        let both = set & rows[table + a];
        if both == 0 { None } else { Some(both.trailing_zeros() as usize) }
    } else {
        let mut waiting = set;
        let mut found = None;
        while waiting != 0 {
            let b = waiting.trailing_zeros() as usize;
            waiting &= waiting - 1;
            if rows[table + b] >> a & 1 == 1 {
                found = Some(b);
                break;
            }
        }
        found
    };
    match found {
        Some(b) => {
            residues[arc * OPTIONS + a] = b as u8;
            residues[(arc ^ 1) * OPTIONS + b] = a as u8;
            true
        }
        None => false,
    }
}

fn allows(rows: &[u32], table: usize, arc: usize, a: usize, b: usize) -> bool {
    if arc % 2 == 0 { rows[table + a] >> b & 1 == 1 } else { rows[table + b] >> a & 1 == 1 }
}

/// (ii) whole sets by masks.
fn settle_by_masks(sets: &mut [u32], ends: &[Ends], rows: &[u32]) -> Outcome {
    let mut q = Queue::all(ends.len());
    let mut struck = 0;
    while let Some(arc) = q.take() {
        let (field, other) = ends_of(ends, arc);
        let table = arc as usize / 2 * OPTIONS;
        let old = sets[field];
        let new = if arc % 2 == 0 {
            let mut kept = 0;
            let mut waiting = old;
            while waiting != 0 {
                let a = waiting.trailing_zeros();
                waiting &= waiting - 1;
                if rows[table + a as usize] & sets[other] != 0 {
                    kept |= 1 << a;
                }
            }
            kept
        } else {
            let mut supported = 0;
            let mut waiting = sets[other];
            while waiting != 0 {
                let a = waiting.trailing_zeros();
                waiting &= waiting - 1;
                supported |= rows[table + a as usize];
            }
            old & supported
        };
        if new != old {
            struck += (old & !new).count_ones();
            sets[field] = new;
            if new == 0 {
                return Outcome::WipedOut;
            }
            put_neighbours(&mut q, ends, field);
        }
    }
    Outcome::Struck(struck)
}

/// xorshift64*
struct Random(u64);

impl Random {
    fn next(&mut self) -> u64 {
        self.0 ^= self.0 >> 12;
        self.0 ^= self.0 << 25;
        self.0 ^= self.0 >> 27;
        self.0.wrapping_mul(0x2545_F491_4F6C_DD1D)
    }

    fn below(&mut self, n: u64) -> u64 {
        (self.next() >> 33) % n
    }
}

struct Instance {
    sets: Vec<u32>,
    ends: Vec<Ends>,
    rows: Vec<u32>,
}

/// 128 table rules between random fields; each pair is forbidden with that many chances in a thousand. In the first so
/// many fields one option is chosen, in the others all stand.
fn tables(random: &mut Random, forbidden: u64, chosen: usize) -> Instance {
    let mut instance = Instance { sets: Vec::new(), ends: Vec::new(), rows: Vec::new() };
    for field in 0..FIELDS {
        let one = 1 << random.below(32);
        instance.sets.push(if field < chosen { one } else { u32::MAX });
    }
    for _ in 0..RULES {
        let left = random.below(16) as u8;
        let right = (left + 1 + random.below(15) as u8) % 16;
        instance.ends.push(Ends { left, right });
        for _ in 0..OPTIONS {
            let mut row = 0u32;
            for b in 0..OPTIONS {
                row |= u32::from(random.below(1000) >= forbidden) << b;
            }
            instance.rows.push(row);
        }
    }
    instance
}

/// A chain of rules from each field to the next: all the same difference, or each lower than the next.
fn chain(random: &mut Random, equal: bool) -> Instance {
    let mut instance = Instance { sets: Vec::new(), ends: Vec::new(), rows: Vec::new() };
    for x in 0..FIELDS {
        let set = if equal { random.next() as u32 | random.next() as u32 | 1 << 7 } else { u32::MAX };
        instance.sets.push(set);
        if x + 1 < FIELDS {
            instance.ends.push(Ends { left: x as u8, right: x as u8 + 1 });
            for a in 0..OPTIONS as u32 {
                instance.rows.push(if equal { 1 << a } else if a == 31 { 0 } else { u32::MAX << (a + 1) });
            }
        }
    }
    instance
}

type Settle = fn(&mut [u32], &[Ends], &[u32]) -> Outcome;

/// The time of a settle of each instance, the best of several rounds, and what was left.
fn time(settle: Settle, instances: &[Instance]) -> (Duration, Vec<(Outcome, Vec<u32>)>) {
    let mut best = Duration::MAX;
    let mut left = Vec::new();
    for _ in 0..7 {
        let mut copies: Vec<Vec<u32>> = instances.iter().map(|i| i.sets.clone()).collect();
        let start = Instant::now();
        let outcomes: Vec<Outcome> =
            instances.iter().zip(copies.iter_mut()).map(|(i, sets)| settle(sets, &i.ends, &i.rows)).collect();
        best = best.min(start.elapsed());
        left = outcomes.into_iter().zip(copies).collect();
    }
    (best, left)
}

fn compare(name: &str, instances: &[Instance]) {
    let (ours, left) = time(engine::settle, instances);
    let (options, left_i) = time(settle_by_options, instances);
    let (masks, left_ii) = time(settle_by_masks, instances);
    for (k, found) in left.iter().enumerate() {
        for other in [&left_i[k], &left_ii[k]] {
            assert_eq!(found.0, other.0, "{name} {k}");
            // Where a field became empty the three may have stopped at different sets.
            assert!(found.0 == Outcome::WipedOut || found.1 == other.1, "{name} {k}");
        }
    }
    let wiped = left.iter().filter(|l| l.0 == Outcome::WipedOut).count();
    let each = |d: Duration| d.as_secs_f64() * 1e6 / instances.len() as f64;
    println!(
        "{name:<42} {:>9.2} {:>9.2} {:>9.2}   {:>5.2} {:>5.2}   {wiped:>4} of {} wiped out",
        each(ours),
        each(options),
        each(masks),
        each(ours) / each(options),
        each(ours) / each(masks),
        instances.len()
    );
}

fn main() {
    let mut random = Random(0x9E37_79B9_7F4A_7C15);
    println!("{:<42} {:>9} {:>9} {:>9}   {:>5} {:>5}", "one full propagation, µs each", "engine", "(i)", "(ii)", "/(i)", "/(ii)");
    for (forbidden, chosen) in [(300, 0), (600, 0), (800, 0), (850, 0), (950, 0), (300, 1), (495, 1), (200, 3)] {
        let instances: Vec<Instance> = (0..200).map(|_| tables(&mut random, forbidden, chosen)).collect();
        compare(&format!("tables, {forbidden} in 1000 forbidden, {chosen} chosen"), &instances);
    }
    for equal in [true, false] {
        let instances: Vec<Instance> = (0..200).map(|_| chain(&mut random, equal)).collect();
        compare(if equal { "a chain of equalities" } else { "a chain of orders" }, &instances);
    }
}
