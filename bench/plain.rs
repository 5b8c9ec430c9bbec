// The steps of document 01 in plain Rust with sorted vectors, for comparison of speed alone. It reads two accepted records from standard
// input, the second directly after the first, and prints the result line; it makes no checks.
use std::io::Read;

// A set of at most 128 variables.
type Set = u128;
type Terms = Vec<(Set, u8)>;

struct Sum {
    n: usize,
    wires: Vec<(Set, bool)>,
    constant: u8,
    terms: Terms,
    live: Set,
    next: u32,
}

fn merge(terms: &mut Terms) {
    terms.sort_unstable_by_key(|t| t.0);
    terms.dedup_by(|next, last| {
        let same = next.0 == last.0;
        if same {
            last.1 = (last.1 + next.1) % 8;
        }
        same
    });
    terms.retain(|t| t.0 != 0 && t.1 != 0);
}

impl Sum {
    fn new(n: usize) -> Sum {
        Sum {
            n,
            wires: (0..n).map(|q| (1 << q, false)).collect(),
            constant: 0,
            terms: Vec::new(),
            live: 0,
            next: n as u32,
        }
    }

    fn put(&mut self, c: u8, w: (Set, bool)) {
        if w.1 {
            self.constant = (self.constant + c) % 8;
            self.terms.push((w.0, 8 - c));
        } else {
            self.terms.push((w.0, c));
        }
    }

    fn product(&mut self, u: (Set, bool), v: (Set, bool)) {
        self.put(2, u);
        self.put(2, v);
        self.put(6, (u.0 ^ v.0, u.1 != v.1));
    }

    fn gate(&mut self, kind: u8, a: usize, b: usize) {
        let w = self.wires[a];
        match kind {
            0 => self.wires[a].1 = !w.1,
            1 => {
                self.put(4, w);
                self.constant = (self.constant + 2) % 8;
                self.wires[a].1 = !w.1;
            }
            2 => self.put(4, w),
            3 => self.put(2, w),
            4 => self.put(6, w),
            5 => self.put(1, w),
            6 => self.put(7, w),
            7 => {
                let new = (1 << self.next, false);
                self.live |= new.0;
                self.next += 1;
                self.product(w, new);
                self.wires[a] = new;
            }
            8 => {
                self.wires[b].0 ^= w.0;
                self.wires[b].1 ^= w.1;
            }
            9 => {
                let v = self.wires[b];
                self.product(w, v);
            }
            _ => self.wires.swap(a, b),
        }
    }

    // z replaced in the terms, unmerged.
    fn replace_terms(&mut self, z: u32, p: (Set, bool)) {
        let bit: Set = 1 << z;
        for t in self.terms.iter_mut() {
            if t.0 & bit != 0 {
                t.0 ^= bit ^ p.0;
                if p.1 {
                    self.constant = (self.constant + t.1) % 8;
                    t.1 = (8 - t.1) % 8;
                }
            }
        }
        self.live &= !bit;
    }

    fn replace_wires(&mut self, z: u32, p: (Set, bool)) {
        let bit: Set = 1 << z;
        for w in self.wires.iter_mut() {
            if w.0 & bit != 0 {
                w.0 ^= bit ^ p.0;
                w.1 ^= p.1;
            }
        }
    }

    fn take_out(&mut self, y: u32) {
        let bit: Set = 1 << y;
        for t in self.terms.iter_mut() {
            t.0 &= !bit;
        }
        self.live &= !bit;
    }

    fn phase(&self, x: Set) -> u8 {
        let mut sum = self.constant;
        for t in &self.terms {
            if (t.0 & x).count_ones() % 2 == 1 {
                sum += t.1;
                sum %= 8;
            }
        }
        sum
    }

    fn search(&self) -> Set {
        let base = self.phase(0);
        let n = self.n;
        for i in 0..n {
            if self.phase(1 << i) != base {
                return 1 << i;
            }
        }
        for i in 0..n {
            for j in 0..i {
                if self.phase(1 << i | 1 << j) != base {
                    return 1 << i | 1 << j;
                }
            }
        }
        for i in 0..n {
            for j in 0..i {
                for k in 0..j {
                    if self.phase(1 << i | 1 << j | 1 << k) != base {
                        return 1 << i | 1 << j | 1 << k;
                    }
                }
            }
        }
        0
    }
}

struct Counts {
    pins: u32,
    sums: u32,
    turns: u32,
    joins: u32,
}

fn say(verdict: &str, a: Set, b: Set, c: &Counts, left: u32) {
    println!("{verdict} {a} {b} {} {} {} {} {left}", c.pins, c.sums, c.turns, c.joins);
}

fn blocked(set: Set, flipped: bool, c: &Counts, left: u32) {
    let input = if flipped { 0 } else { set & set.wrapping_neg() };
    say("different", input, input, c, left);
}

fn compare(s: &mut Sum) {
    let mut c = Counts { pins: 0, sums: 0, turns: 0, joins: 0 };
    for q in 0..s.n {
        let (set, flipped) = (s.wires[q].0 ^ 1 << q, s.wires[q].1);
        if s.live & set != 0 {
            let z = (s.live & set).trailing_zeros();
            let p = (set ^ 1 << z, flipped);
            s.replace_terms(z, p);
            s.replace_wires(z, p);
            merge(&mut s.terms);
            c.pins += 1;
        } else if set != 0 || flipped {
            return blocked(set, flipped, &c, s.live.count_ones());
        }
    }
    while s.live != 0 {
        let odd = s.terms.iter().filter(|t| t.1 % 2 == 1).fold(0, |m, t| m | t.0);
        let ready = s.live & !odd;
        if ready == 0 {
            return say("undecided", 0, 0, &c, s.live.count_ones());
        }
        let y = ready.trailing_zeros();
        let bit: Set = 1 << y;
        let (mut sum, mut l) = (0u32, 0);
        for t in s.terms.iter().filter(|t| t.0 & bit != 0) {
            sum += t.1 as u32;
            if t.1 / 2 % 2 == 1 {
                l ^= t.0 ^ bit;
            }
        }
        let k = sum / 2 % 4;
        if k % 2 == 1 {
            s.take_out(y);
            let (turn, coeff) = if k == 1 { (1, 6) } else { (7, 2) };
            s.constant = (s.constant + turn) % 8;
            s.terms.push((l, coeff));
            c.turns += 1;
        } else if k == 0 && l == 0 {
            s.take_out(y);
            c.sums += 1;
        } else {
            let held = s.live & !bit & l;
            if held == 0 {
                return blocked(l, k / 2 == 1, &c, s.live.count_ones());
            }
            let z = held.trailing_zeros();
            let p = (l ^ 1 << z, k / 2 == 1);
            s.take_out(y);
            s.replace_terms(z, p);
            s.replace_wires(z, p);
            c.joins += 1;
        }
        merge(&mut s.terms);
    }
    if c.pins != c.sums {
        return say("different", 0, 0, &c, 0);
    }
    let power = (8 - s.constant) % 8;
    match (s.search(), power) {
        (0, 0) => say("equal", 0, 0, &c, 0),
        (0, _) => say("turned", power as Set, 0, &c, 0),
        (x, _) => say("different", 0, x, &c, 0),
    }
}

fn main() {
    let mut input = Vec::new();
    std::io::stdin().read_to_end(&mut input).unwrap();
    let gates = |at: usize| 3 * (input[at + 3] as usize + 256 * input[at + 4] as usize);
    let (first, second) = (5, 5 + gates(0) + 5);
    let mut sum = Sum::new(input[2] as usize);
    for g in input[first..first + gates(0)].chunks_exact(3) {
        sum.gate(g[0], g[1] as usize, g[2] as usize);
    }
    for g in input[second..second + gates(second - 5)].chunks_exact(3).rev() {
        let kind = match g[0] {
            3 => 4,
            4 => 3,
            5 => 6,
            6 => 5,
            k => k,
        };
        sum.gate(kind, g[1] as usize, g[2] as usize);
    }
    merge(&mut sum.terms);
    compare(&mut sum);
}
