//! `--as-specified`: a plain model of a tool that keeps to the data structures which the literature names: one
//! saturation for each opening (with `--no-share` for each query), a list of jobs with copied weights for each taken transition, ordered maps, one
//! middle state for each push rule, the witness graph always. It shows how much of a ratio comes from these
//! choices alone, when the code is compiled as well as the baseline.

use crate::model::*;
use crate::semiring::Semi;
use crate::table::Rows;
use crate::text::{Pattern, Set};
use std::collections::{BTreeMap, BTreeSet, VecDeque};

const EPS: u32 = u32::MAX;

struct Entry<W> {
    from: u32,
    label: u32,
    to: u32,
    w: W,
    node: u32,
}

struct Transitions<W> {
    list: Vec<Entry<W>>,
    map: BTreeMap<(u32, u32, u32), u32>,
    from: BTreeMap<(u32, u32), Vec<u32>>,
    into: BTreeMap<u32, Vec<u32>>,
}

struct Input<W> {
    at: u32,
    w: W,
    node: u32,
}

struct Job<W> {
    kind: u8,
    rule: u32,
    frame: u32,
    first: Option<Input<W>>,
    second: Option<Input<W>>,
    goal: (u32, u32, u32),
}

pub struct Tool<'m, S: Semi> {
    m: &'m Model<S>,
    pre: bool,
    t: Transitions<S::W>,
    queue: VecDeque<u32>,
    queued: Vec<bool>,
    graph: Vec<[u32; 4]>,
    items: u32,
    /// By push rule its number among them, and the other way round.
    push_number: Vec<u32>,
    pushes: Vec<u32>,
    with_second: Rows,
    pub stats: Stats,
}

fn edges(p: &Pattern, symbols: u32) -> Vec<(u32, u32, u32)> {
    let mut v = Vec::new();
    let n = p.items.len();
    for i in 0..=n {
        let mut put = |j: usize| match &p.items[j - 1].0 {
            Set::All => (0..symbols).for_each(|x| v.push((i as u32, x, j as u32))),
            Set::One(x) => v.push((i as u32, *x, j as u32)),
            Set::Many(l) => l.iter().for_each(|&x| v.push((i as u32, x, j as u32))),
        };
        if i > 0 && p.items[i - 1].1 {
            put(i);
        }
        for j in i + 1..=n {
            put(j);
            if !p.items[j - 1].1 {
                break;
            }
        }
    }
    v
}

fn is_final(p: &Pattern, i: usize) -> bool {
    p.items[i..].iter().all(|x| x.1)
}

impl<'m, S: Semi> Tool<'m, S> {
    pub fn new(m: &'m Model<S>, pre: bool) -> Self {
        let mut push_number = vec![NONE; m.rules.len()];
        let mut pushes = Vec::new();
        for (k, r) in m.rules.iter().enumerate() {
            if r.len == 2 {
                push_number[k] = pushes.len() as u32;
                pushes.push(k as u32);
            }
        }
        let with_second = Rows::build(pushes.iter().map(|&k| (m.rules[k as usize].right[1] as u64, k)));
        Tool {
            m,
            pre,
            t: Transitions { list: Vec::new(), map: BTreeMap::new(), from: BTreeMap::new(), into: BTreeMap::new() },
            queue: VecDeque::new(),
            queued: Vec::new(),
            graph: vec![[NONE; 4]],
            items: 0,
            push_number,
            pushes,
            with_second,
            stats: Stats::default(),
        }
    }

    fn lower(&mut self, s: &mut S, place: (u32, u32, u32), w: &S::W, node: [u32; 4], start: bool) {
        if s.is_zero(w) {
            return;
        }
        if let Some(&k) = self.t.map.get(&place) {
            let e = &mut self.t.list[k as usize];
            let mut next = e.w.clone();
            if s.join(&mut next, w) {
                self.graph.push([e.node, node[1], node[2], node[3]]);
                e.w = next;
                e.node = self.graph.len() as u32 - 1;
                self.stats.lowerings += 1;
                if !self.queued[k as usize] {
                    self.queued[k as usize] = true;
                    self.queue.push_back(k);
                }
            }
            return;
        }
        let k = self.t.list.len() as u32;
        let nd = if start {
            0
        } else {
            self.graph.push([NONE, node[1], node[2], node[3]]);
            self.graph.len() as u32 - 1
        };
        self.t.list.push(Entry { from: place.0, label: place.1, to: place.2, w: w.clone(), node: nd });
        self.t.map.insert(place, k);
        self.t.from.entry((place.0, place.1)).or_default().push(k);
        self.t.into.entry(place.2).or_default().push(k);
        self.queued.push(true);
        self.queue.push_back(k);
        self.stats.lowerings += 1;
    }

    fn input(&self, k: u32) -> Option<Input<S::W>> {
        let e = &self.t.list[k as usize];
        Some(Input { at: k, w: e.w.clone(), node: e.node })
    }

    fn state(&self, item: u32, control: u32) -> u32 {
        if item == 0 { control } else { self.m.controls + item - 1 }
    }

    fn middle(&self, rule: u32) -> u32 {
        self.m.controls + self.items + self.push_number[rule as usize]
    }

    fn jobs(&self, k: u32) -> Vec<Job<S::W>> {
        let m = self.m;
        let mut v = Vec::new();
        let e = &self.t.list[k as usize];
        let c = m.controls;
        let none: Vec<u32> = Vec::new();
        if self.pre {
            if e.from < c {
                let key = crate::table::pair(e.from, e.label);
                let (a, b) = m.by_step.range(key);
                for i in a..b {
                    let r = m.by_step.item(i);
                    let ru = &m.rules[r as usize];
                    v.push(Job { kind: 0, rule: r, frame: NONE, first: self.input(k), second: None, goal: (ru.p, ru.g, e.to) });
                }
                let (a, b) = m.by_first.range(key);
                for i in a..b {
                    let r = m.by_first.item(i);
                    let ru = &m.rules[r as usize];
                    for &t2 in self.t.from.get(&(e.to, ru.right[1])).unwrap_or(&none) {
                        v.push(Job { kind: if e.to < c { 1 } else { 2 }, rule: r, frame: NONE, first: self.input(k), second: self.input(t2), goal: (ru.p, ru.g, self.t.list[t2 as usize].to) });
                    }
                }
            }
            let (a, b) = self.with_second.range(e.label as u64);
            for i in a..b {
                let r = self.with_second.item(i);
                let ru = &m.rules[r as usize];
                if let Some(&t1) = self.t.map.get(&(ru.to, ru.right[0], e.from)) {
                    if t1 != k {
                        v.push(Job { kind: if e.from < c { 1 } else { 2 }, rule: r, frame: NONE, first: self.input(t1), second: self.input(k), goal: (ru.p, ru.g, e.to) });
                    }
                }
            }
        } else if e.label == EPS {
            let mut glue = |t2: u32| v.push(Job { kind: 8, rule: NONE, frame: NONE, first: self.input(t2), second: self.input(k), goal: (e.from, self.t.list[t2 as usize].label, self.t.list[t2 as usize].to) });
            if e.to >= c + self.items {
                let r = self.pushes[(e.to - c - self.items) as usize];
                for &t2 in self.t.from.get(&(e.to, m.rules[r as usize].right[1])).unwrap_or(&none) {
                    glue(t2);
                }
            } else {
                for (_, &t2) in self.t.map.range((e.to, 0, 0)..(e.to + 1, 0, 0)) {
                    glue(t2);
                }
            }
        } else if e.from < c {
            let (a, b) = m.by_head.range(crate::table::pair(e.from, e.label));
            for i in a..b {
                let r = m.by_head.item(i);
                let ru = &m.rules[r as usize];
                match ru.len {
                    0 => {
                        let frame = if e.to >= c + self.items { self.pushes[(e.to - c - self.items) as usize] } else { NONE };
                        v.push(Job { kind: if frame == NONE { 5 } else { 4 }, rule: r, frame, first: self.input(k), second: None, goal: (ru.to, EPS, e.to) });
                    }
                    1 => v.push(Job { kind: 3, rule: r, frame: NONE, first: self.input(k), second: None, goal: (ru.to, ru.right[0], e.to) }),
                    _ => {
                        let mid = self.middle(r);
                        v.push(Job { kind: 6, rule: r, frame: NONE, first: self.input(k), second: None, goal: (ru.to, ru.right[0], mid) });
                        v.push(Job { kind: 7, rule: r, frame: NONE, first: self.input(k), second: None, goal: (mid, ru.right[1], e.to) });
                    }
                }
            }
        } else {
            let row = self.t.into.get(&e.from).unwrap_or(&none);
            let mut glue = |t1: u32| v.push(Job { kind: 8, rule: NONE, frame: NONE, first: self.input(k), second: self.input(t1), goal: (self.t.list[t1 as usize].from, e.label, e.to) });
            if row.len() > c as usize {
                for p in 0..c {
                    if let Some(&t1) = self.t.map.get(&(p, EPS, e.from)) {
                        glue(t1);
                    }
                }
            } else {
                for &t1 in row {
                    if self.t.list[t1 as usize].label == EPS {
                        glue(t1);
                    }
                }
            }
        }
        let partner = |j: &Job<S::W>| j.second.as_ref().map_or(0, |x| if x.at == k { j.first.as_ref().unwrap().at } else { x.at });
        v.sort_by_key(|j| (j.kind, j.rule, partner(j)));
        v
    }

    fn candidate(&mut self, s: &mut S, j: &Job<S::W>) -> S::W {
        let m = self.m;
        self.stats.extends += 1;
        let f = if j.rule == NONE { None } else { Some(&m.rules[j.rule as usize]) };
        let first = j.first.as_ref().unwrap();
        match j.kind {
            0 => s.extend(&f.unwrap().w, &first.w),
            1 | 2 => {
                let ru = f.unwrap();
                let mut x = s.extend(&ru.w, &first.w);
                if j.kind == 1 && ru.map != NONE {
                    x = s.after(&m.maps[ru.map as usize], &x);
                }
                s.extend(&x, &j.second.as_ref().unwrap().w)
            }
            3 | 5 => s.extend(&first.w, &f.unwrap().w),
            4 => {
                let x = s.extend(&first.w, &f.unwrap().w);
                let fr = &m.rules[j.frame as usize];
                if fr.map != NONE { s.after(&m.maps[fr.map as usize], &x) } else { x }
            }
            6 => f.unwrap().w.clone(),
            7 => first.w.clone(),
            _ => s.extend(&first.w, &j.second.as_ref().unwrap().w),
        }
    }

    pub fn saturate(&mut self, s: &mut S, opening: &Pattern) {
        let m = self.m;
        self.stats.saturations += 1;
        self.items = opening.items.len() as u32;
        let one = s.one();
        for (i, x, j) in edges(opening, m.symbols) {
            let place = (self.state(i, opening.control), x, self.state(j, 0));
            self.lower(s, place, &one, [NONE; 4], true);
        }
        if self.pre {
            for (k, r) in m.rules.iter().enumerate() {
                if r.len == 0 {
                    self.lower(s, (r.p, r.g, r.to), &r.w, [NONE, k as u32, NONE, NONE], false);
                }
            }
        }
        while let Some(k) = self.queue.pop_front() {
            self.stats.takes += 1;
            self.queued[k as usize] = false;
            let jobs = self.jobs(k);
            let mut done = Vec::with_capacity(jobs.len());
            for j in &jobs {
                done.push(self.candidate(s, j));
            }
            for (j, w) in jobs.iter().zip(&done) {
                let node = |x: &Option<Input<S::W>>| x.as_ref().map_or(NONE, |x| x.node);
                let nd = if j.kind == 6 { [NONE, j.rule, NONE, NONE] } else { [NONE, j.rule, node(&j.first), node(&j.second)] };
                self.lower(s, j.goal, w, nd, false);
            }
        }
        self.stats.transitions += self.t.list.len() as u64;
    }

    pub fn answer(&mut self, s: &mut S, q: usize) -> Option<(S::W, u32)> {
        let m = self.m;
        let (from, to) = &m.queries[q];
        let (opening, other) = if self.pre { (to, from) } else { (from, to) };
        let mut graph = self.graph.clone();
        let mut by: BTreeMap<(u32, u32), Vec<u32>> = BTreeMap::new();
        let mut reads: BTreeMap<u32, BTreeSet<u32>> = BTreeMap::new();
        for (i, x, j) in edges(other, m.symbols) {
            by.entry((i, x)).or_default().push(j);
            reads.entry(i).or_default().insert(x);
        }
        let fin = |st: u32| {
            if st == opening.control {
                is_final(opening, 0)
            } else {
                st >= m.controls && st < m.controls + self.items && is_final(opening, (st - m.controls) as usize + 1)
            }
        };
        let mut pairs: BTreeMap<(u32, u32), (S::W, u32, bool)> = BTreeMap::new();
        let mut queue = VecDeque::new();
        pairs.insert((0, other.control), (s.one(), 0, true));
        queue.push_back((0u32, other.control));
        let put = |s: &mut S, pairs: &mut BTreeMap<(u32, u32), (S::W, u32, bool)>, queue: &mut VecDeque<(u32, u32)>, graph: &mut Vec<[u32; 4]>, at: (u32, u32), w: S::W, a: u32, b: u32| {
            if s.is_zero(&w) {
                return;
            }
            match pairs.get_mut(&at) {
                None => {
                    graph.push([NONE, NONE, a, b]);
                    pairs.insert(at, (w, graph.len() as u32 - 1, true));
                    queue.push_back(at);
                }
                Some(p) => {
                    if s.join(&mut p.0, &w) {
                        graph.push([p.1, NONE, a, b]);
                        p.1 = graph.len() as u32 - 1;
                        if !p.2 {
                            p.2 = true;
                            queue.push_back(at);
                        }
                    }
                }
            }
        };
        let mut extends = 0;
        if !self.pre {
            for &k in self.t.from.get(&(other.control, EPS)).unwrap_or(&Vec::new()) {
                let e = &self.t.list[k as usize];
                // Pairs reached by the empty word first.
                put(s, &mut pairs, &mut queue, &mut graph, (0, e.to), e.w.clone(), e.node, NONE);
            }
        }
        while let Some((i, st)) = queue.pop_front() {
            self.stats.pairs += 1;
            let p = pairs.get_mut(&(i, st)).unwrap();
            p.2 = false;
            let (v, node) = (p.0.clone(), p.1);
            let Some(set) = reads.get(&i) else { continue };
            let mut step = |s: &mut S, k: u32| {
                let e = &self.t.list[k as usize];
                if e.label == EPS {
                    return;
                }
                for &j in by.get(&(i, e.label)).map_or(&[][..], |l| l) {
                    extends += 1;
                    let (w, a, b) = if self.pre { (s.extend(&v, &e.w), node, e.node) } else { (s.extend(&e.w, &v), e.node, node) };
                    put(s, &mut pairs, &mut queue, &mut graph, (j, e.to), w, a, b);
                }
            };
            if set.len() <= 4 {
                for &x in set {
                    for &k in self.t.from.get(&(st, x)).map_or(&[][..], |l| l) {
                        step(s, k);
                    }
                }
            } else {
                for (_, &k) in self.t.map.range((st, 0, 0)..(st + 1, 0, 0)) {
                    step(s, k);
                }
            }
        }
        self.stats.extends += extends;
        let mut answer: Option<(S::W, u32)> = None;
        for (&(i, st), (w, node, _)) in &pairs {
            if is_final(other, i as usize) && fin(st) {
                match &mut answer {
                    None => answer = Some((w.clone(), *node)),
                    Some(a) => {
                        if s.join(&mut a.0, w) {
                            a.1 = *node;
                        }
                    }
                }
            }
        }
        self.stats.witness_nodes = graph.len() as u64;
        answer
    }
}
