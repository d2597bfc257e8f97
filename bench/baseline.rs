// A hand-written checker, as one would write it in Rust without proofs: Dijkstra for the shortest ways, removal by counts
// for the stages that one can stay in for ever, a depth-first order for the longest ways. It is the measure for speed, and
// a third opinion on every answer.
use std::cmp::Reverse;
use std::collections::BinaryHeap;

#[derive(Clone, Copy)]
pub enum Line {
    One,
    Letter(u8),
    Not(usize),
    And(usize, usize),
    Or(usize, usize),
    /// every run?, left, at most?, number, right
    Until(bool, usize, bool, u32, usize),
}

pub struct Program {
    pub marks: Vec<u16>,
    pub moves: Vec<(u16, u16, u16)>,
}

/// Moves by one of their ends: `at[s]..at[s + 1]` in `to`, with the other end and the minutes.
struct Side {
    at: Vec<usize>,
    to: Vec<(usize, u32)>,
}

fn side(n: usize, moves: &[(u16, u16, u16)], forward: bool) -> Side {
    let mut at = vec![0; n + 1];
    for m in moves {
        at[if forward { m.0 } else { m.2 } as usize + 1] += 1;
    }
    for s in 0..n {
        at[s + 1] += at[s];
    }
    let mut next = at.clone();
    let mut to = vec![(0, 0); moves.len()];
    for m in moves {
        let (s, t) = if forward { (m.0, m.2) } else { (m.2, m.0) };
        to[next[s as usize]] = (t as usize, m.1 as u32);
        next[s as usize] += 1;
    }
    Side { at, to }
}

struct Graph {
    n: usize,
    out: Side,
    back: Side,
}

impl Graph {
    fn out(&self, s: usize) -> &[(usize, u32)] {
        &self.out.to[self.out.at[s]..self.out.at[s + 1]]
    }

    fn back(&self, s: usize) -> &[(usize, u32)] {
        &self.back.to[self.back.at[s]..self.back.at[s + 1]]
    }

    /// The stages from which a goal is reached through `pass`.
    fn reach(&self, pass: &[bool], goals: &[bool]) -> Vec<bool> {
        let mut seen = goals.to_vec();
        let mut todo: Vec<usize> = (0..self.n).filter(|&s| goals[s]).collect();
        while let Some(t) = todo.pop() {
            for &(s, _) in self.back(t) {
                if pass[s] && !seen[s] {
                    seen[s] = true;
                    todo.push(s);
                }
            }
        }
        seen
    }

    fn shortest(&self, pass: &[bool], goals: &[bool]) -> Vec<u64> {
        let mut best = vec![u64::MAX; self.n];
        let mut heap = BinaryHeap::new();
        for s in 0..self.n {
            if goals[s] {
                best[s] = 0;
                heap.push(Reverse((0u64, s)));
            }
        }
        while let Some(Reverse((d, t))) = heap.pop() {
            if d > best[t] {
                continue;
            }
            for &(s, m) in self.back(t) {
                let way = d + m as u64;
                if pass[s] && way < best[s] {
                    best[s] = way;
                    heap.push(Reverse((way, s)));
                }
            }
        }
        best
    }

    /// The greatest part of the set in which each stage has a move into the part.
    fn endless(&self, set: &[bool]) -> Vec<bool> {
        let mut part = set.to_vec();
        let mut count = vec![0usize; self.n];
        let mut todo = Vec::new();
        for s in 0..self.n {
            if part[s] {
                count[s] = self.out(s).iter().filter(|m| set[m.0]).count();
                if count[s] == 0 {
                    todo.push(s);
                }
            }
        }
        for &s in &todo {
            part[s] = false;
        }
        while let Some(t) = todo.pop() {
            for &(s, _) in self.back(t) {
                if part[s] {
                    count[s] -= 1;
                    if count[s] == 0 {
                        part[s] = false;
                        todo.push(s);
                    }
                }
            }
        }
        part
    }

    /// The longest ways to a goal through `pass`, in which no cycle leads to a goal; -1 where there is none.
    fn longest(&self, pass: &[bool], goals: &[bool]) -> Vec<i64> {
        let reach = self.reach(pass, goals);
        let mut best = vec![-1i64; self.n];
        let mut state = vec![0u8; self.n];
        let mut stack = Vec::new();
        for root in 0..self.n {
            if !reach[root] || state[root] != 0 {
                continue;
            }
            stack.push((root, 0usize));
            state[root] = 1;
            if goals[root] {
                best[root] = 0;
            }
            while let Some(&mut (s, ref mut i)) = stack.last_mut() {
                let moves = if pass[s] { self.out(s) } else { &[] };
                if *i == moves.len() {
                    state[s] = 2;
                    stack.pop();
                    continue;
                }
                let (t, m) = moves[*i];
                if !reach[t] {
                    *i += 1;
                } else if state[t] == 2 {
                    *i += 1;
                    if best[t] >= 0 {
                        best[s] = best[s].max(best[t] + m as i64);
                    }
                } else if state[t] == 0 {
                    state[t] = 1;
                    if goals[t] {
                        best[t] = 0;
                    }
                    stack.push((t, 0));
                } else {
                    *i += 1;
                }
            }
        }
        best
    }
}

fn until(g: &Graph, all: bool, f: &[bool], most: bool, c: u32, h: &[bool]) -> Vec<bool> {
    let n = g.n;
    if !all {
        if most {
            let d = g.shortest(f, h);
            return (0..n).map(|s| d[s] <= c as u64).collect();
        }
        let r = g.reach(f, h);
        let both: Vec<bool> = (0..n).map(|s| f[s] && r[s]).collect();
        let x = g.endless(&both);
        let rest: Vec<bool> = (0..n).map(|s| f[s] && !x[s]).collect();
        let d = g.longest(&rest, h);
        return (0..n).map(|s| x[s] || d[s] >= c as i64).collect();
    }
    let no: Vec<bool> = h.iter().map(|x| !x).collect();
    let bad: Vec<bool> = (0..n).map(|s| !f[s] && !h[s]).collect();
    let r = g.reach(&no, &bad);
    let x = g.endless(&no);
    if most {
        let rest: Vec<bool> = (0..n).map(|s| no[s] && !x[s]).collect();
        let d = g.longest(&rest, &vec![true; n]);
        return (0..n).map(|s| !(r[s] || x[s] || d[s] > c as i64)).collect();
    }
    let v: Vec<bool> = (0..n).map(|s| r[s] || x[s]).collect();
    if c == 0 {
        return v.iter().map(|x| !x).collect();
    }
    let goals: Vec<bool> = (0..n).map(|s| !f[s] || g.out(s).iter().any(|m| v[m.0])).collect();
    let d = g.shortest(f, &goals);
    (0..n).map(|s| !(v[s] || d[s] < c as u64)).collect()
}

pub fn check(p: &Program, lines: &[Line]) -> Vec<u32> {
    let n = p.marks.len();
    let g = Graph { n, out: side(n, &p.moves, true), back: side(n, &p.moves, false) };
    let mut rows: Vec<Vec<bool>> = Vec::new();
    for line in lines {
        let row = match *line {
            Line::One => vec![true; n],
            Line::Letter(a) => p.marks.iter().map(|m| m >> a & 1 == 1).collect(),
            Line::Not(i) => rows[i].iter().map(|x| !x).collect(),
            Line::And(i, j) => (0..n).map(|s| rows[i][s] && rows[j][s]).collect(),
            Line::Or(i, j) => (0..n).map(|s| rows[i][s] || rows[j][s]).collect(),
            Line::Until(all, i, most, c, j) => until(&g, all, &rows[i], most, c, &rows[j]),
        };
        rows.push(row);
    }
    (0..n).map(|s| rows.iter().enumerate().map(|(k, r)| (r[s] as u32) << k).sum()).collect()
}
