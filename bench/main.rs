// Times the check (a static library, proved) beside the hand-written checker of baseline.rs, on the same programs and
// rules, and holds every word of their sheets against each other. See docs/BENCHMARKS.md.
mod baseline;
use baseline::{Line, Program};
use std::time::{Duration, Instant};

// A slice crosses as a pointer and a length; the allocator takes no bytes.
extern "C" {
    fn burn_check(
        marks: *const u16, marks_len: usize, moves: *const u16, moves_len: usize,
        text: *const u8, text_len: usize, times: u32, sheet: *mut u32, sheet_len: usize,
    ) -> usize;
}

struct Random(u64);

impl Random {
    fn below(&mut self, n: usize) -> usize {
        self.0 ^= self.0 << 13;
        self.0 ^= self.0 >> 7;
        self.0 ^= self.0 << 17;
        (self.0 % n as u64) as usize
    }
}

/// A rule of 32 lines with 15 untils of all four kinds, each the right part of the one before: its text and its lines.
fn rule(r: &mut Random, scale: u32) -> (String, Vec<Line>) {
    let kinds = [(false, true), (true, false), (false, false), (true, true)];
    let mut chosen = Vec::new();
    for i in 0..15 {
        let (all, most) = kinds[i % 4];
        let left = if r.below(3) == 0 { 16 } else { r.below(4) as u8 };
        chosen.push((all, left, most, (r.below(40) as u32) * scale));
    }
    let last = r.below(4) as u8;
    let mut text = String::from("!");
    let mut lines = Vec::new();
    let leaf = |a: u8| if a == 16 { Line::One } else { Line::Letter(a) };
    for &(all, left, most, c) in &chosen {
        let l = if left == 16 { '1' } else { (b'a' + left) as char };
        text += &format!("{}[{} U{}{} ", if all { 'A' } else { 'E' }, l, if most { "<=" } else { ">=" }, c);
        lines.push(leaf(left));
    }
    text.push((b'a' + last) as char);
    text += &"]".repeat(15);
    lines.push(leaf(last));
    for (i, &(all, _, most, c)) in chosen.iter().enumerate().rev() {
        let right = lines.len() - 1;
        lines.push(Line::Until(all, i, most, c, right));
    }
    lines.push(Line::Not(lines.len() - 1));
    (text, lines)
}

fn program(kind: &str, r: &mut Random, n: usize, m: usize, minutes: usize) -> Program {
    let marks = (0..n).map(|_| { let mut x = 0; for a in 0..4 { if r.below(10) < 7 { x |= 1 << a } } x }).collect();
    let d = |r: &mut Random| 1 + r.below(minutes) as u16;
    let mut moves: Vec<(u16, u16, u16)> = Vec::new();
    match kind {
        "random" => {
            for s in 0..n { let t = r.below(n) as u16; let x = d(r); moves.push((s as u16, x, t)) }
            while moves.len() < m { let (s, t) = (r.below(n) as u16, r.below(n) as u16); let x = d(r); moves.push((s, x, t)) }
        }
        "ring" => for s in 0..n { let x = d(r); moves.push((s as u16, x, ((s + 1) % n) as u16)) },
        "ring, 4 moves a stage" => for s in 0..n { for k in 1..5 { let x = d(r); moves.push((s as u16, x, ((s + k) % n) as u16)) } },
        "chain" | "chain, listed backwards" => {
            for s in 0..n { let x = d(r); moves.push((s as u16, x, (s + 1).min(n - 1) as u16)) }
            if kind != "chain" { moves.reverse() }
        }
        "chain, shuffled" => {
            let mut at: Vec<u16> = (0..n as u16).collect();
            for i in (1..n).rev() { at.swap(i, r.below(i + 1)) }
            for s in 0..n { let x = d(r); moves.push((at[s], x, at[(s + 1).min(n - 1)])) }
        }
        "ladder, long before short" => {
            // each stage leads to the next four, the farthest first: ways of every length to each stage
            for s in 0..n { for k in (1..5).rev() { moves.push((s as u16, (k * k) as u16, (s + k).min(n - 1) as u16)) } }
        }
        _ => unreachable!(),
    }
    moves.truncate(m);
    Program { marks, moves }
}

fn timed<T>(times: u32, mut f: impl FnMut() -> T) -> (Duration, T) {
    let start = Instant::now();
    let mut last = f();
    for _ in 1..times { last = f() }
    (start.elapsed() / times, last)
}

fn main() {
    let mut r = Random(88172645463325252);
    let quick = std::env::args().any(|a| a == "--quick");
    println!("{:28} {:>8} {:>10} {:>10} {:>6}", "program (1,024 stages)", "moves", "proved", "baseline", "ratio");
    for kind in ["random", "ring", "ring, 4 moves a stage", "chain", "chain, listed backwards", "chain, shuffled", "ladder, long before short"] {
        for minutes in [60usize, 10080] {
            let (mut ours, mut theirs) = (Duration::ZERO, Duration::ZERO);
            let rounds = if quick { 1 } else { 5 };
            let mut moves = 0;
            for _ in 0..rounds {
                let p = program(kind, &mut r, 1024, 4096, minutes);
                moves = p.moves.len();
                let (text, lines) = rule(&mut r, minutes as u32);
                let flat: Vec<u16> = p.moves.iter().flat_map(|m| [m.0, m.1, m.2]).collect();
                let mut sheet = vec![0u32; 1024];
                let mut call = |times: u32| unsafe {
                    burn_check(p.marks.as_ptr(), p.marks.len(), flat.as_ptr(), flat.len(), text.as_ptr(), text.len(), times, sheet.as_mut_ptr(), sheet.len())
                };
                let times = if quick { 2 } else { 20 };
                // laying the program is taken off
                let (laid, _) = timed(1, || call(0));
                let (all, n) = timed(1, || call(times));
                assert_eq!(n, 32, "{text}");
                ours += all.saturating_sub(laid) / times;
                let (t, words) = timed(times, || baseline::check(&p, &lines));
                theirs += t;
                assert_eq!(sheet, words, "{kind} {text}");
            }
            let (a, b) = (ours / rounds, theirs / rounds);
            println!("{:28} {:>8} {:>10} {:>10} {:>6.2}", format!("{kind}, to {minutes} min"), moves,
                format!("{:.2} ms", a.as_secs_f64() * 1e3), format!("{:.2} ms", b.as_secs_f64() * 1e3), a.as_secs_f64() / b.as_secs_f64());
        }
    }
    let mut agreed = 0;
    for i in 0..2000 {
        let n = 1 + r.below(12);
        let m = n + r.below(3 * n);
        let p = program("random", &mut r, n, m, 1 + i % 50);
        let (text, lines) = rule(&mut r, 1 + (i % 50) as u32);
        let flat: Vec<u16> = p.moves.iter().flat_map(|m| [m.0, m.1, m.2]).collect();
        let mut sheet = vec![0u32; n];
        let k = unsafe { burn_check(p.marks.as_ptr(), n, flat.as_ptr(), flat.len(), text.as_ptr(), text.len(), 1, sheet.as_mut_ptr(), n) };
        assert_eq!(k, 32);
        assert_eq!(sheet, baseline::check(&p, &lines), "{text}");
        agreed += 1;
    }
    println!("{agreed} small random programs: all words agree");
}
