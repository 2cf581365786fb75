//! Local forms in plain Rust, without proofs: the same arithmetic in the same order as `local_form` of error_prop, with
//! the weights in a vector that is used again. bench/local_form.sh builds and runs it beside the proved one.

use std::env;
use std::hint::black_box;

const FORMS: u32 = 20_000_000;
const UNIT: u128 = 16384;

struct Seg {
    start: u32,
    a: i64,
    b: i64,
    c: i64,
    l: u128,
    d: u64,
    f: u64,
}

const SEGS: [Seg; 2] = [
    Seg {
        start: 0,
        a: 1_000_000,
        b: 1_000,
        c: 3,
        l: 123_456,
        d: 1_000,
        f: 10_000_000,
    },
    Seg {
        start: 0,
        a: 2_000_000,
        b: -700,
        c: 0,
        l: 654_321,
        d: 900,
        f: 9_000_000,
    },
];

#[allow(dead_code)]
enum Series {
    Base,
    Bare(i128),
    Plus(Box<Series>, Box<Series>),
    Minus(Box<Series>, Box<Series>),
    Times(Box<Series>, Box<Series>),
    Shift(Box<Series>, i64),
}

type Poly = [i128; 5];

#[derive(Clone, Copy)]
struct Head {
    rank: u32,
    poly: Poly,
    x: u128,
    f: u128,
}

fn names(t: &Series) -> usize {
    match t {
        Series::Base => 1,
        Series::Bare(_) => 0,
        Series::Plus(u, v) | Series::Minus(u, v) | Series::Times(u, v) => names(u) + names(v),
        Series::Shift(u, _) => names(u),
    }
}

fn lift(from: u32, to: u32) -> u128 {
    UNIT.pow(to.saturating_sub(from))
}

fn scaled(p: &Poly, by: u128) -> Poly {
    p.map(|c| by as i128 * c)
}

fn multiplied(p: &Poly, q: &Poly) -> Poly {
    let mut c = [0; 5];
    for i in 0..5 {
        for j in 0..5 - i {
            c[i + j] += p[i] * q[j];
        }
    }
    c
}

fn weigh(weights: &mut [u128], by: u128) {
    for w in weights {
        *w *= by;
    }
}

fn cost(weights: &[u128], segs: &[Seg]) -> u128 {
    weights.iter().zip(segs).map(|(w, s)| w * s.l).sum()
}

fn base(s: &Seg, from: i64) -> Head {
    let offset = i128::from(from - i64::from(s.start));
    let (a, b, c) = (i128::from(s.a), i128::from(s.b), i128::from(s.c));
    let steeper = b + offset * c;
    Head {
        rank: 1,
        poly: [a + offset * steeper, steeper + offset * c, c, 0, 0],
        x: u128::from(s.d),
        f: u128::from(s.f),
    }
}

fn sum(weights: &mut [u128], n: usize, u: Head, v: Head, sign: i128) -> Head {
    let (left, right) = (lift(u.rank, v.rank), lift(v.rank, u.rank));
    let (us, vs) = weights.split_at_mut(n);
    weigh(us, left);
    weigh(vs, right);
    let (p, q) = (scaled(&u.poly, left), scaled(&v.poly, right));
    let mut poly = p;
    for (c, d) in poly.iter_mut().zip(q) {
        *c += sign * d;
    }
    Head {
        rank: u.rank.max(v.rank),
        poly,
        x: u.x + v.x,
        f: left * u.f + right * v.f,
    }
}

fn product(weights: &mut [u128], n: usize, u: Head, v: Head, segs: &[Seg]) -> Head {
    let (us, vs) = weights.split_at_mut(n);
    let (most_u, most_v) = (u.x * UNIT.pow(u.rank), v.x * UNIT.pow(v.rank));
    let (cost_u, cost_v) = (cost(us, segs), cost(vs, &segs[n..]));
    let (by_u, by_v) = if cost_u * v.f + cost_v * most_u <= cost_u * most_v + cost_v * u.f {
        (v.f, most_u)
    } else {
        (most_v, u.f)
    };
    weigh(us, by_u);
    weigh(vs, by_v);
    Head {
        rank: u.rank + v.rank,
        poly: multiplied(&u.poly, &v.poly),
        x: u.x * v.x,
        f: u.f * v.f,
    }
}

fn head(weights: &mut [u128], t: &Series, segs: &[Seg], from: i64) -> Head {
    match t {
        Series::Base => {
            weights[0] = 1;
            base(&segs[0], from)
        }
        Series::Bare(v) => Head {
            rank: 0,
            poly: [*v, 0, 0, 0, 0],
            x: v.unsigned_abs(),
            f: v.unsigned_abs(),
        },
        Series::Plus(u, v) | Series::Minus(u, v) | Series::Times(u, v) => {
            let n = names(u);
            let a = head(&mut weights[..n], u, &segs[..n], from);
            let b = head(&mut weights[n..], v, &segs[n..], from);
            match t {
                Series::Plus(..) => sum(weights, n, a, b, 1),
                Series::Minus(..) => sum(weights, n, a, b, -1),
                _ => product(weights, n, a, b, segs),
            }
        }
        Series::Shift(u, k) => head(weights, u, segs, from - k),
    }
}

/// Works out the same form many times, and answers a sum of its numbers.
fn forms(t: &Series, segs: &[Seg], start: i64) -> u128 {
    let mut weights = Vec::new();
    let mut sum = 0u128;
    for _ in 0..FORMS {
        weights.clear();
        weights.resize(segs.len(), 0);
        let h = head(&mut weights, black_box(t), black_box(segs), black_box(start));
        sum = sum
            .wrapping_add(h.f)
            .wrapping_add(h.x)
            .wrapping_add(h.poly[2].unsigned_abs());
        for w in &weights {
            sum = sum.wrapping_add(*w);
        }
    }
    sum
}

fn main() {
    let (x, y) = (Box::new(Series::Base), Box::new(Series::Base));
    let start = 100 + (env::args().count() % 8) as i64;
    let sum = match env::args().nth(1).as_deref() {
        Some("product") => forms(&Series::Times(x, y), &SEGS, start),
        Some("sum") => forms(&Series::Plus(x, y), &SEGS, start),
        _ => forms(&x, &SEGS[..1], start),
    };
    println!("{sum}");
}
