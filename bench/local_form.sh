#!/bin/sh
# Times `local_form` beside the plain Rust of bench/local_form.rs: nanoseconds of processor time for each form of a
# product, a sum and a stored series, the least of three runs of 20 million, their ratio, and whether both programs got
# the same numbers. The proved program is a crate of its own over error_prop, which is proved and built in a copy of the
# repository.
# Usage: bench/local_form.sh     (rt and rustc have to be on the path)
set -eu
top=$(CDPATH= cd -- "$(dirname -- "$0")/.." && pwd)
folder=$(mktemp -d)
trap 'rm -rf "$folder"' EXIT
cd "$folder"
(cd "$top" && tar -cf - --exclude=out crates crates.txt HANDLES) | tar -xf -
echo 'form_speed: semantics num_text expr interval poly segment bounds error_prop' >> crates.txt
mkdir -p crates/form_speed/src crates/form_speed/specs crates/form_speed/proofs/products crates/form_speed/proofs/sums \
    crates/form_speed/proofs/bases
cd crates/form_speed

cat > src/main.rt <<'END'
//! How long local forms take.
#![tactic(auto)]

ghost use Rattle.std.specs.Prelude.{◌≡◌, ◌≤ℤ◌, IfOk, length, pos};
ghost use Rattle.semantics.specs.Measures.{names_in};
ghost use Rattle.semantics.specs.Term.{base, plus, times};
ghost use Rattle.expr.specs.Terms.{term_of};
ghost use Rattle.bounds.specs.Reads.{AreCovered};
ghost use Rattle.error_prop.specs.Limits.{IsSeriesWithinLimits};
ghost use Rattle.error_prop.specs.Locals.{IsInRangeOver};

use error_prop::local_form;
use expr::{Name, Series};
use num_text::Memory;
use segment::Seg;
use std::alloc::Global;
use std::env;
use std::io;

const FORMS: u32 = 20_000_000;

const SEGS: [Seg; 2] = [
    Seg {
        start: 0,
        len: 1024,
        a: 1000000,
        b: 1000,
        c: 3,
        l: 123456,
        d: 1000,
        f: 10000000,
    },
    Seg {
        start: 0,
        len: 1024,
        a: 2000000,
        b: -700,
        c: 0,
        l: 654321,
        d: 900,
        f: 9000000,
    },
];

fn product(alloc: Global, x: Name, y: Name) -> Result<Series, Memory>
    ensures { IfOk result (λ t. term_of t ≡ times (base x) (base y)) }
{
    Ok(Series::Times(
        Box::new(alloc, Series::Base(x))?,
        Box::new(alloc, Series::Base(y))?,
    ))
}

fn sum(alloc: Global, x: Name, y: Name) -> Result<Series, Memory>
    ensures { IfOk result (λ t. term_of t ≡ plus (base x) (base y)) }
{
    Ok(Series::Plus(
        Box::new(alloc, Series::Base(x))?,
        Box::new(alloc, Series::Base(y))?,
    ))
}

/// Works out the same form many times, and answers a sum of its numbers.
fn forms(alloc: Global, t: &Series, segs: &[Seg], start: i64) -> Result<u128, Memory>
    requires low { pos 100 ≤ℤ start }
    requires high { start ≤ℤ pos 200 }
    requires limits { IsSeriesWithinLimits (term_of t.now) }
    requires count { length segs.now ≡ names_in (term_of t.now) }
    requires covered { AreCovered (term_of t.now) segs.now start 500 }
    requires in_range { IsInRangeOver (term_of t.now) segs.now start }
{
    let mut sum = 0u128;
    for _ in 0..FORMS {
        let m = local_form(alloc, t, start, 500, segs)?;
        sum = sum.wrapping_add(m.f).wrapping_add(m.x);
        sum = sum.wrapping_add(m.poly.c[2].unsigned_abs());
        for w in m.weights.as_slice() {
            sum = sum.wrapping_add(*w);
        }
    }
    Ok(sum)
}

fn products(alloc: Global, x: Name, y: Name, start: i64) -> Result<u128, Memory>
    requires low { pos 100 ≤ℤ start }
    requires high { start ≤ℤ pos 200 }
{
    let t = product(alloc, x, y)?;
    forms(alloc, &t, &SEGS, start)
}

fn sums(alloc: Global, x: Name, y: Name, start: i64) -> Result<u128, Memory>
    requires low { pos 100 ≤ℤ start }
    requires high { start ≤ℤ pos 200 }
{
    let t = sum(alloc, x, y)?;
    forms(alloc, &t, &SEGS, start)
}

fn bases(alloc: Global, x: Name, start: i64) -> Result<u128, Memory>
    requires low { pos 100 ≤ℤ start }
    requires high { start ≤ℤ pos 200 }
{
    let t = Series::Base(x);
    forms(alloc, &t, &SEGS[..1], start)
}

fn main(rt: HostRuntime) -> io::Result<()> {
    let (Some(x), Some(y)) = (Name::of(b"x"), Name::of(b"y")) else {
        return Ok(());
    };
    let mut words = Vec::new(rt.alloc());
    for word in env::args(&rt)? {
        words.push(word)?;
    }
    // A number that no compiler knows.
    let start = 100 + (words.len() % 8) as i64;
    let sum = match words.get(1) {
        Some(word) if word.as_str() == "product" => products(rt.alloc(), x, y, start),
        Some(word) if word.as_str() == "sum" => sums(rt.alloc(), x, y, start),
        _ => bases(rt.alloc(), x, start),
    };
    let sum = sum.unwrap_or(0);
    println!(rt; "{sum}")
}
END

: > specs/Lib.antt
echo 'pub mod Fits' > proofs/Lib.antt
cat > proofs/Fits.antt <<'END'
use Rattle.std.proofs.Common.{◌≡◌, ℕ, ℤ, pos, negsuc, List, [], ◌∷◌, arith}
use Rattle.std.specs.Prelude.{◌≤ℤ◌}
use Rattle.std.proofs.lemmas.Int.{ints, to_z-of_z}
use mir.Val.{SFits, to_z, of_z}
use mir.Syntax.{w64}
use Rattle.semantics.specs.Term.{Term, base, plus, times}
use Rattle.segment.specs.declared.segments.Seg.{Seg}
use Rattle.segment.specs.Measure.{IsSane}
use Rattle.bounds.specs.Reads.{AreCovered}
use Rattle.error_prop.specs.Locals.{IsInRangeOver}

abbrev pub g : Seg
g = record { start = 0; len = 1024; a = pos 1000000; b = pos 1000; c = pos 3; l = 123456; d = 1000; f = 10000000 }

abbrev pub h : Seg
h = record { start = 0; len = 1024; a = pos 2000000; b = negsuc 699; c = pos 0; l = 654321; d = 900; f = 9000000 }

-- a number of 64 bits is read as it is
pub at : (s : ℤ) → SFits w64 s → to_z w64 (of_z w64 s) ≡ s
at s f = to_z-of_z w64 s f

sane_g : IsSane g 1000
sane_g = record {
  bounded = record { constant = omega arith; linear = omega arith; square = omega arith };
  below_root = omega arith; root = omega arith; estimates = omega arith; misses = omega arith;
}

sane_h : IsSane h 1000
sane_h = record {
  bounded = record { constant = omega arith; linear = omega arith; square = omega arith };
  below_root = omega arith; root = omega arith; estimates = omega arith; misses = omega arith;
}

pub record IsFit (t : Term) (gs : List Seg) (s : ℤ) : Type 0 where
  pub covered : AreCovered t gs s 500
  pub in_range : IsInRangeOver t gs s

pub base_fits : (x : List ℕ) (s : ℤ) → pos 100 ≤ℤ s → s ≤ℤ pos 200 → IsFit (base x) (g ∷ []) s
base_fits x s low high = record {
  covered = (omega (arith, ints), omega (arith, ints));
  in_range = record {
    greatest = λ name. 1000; n = 1024; some = omega arith; in_range = omega arith; sane = (sane_g, omega arith);
  };
}

pub product_fits : (x y : List ℕ) (s : ℤ) → pos 100 ≤ℤ s → s ≤ℤ pos 200 → IsFit (times (base x) (base y)) (g ∷ h ∷ []) s
product_fits x y s low high = record {
  covered = ((omega (arith, ints), omega (arith, ints)), (omega (arith, ints), omega (arith, ints)));
  in_range = record {
    greatest = λ name. 1000; n = 1024; some = omega arith; in_range = (omega arith, omega arith, omega arith);
    sane = ((sane_g, omega arith), (sane_h, omega arith));
  };
}

pub sum_fits : (x y : List ℕ) (s : ℤ) → pos 100 ≤ℤ s → s ≤ℤ pos 200 → IsFit (plus (base x) (base y)) (g ∷ h ∷ []) s
sum_fits x y s low high = record {
  covered = ((omega (arith, ints), omega (arith, ints)), (omega (arith, ints), omega (arith, ints)));
  in_range = record {
    greatest = λ name. 1000; n = 1024; some = omega arith; in_range = (omega arith, omega arith, omega arith);
    sane = ((sane_g, omega arith), (sane_h, omega arith));
  };
}
END

cat > proofs/bases/Answers.antt <<'END'
use Rattle.std.proofs.Common.{sym, subst, [], ◌∷◌}
use Rattle.semantics.specs.Term.{base}
use Rattle.bounds.specs.Reads.{AreCovered}
use Rattle.error_prop.specs.Locals.{IsInRangeOver}
use Rattle.form_speed.proofs.Fits.{at, g, base_fits}
use Rattle.form_speed.proofs.bases.Goals as goal

pub forms-requires-clause-covered : goal.forms-requires-clause-covered
forms-requires-clause-covered c = subst (λ s. AreCovered (base c.args.x) (g ∷ []) s 500) (sym (at c.args.start c.ranges.start)) (base_fits c.args.x c.args.start c.requires.low c.requires.high).covered

pub forms-requires-clause-in_range : goal.forms-requires-clause-in_range
forms-requires-clause-in_range c = subst (λ s. IsInRangeOver (base c.args.x) (g ∷ []) s) (sym (at c.args.start c.ranges.start)) (base_fits c.args.x c.args.start c.requires.low c.requires.high).in_range
END

# The answers of a function by the law that its series fits.
answers() {
    cat > "proofs/$1/Answers.antt" <<END
use Rattle.std.proofs.Common.{sym, subst, [], ◌∷◌}
use Rattle.expr.specs.Terms.{term_of}
use Rattle.bounds.specs.Reads.{AreCovered}
use Rattle.error_prop.specs.Locals.{IsInRangeOver}
use Rattle.form_speed.proofs.Fits.{at, g, h, $2}
use Rattle.form_speed.proofs.$1.Goals as goal

pub forms-requires-clause-covered : goal.forms-requires-clause-covered
forms-requires-clause-covered c =
    subst (λ s. AreCovered (term_of c.in_ok-t.t) (g ∷ h ∷ []) s 500) (sym (at c.args.start c.ranges.start))
    (subst (λ t. AreCovered t (g ∷ h ∷ []) c.args.start 500) (sym c.in_ok-t.ensures)
    ($2 c.args.x c.args.y c.args.start c.requires.low c.requires.high).covered)

pub forms-requires-clause-in_range : goal.forms-requires-clause-in_range
forms-requires-clause-in_range c =
    subst (λ s. IsInRangeOver (term_of c.in_ok-t.t) (g ∷ h ∷ []) s) (sym (at c.args.start c.ranges.start))
    (subst (λ t. IsInRangeOver t (g ∷ h ∷ []) c.args.start) (sym c.in_ok-t.ensures)
    ($2 c.args.x c.args.y c.args.start c.requires.low c.requires.high).in_range)
END
}
answers products product_fits
answers sums sum_fits

rt run > built 2>&1 || true
[ -x out/form_speed ] || { tail -n 40 built >&2; exit 1; }
rustc -O -o plain "$top/bench/local_form.rs"

# The least processor time of a program over three runs, in nanoseconds a form, and what it printed.
measured() {
    for turn in 1 2 3; do
        /usr/bin/time -q -f '%U' -a -o times "$@" > line
    done
    sort -n times | awk -v sum="$(cat line)" 'NR == 1 { printf "%.1f %s ", $1 * 50, sum }'
    rm -f times
}

for name in product sum base; do
    { measured ./out/form_speed "$name"; measured ./plain "$name"; } | awk -v name="$name" '{
        printf "%-8s %6.1f ns %6.1f ns  ratio %4.1f  %s\n", name, $1, $3, $1 / $3, ($2 == $4 ? "same" : "DIFFERENT")
    }'
done
