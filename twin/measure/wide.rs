// The proved functions of `wide` beside Rust's own, on the same seeded inputs:
// first that all results are equal, then the time of both. The proved ones come
// from the crate `bench_wide`, which twin/bench-wide builds and links.
// usage: wide [COUNT [SEED]]

use std::fmt::Debug;
use std::hint::black_box;
use std::process::ExitCode;
use std::time::Instant;

const TRILLION: u64 = 1_000_000_000_000;
const ROUNDS: usize = 15;
/// The inputs of one turn, about a tenth of a millisecond: on a busy machine
/// too, most turns end before another process gets the processor.
const TURN: usize = 10_000;

type Ratio = (u64, u64, u64);
type Product = (u64, u64);

#[link(name = "bench_wide", kind = "static")]
extern "C" {
    fn wide_mul_div_down(a: u64, b: u64, c: u64) -> u64;
    fn wide_mul_div_up(a: u64, b: u64, c: u64) -> u64;
    fn wide_mul_div_down_trillion(a: u64, b: u64) -> u64;
    fn wide_mul_div_up_trillion(a: u64, b: u64) -> u64;
    fn wide_root(x: u64) -> u64;
}

fn product(a: u64, b: u64) -> u128 {
    u128::from(a) * u128::from(b)
}

// Rust's side. C's convention and no inlining, so that a call costs what one of
// the proved side costs.

#[inline(never)]
extern "C" fn rust_mul_div_down(a: u64, b: u64, c: u64) -> u64 {
    (product(a, b) / u128::from(c)) as u64
}

#[inline(never)]
extern "C" fn rust_mul_div_up(a: u64, b: u64, c: u64) -> u64 {
    product(a, b).div_ceil(u128::from(c)) as u64
}

#[inline(never)]
extern "C" fn rust_mul_div_down_trillion(a: u64, b: u64) -> u64 {
    (product(a, b) / u128::from(TRILLION)) as u64
}

#[inline(never)]
extern "C" fn rust_mul_div_up_trillion(a: u64, b: u64) -> u64 {
    product(a, b).div_ceil(u128::from(TRILLION)) as u64
}

#[inline(never)]
extern "C" fn rust_root(x: u64) -> u64 {
    x.isqrt()
}

// What the proved functions require, in the terms of crates/bench_wide/src/lib.rt.
// Neither test divides: a·b/c rounded down is below 2^64 where a·b < 2^64·c,
// and rounded up where a·b ≤ (2^64 - 1)·c.

fn down_fits((a, b, c): Ratio) -> bool {
    c > 0 && product(a, b) < u128::from(c) << 64
}

fn up_fits((a, b, c): Ratio) -> bool {
    c > 0 && product(a, b) <= product(u64::MAX, c)
}

/// The arguments of a C function, so that one loop serves functions of one, two
/// and three.
trait Arguments: Copy + Debug {
    type Function: Copy;

    /// # Safety
    /// What `function` requires holds of these arguments.
    unsafe fn pass_to(self, function: Self::Function) -> u64;
}

impl Arguments for u64 {
    type Function = unsafe extern "C" fn(u64) -> u64;

    unsafe fn pass_to(self, function: Self::Function) -> u64 {
        function(self)
    }
}

impl Arguments for Product {
    type Function = unsafe extern "C" fn(u64, u64) -> u64;

    unsafe fn pass_to(self, function: Self::Function) -> u64 {
        function(self.0, self.1)
    }
}

impl Arguments for Ratio {
    type Function = unsafe extern "C" fn(u64, u64, u64) -> u64;

    unsafe fn pass_to(self, function: Self::Function) -> u64 {
        function(self.0, self.1, self.2)
    }
}

struct Operation<A: Arguments> {
    name: &'static str,
    required: fn(A) -> bool,
    proved: A::Function,
    rust: A::Function,
}

const DOWN: Operation<Ratio> = Operation {
    name: "mul_div_down",
    required: down_fits,
    proved: wide_mul_div_down,
    rust: rust_mul_div_down,
};

const UP: Operation<Ratio> = Operation {
    name: "mul_div_up",
    required: up_fits,
    proved: wide_mul_div_up,
    rust: rust_mul_div_up,
};

const DOWN_TRILLION: Operation<Product> = Operation {
    name: "mul_div_down_trillion",
    required: |(a, b)| down_fits((a, b, TRILLION)),
    proved: wide_mul_div_down_trillion,
    rust: rust_mul_div_down_trillion,
};

const UP_TRILLION: Operation<Product> = Operation {
    name: "mul_div_up_trillion",
    required: |(a, b)| up_fits((a, b, TRILLION)),
    proved: wide_mul_div_up_trillion,
    rust: rust_mul_div_up_trillion,
};

const ROOT: Operation<u64> =
    Operation { name: "root", required: |_| true, proved: wide_root, rust: rust_root };

impl<A: Arguments> Operation<A> {
    /// The safe way to the proved function: nothing where what it requires does
    /// not hold.
    fn call(&self, input: A) -> Option<u64> {
        // SAFETY: what the function requires was tested.
        (self.required)(input).then(|| unsafe { input.pass_to(self.proved) })
    }

    fn check(self, inputs: &[A]) -> Result<Checked<'_, A>, String> {
        for &input in inputs {
            let name = self.name;
            let proved =
                self.call(input).ok_or_else(|| format!("{name} of {input:?} does not fit"))?;
            // SAFETY: Rust's side is safe, under the type that both sides share.
            let rust = unsafe { input.pass_to(self.rust) };
            if proved != rust {
                return Err(format!("{name} of {input:?}: proved {proved}, rust {rust}"));
            }
        }
        Ok(Checked { operation: self, inputs })
    }
}

/// An operation with inputs on which both sides are equal. What it requires was
/// tested for each, so the timed loop need not test it again.
struct Checked<'a, A: Arguments> {
    operation: Operation<A>,
    inputs: &'a [A],
}

impl<A: Arguments> Checked<'_, A> {
    /// A checksum of the results, and the nanoseconds that a call took.
    ///
    /// # Safety
    /// What `function` requires holds of each input.
    unsafe fn turn(function: A::Function, inputs: &[A]) -> (u64, f64) {
        // a function that the compiler does not know, so that the loop is the
        // same for both sides and nothing of Rust's side moves out of it
        let function = black_box(function);
        let start = Instant::now();
        let sum = inputs.iter().fold(0, |sum: u64, input| {
            sum.rotate_left(1).wrapping_add(unsafe { input.pass_to(function) })
        });
        let sum = black_box(sum);
        (sum, start.elapsed().as_nanos() as f64 / inputs.len() as f64)
    }

    /// Prints the line of this operation. The sides take turns, and in every
    /// other round the other goes first: what slows the machine slows both.
    fn time(&self) -> Result<(), String> {
        let Operation { name, proved, rust, .. } = self.operation;
        let sides = [proved, rust];
        let mut times = [Vec::new(), Vec::new()];
        for round in 0..ROUNDS {
            for inputs in self.inputs.chunks(TURN) {
                // a copy is in the cache for whichever side goes first
                let inputs = inputs.to_vec();
                let mut sums = [0; 2];
                for side in [round % 2, 1 - round % 2] {
                    // SAFETY: `check` has tested each input.
                    let (sum, time) = unsafe { Self::turn(sides[side], &inputs) };
                    sums[side] = sum;
                    times[side].push(time);
                }
                if sums[0] != sums[1] {
                    return Err(format!("{name}: the checksums are {sums:?}"));
                }
            }
        }
        let [proved, rust] = times.map(median);
        let ratio = rust / proved;
        println!("{name:<21} {ratio:>5.2}  proved {proved:>5.1} ns  rust {rust:>5.1} ns");
        Ok(())
    }
}

fn median(mut times: Vec<f64>) -> f64 {
    times.sort_by(f64::total_cmp);
    times[times.len() / 2]
}

/// A seeded generator: SplitMix64, for which any seed will do.
struct Random(u64);

impl Random {
    fn next(&mut self) -> u64 {
        self.0 = self.0.wrapping_add(0x9e37_79b9_7f4a_7c15);
        let z = (self.0 ^ (self.0 >> 30)).wrapping_mul(0xbf58_476d_1ce4_e5b9);
        let z = (z ^ (z >> 27)).wrapping_mul(0x94d0_49bb_1331_11eb);
        z ^ (z >> 31)
    }

    fn below(&mut self, end: usize) -> usize {
        (self.next() % end as u64) as usize
    }

    /// A number of exactly `width` bits. The least and the greatest, where
    /// carries and shifts go wrong, are made more often than chance would.
    fn of_width(&mut self, width: usize) -> u64 {
        if width == 0 {
            return 0;
        }
        let least = 1 << (width - 1);
        match self.below(32) {
            0 => least,
            1 => least | (least - 1),
            _ => least | (self.next() & (least - 1)),
        }
    }

    /// Factors a and b of any width such that a·b/c fits, rounded up too. b is
    /// at times the most that does.
    fn factors(&mut self, c: u64) -> Product {
        let width = self.below(65);
        let a = self.of_width(width);
        let most = product(u64::MAX, c) / u128::from(a.max(1));
        let most = u64::try_from(most).unwrap_or(u64::MAX);
        let width = self.below(65 - most.leading_zeros() as usize);
        (a, self.of_width(width).min(most))
    }

    /// A divisor of this width, and factors to go with it.
    fn ratio(&mut self, width: usize) -> Ratio {
        let c = self.of_width(width);
        let (a, b) = self.factors(c);
        (a, b, c)
    }

    /// A number of this width, or the square below it or one less, where the
    /// root changes.
    fn radicand(&mut self, width: usize) -> u64 {
        let x = self.of_width(width);
        let square = x.isqrt().pow(2);
        match self.below(16) {
            0 => square,
            1 => square.saturating_sub(1),
            _ => x,
        }
    }

    /// As many of each width, in a random order: a processor would learn the
    /// branches that widths in turn take.
    fn inputs<A>(&mut self, count: usize, make: fn(&mut Random, usize) -> A) -> Vec<A> {
        let mut inputs: Vec<A> = (0..count).map(|i| make(self, i % 64 + 1)).collect();
        for i in (1..count).rev() {
            inputs.swap(i, self.below(i + 1));
        }
        inputs
    }
}

/// The number at this place of the command line.
fn argument(place: usize, default: u64) -> Result<u64, String> {
    let Some(word) = std::env::args().nth(place) else {
        return Ok(default);
    };
    word.parse().map_err(|_| format!("{word} is not a number; usage: wide [COUNT [SEED]]"))
}

fn run() -> Result<(), String> {
    let count = argument(1, 1_000_000)? as usize;
    let seed = argument(2, 1)?;
    if count == 0 {
        return Err("COUNT is 0".to_string());
    }
    let mut random = Random(seed);
    let ratios = random.inputs(count, Random::ratio);
    let products = random.inputs(count, |random, _| random.factors(TRILLION));
    let radicands = random.inputs(count, Random::radicand);
    // all are checked before one is timed
    let down = DOWN.check(&ratios)?;
    let up = UP.check(&ratios)?;
    let down_trillion = DOWN_TRILLION.check(&products)?;
    let up_trillion = UP_TRILLION.check(&products)?;
    let root = ROOT.check(&radicands)?;
    down.time()?;
    up.time()?;
    down_trillion.time()?;
    up_trillion.time()?;
    root.time()?;
    println!("{count} inputs of each kind from seed {seed}: all results were equal");
    Ok(())
}

fn main() -> ExitCode {
    match run() {
        Ok(()) => ExitCode::SUCCESS,
        Err(why) => {
            eprintln!("bench-wide: {why}");
            ExitCode::FAILURE
        }
    }
}
