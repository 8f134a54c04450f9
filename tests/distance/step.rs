// The transform of docs/src (video.rs, `idct`) on 64-bit numbers, and the same steps with nothing rounded.

// The premultipliers: a coefficient is at most 2048 times its own in size.
pub const BOUND: [i64; 64] = [
    32, 44, 42, 38, 32, 25, 17, 9, 44, 62, 58, 52, 44, 35, 24, 12, 42, 58, 55, 49, 42, 33, 23, 12, 38, 52, 49, 44, 38, 30, 20, 10, 32, 44, 42, 38, 32,
    25, 17, 9, 25, 35, 33, 30, 25, 20, 14, 7, 17, 24, 23, 20, 17, 14, 9, 5, 9, 12, 12, 10, 9, 7, 5, 2,
];

// What a step does with numbers: `part` is a product over 256, and `unit` is what 1 is.
trait Arithmetic {
    fn part(product: i64) -> i64;
    fn whole(number: i64) -> i64;
}

struct Rounded;
struct Exact;

impl Arithmetic for Rounded {
    fn part(product: i64) -> i64 {
        (product + 128) >> 8
    }
    fn whole(number: i64) -> i64 {
        number
    }
}

// Numbers are over 256 after the step.
impl Arithmetic for Exact {
    fn part(product: i64) -> i64 {
        product
    }
    fn whole(number: i64) -> i64 {
        number * 256
    }
}

fn butterfly<A: Arithmetic>(a: [i64; 8]) -> [i64; 8] {
    let (b3, b4, b6) = (a[2] + a[6], a[5] - a[3], a[1] - a[7]);
    let (tmp1, tmp2) = (a[1] + a[7], a[3] + a[5]);
    let b7 = A::whole(tmp1 + tmp2);
    let x4 = A::part(b6 * 473 - b4 * 196) - b7;
    let x0 = x4 - A::part((tmp1 - tmp2) * 362);
    let x1 = A::whole(a[0] - a[4]);
    let x2 = A::part((a[2] - a[6]) * 362) - A::whole(b3);
    let x3 = A::whole(a[0] + a[4]);
    let (y3, y4, y5, y6) = (x1 + x2, x3 + A::whole(b3), x1 - x2, x3 - A::whole(b3));
    let y7 = -x0 - A::part(b4 * 473 + b6 * 196);
    [b7 + y4, x4 + y3, y5 - x0, y6 - y7, y6 + y7, x0 + y5, y3 - x4, y4 - b7]
}

fn passes<A: Arithmetic>(block: &[i64; 64]) -> [i64; 64] {
    let mut out = *block;
    for x in 0..8 {
        let lane = butterfly::<A>(std::array::from_fn(|k| out[x + 8 * k]));
        for k in 0..8 {
            out[x + 8 * k] = lane[k];
        }
    }
    for y in 0..8 {
        let lane = butterfly::<A>(std::array::from_fn(|k| out[8 * y + k]));
        out[8 * y..8 * y + 8].copy_from_slice(&lane);
    }
    out
}

pub fn idct(block: &[i64; 64]) -> [i64; 64] {
    passes::<Rounded>(block).map(|t| (t + 128) >> 8)
}

// 2^24 times the exact results.
pub fn exact(block: &[i64; 64]) -> [i64; 64] {
    passes::<Exact>(block)
}
