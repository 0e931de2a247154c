//! L12 by hand: refusals in their order, ends, halves, and samples of wild numbers that were worked out apart.

use reference::{sample, sample_triangle, Refusal};

/// 123 numbers of many sizes, by a rule.
fn wild() -> Vec<i32> {
    (0..123i64).map(|i| ((i * i * 7_919 + i * 104_729 + 13) % 268_435_457 - 134_217_728) as i32).collect()
}

fn refused<T>(number: u32, place: u64) -> Result<T, Refusal> {
    Err(Refusal { number, place })
}

#[test]
fn refusals_in_their_order() {
    let net = wild();
    assert_eq!(sample(&net[..122], 9, [0; 3], 0), refused(18, 122));
    let mut bad = net.clone();
    bad[100] = -134_217_729;
    bad[77] = 134_217_729;
    assert_eq!(sample(&bad, 9, [0; 3], 0), refused(19, 77));
    assert_eq!(sample(&net, 4, [0; 3], 0), refused(32, 4));
    assert_eq!(sample(&net, 3, [0; 3], 0), refused(33, 0));
    assert_eq!(sample(&net, 3, [17, 0, 0], 17), refused(33, 17));
    assert_eq!(sample(&net, 0, [5, 5, 5], 16), refused(33, 16));
    assert_eq!(sample(&net, 0, [usize::MAX, 1, 16], 16), refused(33, 16));
    assert_eq!(sample_triangle(&net, 0, 16, &mut [0; 458]), refused(255, 459));
    assert_eq!(sample_triangle(&net, 4, 17, &mut []), refused(32, 4));
    assert_eq!(sample_triangle(&net, 3, 17, &mut []), refused(33, 17));
}

/// Heads, tails and the centre: points 0 and 4, 24 and 4, 24 and 20, 0 and 20, and 12.
#[test]
fn ends() {
    let net = wild();
    let point = |p: usize| Ok([net[3 * p], net[3 * p + 1], net[3 * p + 2]]);
    for (side, [head, tail]) in [[0, 4], [24, 4], [24, 20], [0, 20]].into_iter().enumerate() {
        for parts in 1..=16 {
            assert_eq!(sample(&net, side, [parts, 0, 0], parts), point(head));
            assert_eq!(sample(&net, side, [0, parts, 0], parts), point(tail));
            assert_eq!(sample(&net, side, [0, 0, parts], parts), point(12));
        }
    }
}

/// Halves away from zero: with one control point that is not zero and weights of 1/2, as 8/16 of b01 and a00.
#[test]
fn halves() {
    let net = |point: usize, numbers: [i32; 3]| {
        let mut net = vec![0; 123];
        net[3 * point..3 * point + 3].copy_from_slice(&numbers);
        net
    };
    // b01 counts 4 · (1/2)^3 · 1/2 = 1/4 at the middle of side 0
    assert_eq!(sample(&net(1, [2, -2, 6]), 0, [1, 1, 0], 2), Ok([1, -1, 2]));
    assert_eq!(sample(&net(1, [1, -1, 5]), 0, [1, 1, 0], 2), Ok([0, 0, 1]));
    // a00 counts 4 · (1/2)^4 = 1/4 at the middle of the ray from E0, on sides 0 and 3
    assert_eq!(sample(&net(25, [2, -2, -6]), 0, [1, 0, 1], 2), Ok([1, -1, -2]));
    assert_eq!(sample(&net(25, [2, -2, -6]), 3, [1, 0, 1], 2), Ok([1, -1, -2]));
    // b13 is the last of the third row of side 0 and of side 1: 6 · (1/2)^4 = 3/8 at the middle of the ray from E1
    assert_eq!(sample(&net(8, [4, -4, 8]), 0, [0, 1, 1], 2), Ok([2, -2, 3]));
    assert_eq!(sample(&net(8, [4, -4, 8]), 1, [0, 1, 1], 2), Ok([2, -2, 3]));
    assert_eq!(sample(&net(8, [4, -4, 8]), 2, [0, 1, 1], 2), Ok([0, 0, 0]));
}
