//! L1 by hand: refusals in their order, both cases at their limits, and the bits of floats, worked out apart.

use reference::{floats, FloatPoint, Refusal};

const NEAREST: i32 = 1 << 24;
const LARGEST: i32 = 1 << 27;

/// 123 zeros but for these numbers.
fn list(entries: &[(usize, i32)]) -> Vec<i32> {
    let mut numbers = vec![0; 123];
    for &(place, number) in entries {
        numbers[place] = number;
    }
    numbers
}

fn refused(number: u32, place: u64) -> Result<FloatPoint, Refusal> {
    Err(Refusal { number, place })
}

#[test]
fn refusals_in_their_order() {
    assert_eq!(floats(&[], 0), refused(18, 0));
    assert_eq!(floats(&list(&[(3, LARGEST + 1)])[..122], 41), refused(18, 122));
    assert_eq!(floats(&[0; 124], 0), refused(18, 124));
    assert_eq!(floats(&list(&[(122, LARGEST + 1), (7, -LARGEST - 1)]), 41), refused(19, 7));
    assert_eq!(floats(&list(&[(0, LARGEST), (122, -LARGEST)]), 41), refused(20, 41));
    assert_eq!(floats(&list(&[]), 1 << 32), refused(20, 1 << 32));
}

#[test]
fn near_to_both_ends() {
    assert_eq!(floats(&list(&[(0, 5), (1, -5), (2, 7)]), 0), Ok(FloatPoint::Near([0.0; 3])));
    assert_eq!(floats(&list(&[(120, 1), (121, -1)]), 40), Ok(FloatPoint::Near([1.0, -1.0, 0.0])));
    let ends = list(&[(0, 3), (1, -3), (2, 10), (75, NEAREST + 3), (76, -NEAREST - 3), (77, 10)]);
    assert_eq!(floats(&ends, 25), Ok(FloatPoint::Near([16_777_216.0, -16_777_216.0, 0.0])));
}

#[test]
fn far_as_soon_as_one_is_beyond() {
    assert_eq!(
        floats(&list(&[(3, NEAREST + 1), (4, -1)]), 1),
        Ok(FloatPoint::Far([16_777_216.0, -4_096.0, 0.0], [1.0, 4_095.0, 0.0]))
    );
    assert_eq!(
        floats(&list(&[(3, -1), (4, -NEAREST - 1), (5, 4_096)]), 1),
        Ok(FloatPoint::Far([-4_096.0, -16_781_312.0, 4_096.0], [4_095.0, 4_095.0, 0.0]))
    );
    assert_eq!(
        floats(&list(&[(0, LARGEST), (1, -LARGEST), (2, 1), (6, -LARGEST), (7, LARGEST)]), 2),
        Ok(FloatPoint::Far([-268_435_456.0, 268_435_456.0, -4_096.0], [0.0, 0.0, 4_095.0]))
    );
}

#[test]
fn bits() {
    let cases = [
        (0, 0),
        (1, 1_065_353_216),
        (-1, 3_212_836_864),
        (3, 1_077_936_128),
        (4_095, 1_166_012_416),
        (-4_096, 3_313_500_160),
        (4_096, 1_166_016_512),
        (16_777_216, 1_266_679_808),
        (-16_777_216, 3_414_163_456),
        (16_777_215, 1_266_679_807),
        (16_781_312, 1_266_681_856),
        (-16_781_312, 3_414_165_504),
        (134_209_536, 1_291_844_608_u32),
    ];
    for (difference, bits) in cases {
        // the first float of the pair where the point is far, the float itself where it is near
        match floats(&list(&[(3, difference)]), 1) {
            Ok(FloatPoint::Near([x, ..]) | FloatPoint::Far([x, ..], _)) => {
                assert_eq!(x.to_bits(), bits, "{difference}")
            }
            refusal => panic!("{difference}: {refusal:?}"),
        }
    }
    let ends = [(LARGEST, -LARGEST, 3_447_717_888_u32), (-LARGEST, LARGEST, 1_300_234_240)];
    for (b00, b01, bits) in ends {
        match floats(&list(&[(0, b00), (3, b01)]), 1) {
            Ok(FloatPoint::Far([x, ..], [rest, ..])) => assert_eq!((x.to_bits(), rest.to_bits()), (bits, 0)),
            other => panic!("{other:?}"),
        }
    }
}
