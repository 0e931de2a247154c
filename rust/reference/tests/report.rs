//! L14: pages of small runs by hand, the misses against a literal measure from both sides of every border, limits, and
//! merged pages.

use reference::{
    build, encode, links_of, merge, nets, report, Lists, Net, Page, Refusal, COUNTED, MOST_ON_PAGE, NUMBERS_PER_CORNER,
};
use shapes::{damage, random_tables, Places, Random, Sharpness, Solid, Tables, DAMAGES};

fn refused<T>(number: u32, place: u64) -> Result<T, Refusal> {
    Err(Refusal { number, place })
}

fn lists(tables: &Tables) -> Lists<'_> {
    Lists {
        coordinates: &tables.coordinates,
        sides: &tables.sides,
        corners: &tables.corners,
        sharpness: &tables.sharpness,
    }
}

fn offer(page: &Page, bytes: &[u8]) -> Page {
    report(page, bytes, bytes.len() as u64).expect("a page within the limits")
}

/// The numbers of b points and of a points along each side, from its head, as 01's table of sides gives its ends.
const OUTER: [[usize; 5]; 4] = [[0, 1, 2, 3, 4], [24, 19, 14, 9, 4], [24, 23, 22, 21, 20], [0, 5, 10, 15, 20]];
const ROWS: [[usize; 4]; 4] = [[25, 26, 27, 28], [40, 36, 32, 28], [40, 39, 38, 37], [25, 29, 33, 37]];
const ACROSS: [usize; 4] = [3, 2, 1, 0];

/// The misses of the four conditions across a side of a corner, on an axis, over 2^30.
fn misses(nets: &[Net], output: &[i32], corner: usize, side: usize, axis: usize) -> [i128; 4] {
    let net = &nets[corner];
    let point = |corner: usize, number: usize| i128::from(output[NUMBERS_PER_CORNER * corner + 3 * number + axis]);
    let neighbour = net.neighbour_corner[side];
    let [h, t, x, y] = [net.head, net.tail, net.x, net.y].map(|points| i128::from(points[side][axis]));
    let c = i128::from(net.cosine[side]);
    let one = 1 << 30;
    let bend = |i: usize| {
        4 * (point(corner, ROWS[side][i]) + point(neighbour, ROWS[ACROSS[side]][i]) - 2 * point(corner, OUTER[side][i]))
    };
    [
        one * bend(0) - 3 * (one + c) * (x - h),
        one * bend(1) - 2 * (one + c) * (y - x) - one * (x - h),
        one * bend(2) - (one + c) * (t - y) - 2 * one * (y - x),
        one * bend(3) - 3 * one * (t - y),
    ]
}

/// Every border from both its sides shows the same misses, there are twice as many borders as corners, and the largest
/// are those of the page.
#[test]
fn misses_from_both_sides() {
    let mut random = Random::new(141);
    let mut negative = [0; 4];
    for round in 0..60 {
        let n = 3 + random.below(14);
        let solid = match round % 4 {
            0 => Solid::prism(n),
            1 => Solid::pyramid(n),
            2 => Solid::bipyramid(n),
            _ => Solid::torus(3, 4),
        };
        let places = Places::ALL[round % Places::ALL.len()];
        let tables = Tables::relabelled(&solid, places, &mut random).sharpened(Sharpness::Random, &mut random);
        let count = tables.corners.len();
        let links = links_of(lists(&tables)).expect("an accepted mesh");
        let mut output = vec![0; NUMBERS_PER_CORNER * count];
        build(lists(&tables), &links, 0, count, &mut output).expect("an accepted mesh");
        let all = nets(lists(&tables)).expect("an accepted mesh");
        let mut largest = [0; 4];
        let mut sides = 0;
        for corner in 0..count {
            for side in 0..4 {
                let neighbour = all[corner].neighbour_corner[side];
                assert_eq!(all[neighbour].neighbour_corner[ACROSS[side]], corner);
                sides += 1;
                for axis in 0..3 {
                    let found = misses(&all, &output, corner, side, axis);
                    assert_eq!(found, misses(&all, &output, neighbour, ACROSS[side], axis));
                    for j in 0..4 {
                        // where the largest is a negative one, its sign counts
                        if found[j].unsigned_abs() > largest[j] {
                            negative[j] += usize::from(found[j] < 0);
                            largest[j] = found[j].unsigned_abs();
                        }
                    }
                }
            }
        }
        let page = offer(&Page::default(), &encode(lists(&tables), 2));
        assert_eq!((page.meshes, page.corners, page.borders), (1, count as u64, sides / 2));
        assert_eq!(page.largest.map(u128::from), largest);
        assert!(page.largest.iter().all(|&miss| miss <= 13 << 30));
    }
    assert!(negative.iter().all(|&times| times > 0), "{negative:?}");
}

/// A refused file adds one to the meshes and one under its number; 28 stands apart from 8.
#[test]
fn every_number_by_hand() {
    let cube = Tables::of(&Solid::cube());
    let sound = encode(lists(&cube), 1);
    let zero = Page::default();
    let one = offer(&zero, &sound);
    assert_eq!((one.meshes, one.corners, one.borders, one.refused), (1, 24, 48, [0; 14]));
    assert_eq!(offer(&zero, &encode(lists(&cube), 2)), one);
    let file = |change: fn(&mut Tables)| {
        let mut faulty = cube.clone();
        change(&mut faulty);
        faulty.sharpness.resize(2 * faulty.corners.len(), 8);
        encode(lists(&faulty), 2)
    };
    let mut of_version_3 = sound.clone();
    of_version_3[3] = 3;
    let files = [
        sound[1..].to_vec(),
        of_version_3,
        sound[..100].to_vec(),
        file(|t| {
            t.corners.clear();
            t.sharpness.clear();
        }),
        file(|t| t.sides[2] = 17),
        file(|t| t.sides[2] = 5),
        file(|t| t.coordinates[9] = -65_537),
        file(|t| {
            t.corners[3] = 8;
            t.sharpness[0] = 17;
        }),
        file(|t| t.corners[3] = t.corners[1]),
        file(|t| t.corners[..4].reverse()),
        file(|t| {
            t.sides.pop();
            t.corners.truncate(20);
            t.sharpness.truncate(40);
        }),
        file(|t| t.coordinates.extend([1, 2, 3])),
        {
            // two tetrahedra that share vertex 0 only
            let mut two = Tables::of(&Solid::tetrahedron().with(Solid::tetrahedron()));
            two.corners.iter_mut().filter(|v| **v == 4).for_each(|v| *v = 0);
            two.corners.iter_mut().filter(|v| **v > 4).for_each(|v| *v -= 1);
            two.coordinates.truncate(21);
            encode(lists(&two), 1)
        },
        file(|t| t.sharpness[47] = 17),
    ];
    let mut page = one;
    for (line, bytes) in files.iter().enumerate() {
        let next = offer(&page, bytes);
        page.meshes += 1;
        page.refused[line] += 1;
        assert_eq!(next, page, "under {}", COUNTED[line]);
    }
    assert_eq!(page.refused, [1; 14]);
    assert_eq!(page.meshes, 15);
    assert_eq!(
        page.to_string().lines().take(4).collect::<Vec<_>>(),
        ["meshes offered: 15", "corners built: 24", "borders met: 48", "refused by 1: 1"]
    );
}

/// Ticks to the nearest thousandth.
#[test]
fn a_page_in_words() {
    let mut numbers = [0; 21];
    for (position, number) in numbers.iter_mut().enumerate() {
        *number = 100 + position as u64;
    }
    numbers[17..].copy_from_slice(&[0, (1 << 30) / 16, 13 << 30, (5 << 30) - 1]);
    let page = Page::of_numbers(numbers);
    assert_eq!(page.numbers(), numbers);
    let text = page.to_string();
    let lines: Vec<&str> = text.lines().collect();
    assert_eq!(lines.len(), 21);
    assert_eq!((lines[0], lines[15], lines[16]), ("meshes offered: 100", "refused by 13: 115", "refused by 28: 116"));
    assert_eq!(
        lines[17..],
        [
            "largest miss of condition 1: 0.000 of 13 ticks",
            "largest miss of condition 2: 0.063 of 13 ticks",
            "largest miss of condition 3: 13.000 of 13 ticks",
            "largest miss of condition 4: 5.000 of 13 ticks",
        ]
    );
}

/// 37 at 4,096 meshes and more, then 38 above 2^40 anywhere; merging has the same of two pages.
#[test]
fn limits() {
    let cube = encode(lists(&Tables::of(&Solid::cube())), 1);
    let of = |page: &Page| report(page, &cube, cube.len() as u64).map(|next| next.meshes);
    let zero = Page::default();
    for meshes in [0, 1, 4_095] {
        assert_eq!(of(&Page { meshes, ..zero }), Ok(meshes + 1));
    }
    for meshes in [4_096, 4_097, MOST_ON_PAGE, MOST_ON_PAGE + 1, u64::MAX] {
        assert_eq!(of(&Page { meshes, corners: u64::MAX, ..zero }), refused(37, 4_096));
        assert_eq!(merge(&Page { meshes, ..zero }, &Page { meshes: 1, ..zero }), refused(37, 4_096));
        assert_eq!(merge(&zero, &Page { meshes: meshes.max(4_097), ..zero }), refused(37, 4_096));
    }
    for position in 1..21 {
        let mut numbers = [0; 21];
        numbers[position] = MOST_ON_PAGE;
        let at = Page::of_numbers(numbers);
        assert_eq!(of(&at), Ok(1));
        assert!(merge(&at, &at).is_ok() && merge(&at, &zero) == Ok(at));
        numbers[position] += 1;
        let beyond = Page::of_numbers(numbers);
        assert_eq!(of(&beyond), refused(38, 0));
        assert_eq!(merge(&beyond, &zero), refused(38, 0));
        assert_eq!(merge(&zero, &beyond), refused(38, 0));
    }
}

/// A run in any order, whole or in parts.
#[test]
fn orders_and_parts() {
    let mut random = Random::new(142);
    for _ in 0..20 {
        let mut files: Vec<Vec<u8>> = (0..8)
            .map(|_| {
                let mut tables = random_tables(&mut random);
                if random.once_in(3) {
                    let number = *random.pick(&DAMAGES);
                    damage(&mut tables, number, &mut random);
                }
                encode(lists(&tables), 2)
            })
            .collect();
        let run = |files: &[Vec<u8>]| files.iter().fold(Page::default(), |page, bytes| offer(&page, bytes));
        let page = run(&files);
        random.shuffle(&mut files);
        assert_eq!(run(&files), page);
        let (some, others) = files.split_at(random.below(9));
        assert_eq!(merge(&run(some), &run(others)), Ok(page));
        assert_eq!(merge(&run(others), &run(some)), Ok(page));
    }
}
