//! How far what the library writes is from the true surface (L10): the largest distance found for each kind of control
//! point, beside what its roundings can do at most and beside what is proved.

use differential::{build, each_case, link, lists};
use reference::exact::{budget, distances, kind, rounded, Exact, KINDS};
use reference::{FEWEST, MOST, NUMBERS_PER_CORNER, SHARPEST};
use shapes::{random_tables, Places, Random, Sharpness, Solid, Tables};

/// What 02 allows, in ticks.
const BOUND: i64 = 5;

fn read(path: &str) -> String {
    let path = format!("{}/../../{path}", env!("CARGO_MANIFEST_DIR"));
    std::fs::read_to_string(&path).unwrap_or_else(|error| panic!("{path}: {error}"))
}

fn raise(all: &mut [Exact; 9], found: [Exact; 9]) {
    for (all, one) in all.iter_mut().zip(found) {
        *all = one.max(*all);
    }
}

/// The bounds that are proved, by kind: the largest of the definition's numbers, which are hundredths of a tick.
fn proved() -> [Exact; 9] {
    let text = read("crates/accuracy/specs/Bounds.antt");
    let list = text.split("bounds =\n").nth(1).expect("the list of bounds");
    let hundredths: Vec<i64> = list.split(|c: char| !c.is_ascii_digit()).filter_map(|word| word.parse().ok()).collect();
    assert_eq!(hundredths.len(), 41);
    let mut largest = [Exact::ZERO; 9];
    for (point, &number) in hundredths.iter().enumerate() {
        let largest = &mut largest[kind(point)];
        *largest = Exact::fraction(number, 100).max(*largest);
    }
    largest
}

/// The most that the roundings can do, over every number of corners and of sides.
fn budgets() -> [Exact; 9] {
    let mut largest = [Exact::ZERO; 9];
    for m in FEWEST..=MOST {
        for n in FEWEST..=MOST {
            raise(&mut largest, budget(m, n));
        }
    }
    largest
}

/// Builds a mesh whole with the library and measures it; how many corners it has, if it is accepted.
fn measure(tables: &Tables, largest: &mut [Exact; 9], random: &mut Random) -> Option<usize> {
    let corners = tables.corners.len();
    let links = link(tables, corners, random).ok()?;
    let output = build(tables, &links, 0, corners, NUMBERS_PER_CORNER * corners, random).expect("an accepted mesh");
    // the construction that is measured against is the library's, but for its roundings
    assert!(rounded(lists(tables)).expect("an accepted mesh") == output, "the rounded reading writes other numbers");
    raise(largest, distances(lists(tables), &output).expect("an accepted mesh"));
    Some(corners)
}

/// Random meshes with sharpness of any kind; then families of solids with every number of sides and of corners and every
/// kind of sharpness, and some with every pair of u and v.
#[test]
fn every_kind_of_point_is_within_its_bounds() {
    let mut largest = [Exact::ZERO; 9];
    let (mut meshes, mut corners) = (0, 0);
    each_case(250, 11, |_, random| {
        if let Some(count) = measure(&random_tables(random), &mut largest, random) {
            meshes += 1;
            corners += count;
        }
    });
    let mut random = Random::new(12);
    let mut accepted = |tables: &Tables, largest: &mut [Exact; 9], random: &mut Random| {
        corners += measure(tables, largest, random).expect("an accepted mesh");
        meshes += 1;
    };
    let mut by_sharpness = Sharpness::ALL.map(|_| [Exact::ZERO; 9]);
    for n in FEWEST..=MOST {
        for solid in [Solid::prism(n), Solid::antiprism(n), Solid::pyramid(n), Solid::bipyramid(n)] {
            for places in [Places::Anywhere, Places::Small] {
                for solid in [&solid, &solid.dual(), &solid.rectified()] {
                    let tables = Tables::relabelled(solid, places, &mut random);
                    for (sharpness, largest) in Sharpness::ALL.into_iter().zip(&mut by_sharpness) {
                        accepted(&tables.clone().sharpened(sharpness, &mut random), largest, &mut random);
                    }
                }
            }
        }
    }
    let mut by_pair = [Exact::ZERO; 9];
    for solid in [Solid::pyramid(3), Solid::antiprism(5), Solid::bipyramid(7)] {
        for u in 0..=SHARPEST {
            for v in 0..=SHARPEST {
                let mut tables = Tables::relabelled(&solid, Places::Anywhere, &mut random);
                tables.sharpness = [u, v].repeat(tables.corners.len());
                accepted(&tables, &mut by_pair, &mut random);
            }
        }
    }
    println!("of the solids, in thousandths of a tick: {KINDS:?}");
    for (name, found) in Sharpness::ALL.iter().map(|kind| format!("{kind:?}")).zip(by_sharpness) {
        println!("{name:9}  {:4?}", found.map(Exact::thousandths));
        raise(&mut largest, found);
    }
    println!("every pair  {:4?}", by_pair.map(Exact::thousandths));
    raise(&mut largest, by_pair);
    println!("{meshes} meshes of {corners} corners; in thousandths of a tick:");
    println!("kind  largest found  roundings  proved");
    for (((name, found), most), proved) in KINDS.iter().zip(largest).zip(budgets()).zip(proved()) {
        println!("{name}  {:13}  {:9}  {:6}", found.thousandths(), most.thousandths(), proved.thousandths());
        assert!(found <= most, "{name} is further off than its roundings can explain");
        assert!(most <= proved, "{name}: the roundings can do more than is proved");
        assert!(proved <= Exact::fraction(BOUND, 1), "{name}: what is proved is above {BOUND} ticks");
        // a reading that rounds would be no distance away
        assert!(found.thousandths() * 2 > most.thousandths(), "{name} is nowhere far off");
    }
}

/// docs/ACCURACY.md has a row for each kind, with the proved bound and what the roundings can do.
#[test]
fn the_page_has_these_bounds() {
    let text = read("docs/ACCURACY.md");
    let hundredths = |bound: Exact| (bound.thousandths() + 9) / 10;
    for ((name, most), proved) in KINDS.iter().zip(budgets()).zip(proved()) {
        let [whole, roundings] = [hundredths(proved), hundredths(most)].map(|n| format!("{}.{:02}", n / 100, n % 100));
        let row = text.lines().find(|line| line.starts_with(&format!("| {name}"))).expect("a row");
        let cells: Vec<&str> = row.split('|').map(str::trim).collect();
        assert_eq!([cells[2], cells[4]], [&whole, &roundings], "{name}");
    }
}
