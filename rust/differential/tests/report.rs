//! L14, the yearly border report: the proved library against the independent implementation, file by file, and against
//! what surveying, decoding, linking and building of the same files show; limits of a page; runs in other orders, and in
//! parts that are merged.

use differential::{build, decode, each_case, link, lists, merge, report, survey, version};
use reference::conditions::{borders, BOUND};
use reference::{encode, Page, Refusal, COUNTED, MOST, MOST_MESHES, MOST_ON_PAGE, NUMBERS_PER_CORNER};
use shapes::{damage, random_tables, Places, Random, Sharpness, Solid, Tables, DAMAGES};

/// Spaces that every file fits in.
const ENOUGH: [usize; 4] = [6_144, 4_096, 8_192, 16_384];
/// Pages at and beyond the limit of a number.
const AT: [u64; 6] = [0, 1, MOST_ON_PAGE - 1, MOST_ON_PAGE, MOST_ON_PAGE + 1, u64::MAX];

fn refusal<T>(number: u32, place: u64) -> Result<T, Refusal> {
    Err(Refusal { number, place })
}

fn offer(page: &Page, bytes: &[u8]) -> Page {
    report(page, bytes, bytes.len() as u64).expect("a page within the limits")
}

fn run(files: &[Vec<u8>]) -> Page {
    files.iter().fold(Page::default(), |page, bytes| offer(&page, bytes))
}

/// The page of one file, as the library's other calls and the measure of the conditions show it.
fn page_of(bytes: &[u8], random: &mut Random) -> Page {
    let mut page = Page { meshes: 1, ..Page::default() };
    let length = bytes.len() as u64;
    if let Err(Refusal { number, .. }) = survey(bytes, length, [MOST + 1; 2], random) {
        let line = COUNTED.iter().position(|&counted| counted == number).expect("a number with a line");
        page.refused[line] = 1;
        return page;
    }
    let tables = decode(bytes, length, ENOUGH, random).expect("an accepted mesh");
    let corners = tables.corners.len();
    let links = link(&tables, corners, random).expect("an accepted mesh");
    let output = build(&tables, &links, 0, corners, NUMBERS_PER_CORNER * corners, random).expect("an accepted mesh");
    let found = borders(lists(&tables), &output).expect("an accepted mesh");
    assert_eq!(found.met, 2 * corners);
    page.corners = corners as u64;
    page.borders = found.met as u64;
    page.largest = found.largest.map(|miss| miss.unsigned_abs());
    page
}

/// A file: sound in nearly half of the cases, else damaged in its lists, its bytes or its length.
fn random_file(random: &mut Random) -> Vec<u8> {
    let mut tables = random_tables(random);
    if random.once_in(3) {
        damage(&mut tables, *random.pick(&DAMAGES), random);
    }
    let mut bytes = encode(lists(&tables), version(&tables, random));
    let last = bytes.len() - 1;
    match random.below(14) {
        0 => bytes.truncate(random.below(14)),
        1 => bytes[random.below(5)] ^= 1 << random.below(8),
        2 => bytes[5 + random.below(6)] ^= 1 << random.below(8),
        3 => bytes.truncate(random.below(last)),
        4 => bytes.push(0),
        5 => bytes[random.below(last)] = random.bits() as u8,
        // the other version, with the length of the first
        6 => bytes[3] = 3 - bytes[3],
        _ => {}
    }
    bytes
}

fn ticks(page: &Page) -> [f64; 4] {
    page.largest.map(|miss| miss as f64 / (1u64 << 30) as f64)
}

/// Runs of sound and damaged files in both versions: after each file the page is that of all so far.
#[test]
fn runs_of_files() {
    let mut all = Page::default();
    each_case(60, 151, |_, random| {
        let mut page = Page::default();
        let mut expected = Page::default();
        for _ in 0..1 + random.below(40) {
            let bytes = random_file(random);
            let one = page_of(&bytes, random);
            page = offer(&page, &bytes);
            expected.meshes += 1;
            expected.corners += one.corners;
            expected.borders += one.borders;
            for line in 0..14 {
                expected.refused[line] += one.refused[line];
            }
            for condition in 0..4 {
                expected.largest[condition] = expected.largest[condition].max(one.largest[condition]);
            }
            assert_eq!(page, expected);
            assert_eq!(offer(&Page::default(), &bytes), one);
        }
        assert_eq!(page.borders, 2 * page.corners);
        assert!(page.largest.iter().all(|&miss| miss <= BOUND as u64), "a miss above 13 ticks: {:?}", page.largest);
        if all.meshes + page.meshes <= MOST_MESHES {
            all = merge(&all, &page).expect("a page within the limits");
        }
    });
    println!("{} files of {} corners, refused {:?}", all.meshes, all.corners, all.refused);
    println!("largest misses {:.3?} of 13", ticks(&all));
    let seen = all.refused.iter().all(|&times| times > 0) && all.corners > 0;
    assert!(std::env::var_os("MAHUNOPI_CASE").is_some() || seen, "{all:?}");
}

/// The largest misses of every kind of point, with every kind of sharpness.
#[test]
fn misses_of_every_kind() {
    for (at, places) in Places::ALL.into_iter().enumerate() {
        let mut page = Page::default();
        each_case(60, 152 + at as u64, |_, random| {
            let tables = Tables::relabelled(&some_solid(random), places, random);
            let sharpness = *random.pick(&Sharpness::ALL);
            let tables = tables.sharpened(sharpness, random);
            let bytes = encode(lists(&tables), version(&tables, random));
            let one = page_of(&bytes, random);
            let next = offer(&page, &bytes);
            assert_eq!(merge(&page, &one), Ok(next));
            page = next;
        });
        println!("{places:?}: {} corners, largest misses {:.3?} of 13", page.corners, ticks(&page));
    }
}

fn some_solid(random: &mut Random) -> Solid {
    let n = 3 + random.below(14);
    match random.below(6) {
        0 => Solid::prism(n),
        1 => Solid::antiprism(n),
        2 => Solid::pyramid(n),
        3 => Solid::bipyramid(n),
        4 => Solid::torus(3, n),
        _ => Solid::prism(3 + random.below(6)).truncated(),
    }
}

/// The same run in several orders, and cut into parts whose pages are merged in any order, two by two.
#[test]
fn orders_and_parts() {
    each_case(40, 160, |_, random| {
        let mut files: Vec<Vec<u8>> = (0..1 + random.below(16)).map(|_| random_file(random)).collect();
        let whole = run(&files);
        for _ in 0..2 {
            random.shuffle(&mut files);
            assert_eq!(run(&files), whole, "another order, another page");
            let mut pages = vec![Page::default(); random.below(3)];
            let mut rest = &files[..];
            while !rest.is_empty() {
                let (part, others) = rest.split_at(1 + random.below(rest.len()));
                pages.push(run(part));
                rest = others;
            }
            while pages.len() > 1 {
                let one = pages.swap_remove(random.below(pages.len()));
                let at = random.below(pages.len());
                let both = merge(&pages[at], &one).expect("parts of a run");
                assert_eq!(merge(&one, &pages[at]), Ok(both), "merged the other way round, another page");
                pages[at] = both;
            }
            assert_eq!(pages[0], whole, "the pages of the parts merge to another page");
            // a run goes on from a merged page as from its own
            let more = random_file(random);
            assert_eq!(offer(&pages[0], &more), offer(&whole, &more));
        }
    });
}

/// A sound file, refused ones, and none at all.
fn some_files() -> Vec<Vec<u8>> {
    let cube = encode(lists(&Tables::of(&Solid::cube())), 1);
    vec![cube.clone(), cube[..100].to_vec(), b"DMX".to_vec(), vec![]]
}

/// 4,095 meshes take one more, 4,096 none: 37 at 4,096, whatever else stands on the page and whatever the file is.
#[test]
fn pages_that_count_many_meshes() {
    let mut random = Random::new(161);
    for bytes in some_files() {
        for meshes in [0, 1, 4_094, 4_095, 4_096, 4_097, 65_536, 1 << 32, (1 << 32) + 5].into_iter().chain(AT) {
            let mut numbers = [0; 21].map(|_: u64| *random.pick(&[0, 7, MOST_ON_PAGE - 1, MOST_ON_PAGE]));
            numbers[0] = meshes;
            let page = Page::of_numbers(numbers);
            let answer = report(&page, &bytes, bytes.len() as u64);
            if meshes < 4_096 {
                let next = answer.expect("a page within the limits");
                assert_eq!(next.meshes, meshes + 1);
            } else {
                assert_eq!(answer, refusal(37, 4_096));
            }
            // with a number above 2^40 besides
            numbers[1 + random.below(20)] = *random.pick(&[MOST_ON_PAGE + 1, u64::MAX]);
            let answer = report(&Page::of_numbers(numbers), &bytes, bytes.len() as u64);
            assert_eq!(answer, if meshes < 4_096 { refusal(38, 0) } else { refusal(37, 4_096) });
        }
    }
}

/// Each number on the page at 2^40, which passes, and above: 38 at 0.
#[test]
fn pages_with_large_numbers() {
    let mut random = Random::new(162);
    for bytes in some_files() {
        for position in 1..21 {
            for number in AT {
                let mut numbers = [0; 21].map(|_: u64| random.below(1_000) as u64);
                numbers[position] = number;
                let page = Page::of_numbers(numbers);
                match report(&page, &bytes, bytes.len() as u64) {
                    Ok(next) => {
                        assert!(number <= MOST_ON_PAGE);
                        assert_eq!(next.meshes, page.meshes + 1);
                    }
                    Err(refused) => {
                        assert!(number > MOST_ON_PAGE);
                        assert_eq!(refused, Refusal { number: 38, place: 0 });
                    }
                }
            }
        }
    }
    // what passes the limit is refused by the next call
    let cube = &some_files()[0];
    let page = offer(&Page { corners: MOST_ON_PAGE, ..Page::default() }, cube);
    assert_eq!((page.corners, page.borders), (MOST_ON_PAGE + 24, 48));
    assert_eq!(report(&page, cube, cube.len() as u64), refusal(38, 0));
    let page = offer(&Page { refused: [MOST_ON_PAGE; 14], ..Page::default() }, b"DMX");
    assert_eq!(page.refused[..2], [MOST_ON_PAGE + 1, MOST_ON_PAGE]);
    assert_eq!(report(&page, cube, cube.len() as u64), refusal(38, 0));
}

/// 4,096 files from the all-zero page: none is refused, and the next one is.
#[test]
fn a_whole_year() {
    let mut random = Random::new(163);
    let mut files = some_files();
    for solid in [Solid::tetrahedron(), Solid::bipyramid(3), Solid::pyramid(5), Solid::torus(3, 3)] {
        let tables = Tables::relabelled(&solid, Places::Extreme, &mut random).sharpened(Sharpness::Random, &mut random);
        files.push(encode(lists(&tables), 2));
        let mut beyond = tables.clone();
        beyond.sharpness[3] = 17;
        files.push(encode(lists(&beyond), 2));
    }
    let ones: Vec<Page> = files.iter().map(|bytes| offer(&Page::default(), bytes)).collect();
    let mut page = Page::default();
    let mut halves = [Page::default(); 2];
    let mut times = vec![0; files.len()];
    for number in 0..4_096 {
        let pick = random.below(files.len());
        times[pick] += 1;
        page = offer(&page, &files[pick]);
        let half = &mut halves[number / 2_048];
        *half = offer(half, &files[pick]);
    }
    assert_eq!(page.meshes, 4_096);
    let sum = |number: fn(&Page) -> u64| ones.iter().zip(&times).map(|(one, &times)| times * number(one)).sum::<u64>();
    assert_eq!((page.corners, page.borders), (sum(|one| one.corners), sum(|one| one.borders)));
    assert_eq!(page.refused.iter().sum::<u64>(), sum(|one| one.refused.iter().sum()));
    let largest = |condition: usize| ones.iter().map(|one| one.largest[condition]).max();
    assert!((0..4).all(|condition| largest(condition) == Some(page.largest[condition])));
    for bytes in &files {
        assert_eq!(report(&page, bytes, bytes.len() as u64), refusal(37, 4_096));
    }
    assert_eq!(merge(&halves[0], &halves[1]), Ok(page));
    assert_eq!(merge(&page, &Page::default()), Ok(page));
    assert_eq!(merge(&page, &ones[0]), refusal(37, 4_096));
    assert_eq!(merge(&ones[0], &page), refusal(37, 4_096));
}

/// Pages at the limits merged: 37 for more than 4,096 meshes together, by their exact sum, then 38 for a number above
/// 2^40 on either.
#[test]
fn merged_pages_at_the_limits() {
    let mut seen = [0; 39];
    let meshes = [0, 1, 2_047, 2_048, 2_049, 4_095, 4_096, 4_097, 1 << 32, 1 << 63, u64::MAX - 1, u64::MAX];
    each_case(20_000, 164, |_, random| {
        let page = |random: &mut Random| {
            let beyond = random.once_in(3);
            let mut numbers = [0; 21].map(|_: u64| match random.below(4) {
                0 => *random.pick(&AT[..4]),
                1 => random.bits() >> 24,
                _ => random.below(10_000) as u64,
            });
            if beyond {
                numbers[random.below(21)] = *random.pick(&[MOST_ON_PAGE + 1, u64::MAX, 1 << 63]);
            }
            numbers[0] = if random.once_in(2) { *random.pick(&meshes) } else { random.below(4_097) as u64 };
            Page::of_numbers(numbers)
        };
        let (one, other) = (page(random), page(random));
        let answer = merge(&one, &other);
        assert_eq!(merge(&other, &one), answer, "merged the other way round, another page");
        seen[answer.map_or_else(|refusal| refusal.number as usize, |_| 0)] += 1;
    });
    println!("merged {}, refused by 37 {}, by 38 {}", seen[0], seen[37], seen[38]);
    assert!(std::env::var_os("MAHUNOPI_CASE").is_some() || [0, 37, 38].iter().all(|&n| seen[n] > 0));
    let of = |meshes: u64| Page { meshes, ..Page::default() };
    for one in meshes {
        for other in meshes {
            let together = u128::from(one) + u128::from(other);
            let asked = if together > 4_096 { refusal(37, 4_096) } else { Ok(of(one + other)) };
            assert_eq!(merge(&of(one), &of(other)), asked);
        }
    }
}

/// Each refusal under its own number, and nothing else on the page changes; 28 is counted apart from 8.
#[test]
fn refused_files() {
    let mut seen = [0; 14];
    each_case(600, 165, |case, random| {
        let mut tables = random_tables(random);
        damage(&mut tables, DAMAGES[case as usize % DAMAGES.len()], random);
        if random.once_in(4) {
            damage(&mut tables, *random.pick(&[8, 28]), random);
        }
        let bytes = encode(lists(&tables), version(&tables, random));
        let length = bytes.len() as u64;
        let page = Page::of_numbers([0; 21].map(|_: u64| random.below(4_096) as u64));
        let next = offer(&page, &bytes);
        if let Err(Refusal { number, .. }) = survey(&bytes, length, [MOST + 1; 2], random) {
            let line = COUNTED.iter().position(|&counted| counted == number).expect("a number with a line");
            let mut asked = Page { meshes: page.meshes + 1, ..page };
            asked.refused[line] += 1;
            assert_eq!(next, asked, "a file refused by {number}");
            seen[line] += 1;
        }
    });
    println!("refused by {COUNTED:?}: {seen:?}");
    // files with a fault of 1 to 3 are in `runs_of_files`
    assert!(std::env::var_os("MAHUNOPI_CASE").is_some() || seen[3..].iter().all(|&times| times > 0), "{seen:?}");
}

/// Lengths that are not those of the bytes held, as `inspect` may count them: the report counts what surveying answers.
#[test]
fn counted_lengths() {
    each_case(600, 166, |_, random| {
        let mut bytes = random_file(random);
        let held = bytes.len() as u64;
        let length = match random.below(9) {
            0 => held + 1,
            1 => held.saturating_sub(1),
            2 => held + (1 << 32),
            3 => u64::MAX,
            4 => random.below(14) as u64,
            5 => {
                // more bytes than the file has
                bytes.extend([7; 5]);
                held
            }
            6 => {
                bytes.truncate(random.below(bytes.len() + 1));
                held
            }
            _ => held,
        };
        let next = report(&Page::default(), &bytes, length).expect("the all-zero page");
        // the library's own answer, also where 01 does not say which it is
        let line = match mahunopi::survey_counted(&bytes, length) {
            Ok(counts) => {
                assert_eq!((next.corners, next.refused), (counts.corners as u64, [0; 14]));
                return;
            }
            Err(refusal) => COUNTED.iter().position(|&counted| counted == refusal.number()),
        };
        let mut refused = [0; 14];
        refused[line.expect("a number with a line")] = 1;
        assert_eq!(next, Page { meshes: 1, refused, ..Page::default() });
    });
}

/// Meshes at the limits, and the sample meshes.
#[test]
fn largest_meshes_and_samples() {
    let mut random = Random::new(167);
    let many = |one: &Solid, times: usize| (1..times).fold(one.clone(), |all, _| all.with(one.clone()));
    let solids = [
        Solid::torus(32, 64),
        Solid::torus(16, 32).stellated(),
        many(&Solid::tetrahedron(), 512),
        many(&Solid::prism(16), 64),
        many(&Solid::bipyramid(16), 85),
    ];
    let mut page = Page::default();
    for solid in &solids {
        for (places, sharpness) in [(Places::Anywhere, Sharpness::Plain), (Places::Extreme, Sharpness::Random)] {
            let tables = Tables::relabelled(solid, places, &mut random).sharpened(sharpness, &mut random);
            let bytes = encode(lists(&tables), version(&tables, &mut random));
            let one = page_of(&bytes, &mut random);
            let next = offer(&page, &bytes);
            assert_eq!(merge(&page, &one), Ok(next));
            page = next;
        }
    }
    println!("{} corners, largest misses {:.3?} of 13", page.corners, ticks(&page));
    let folder = concat!(env!("CARGO_MANIFEST_DIR"), "/../../meshes");
    let mut samples = Page::default();
    for name in ["cube", "octahedron", "prism", "crisp-prism", "tetrahedron", "torus", "flat"] {
        let bytes = std::fs::read(format!("{folder}/{name}.dms")).expect("a sample mesh");
        samples = offer(&samples, &bytes);
    }
    assert_eq!((samples.meshes, samples.corners), (7, 24 + 24 + 72 + 72 + 12 + 384));
    assert_eq!(samples.refused[11], 1, "flat");
}
