//! The border report through the safe wrapper and through the library's own functions: pages of small runs, limits, null
//! and odd lengths, and the stack that a call needs.

use std::ptr::null;
use std::thread;

use mahunopi::{decode, raw, survey, Fault, Mesh, Page, Refusal, CALL_STACK, MAX_PAGE_MESHES, PAGE_NUMBERS};

const CUBE: &[u8] = include_bytes!("../../../meshes/cube.dms");
const TORUS: &[u8] = include_bytes!("../../../meshes/torus.dms");
const CRISP_PRISM: &[u8] = include_bytes!("../../../meshes/crisp-prism.dms");
const FLAT: &[u8] = include_bytes!("../../../meshes/flat.dms");

const UNTOUCHED: u64 = 0x1234_5678_9abc_def0;
const MOST: u64 = 1 << 40;

/// The file of a mesh in version 2.
fn file_of(mesh: &Mesh) -> Vec<u8> {
    let mut bytes = b"DMS".to_vec();
    for count in [2, mesh.coordinates.len() / 3, mesh.sides.len(), mesh.corners.len()] {
        bytes.extend((count as u16).to_le_bytes());
    }
    bytes.extend(mesh.coordinates.iter().flat_map(|c| c.to_le_bytes()));
    bytes.extend(&mesh.sides);
    bytes.extend(mesh.corners.iter().flat_map(|v| v.to_le_bytes()));
    bytes.extend(&mesh.sharpness);
    bytes
}

fn page_of(files: &[&[u8]]) -> Page {
    let mut page = Page::default();
    files.iter().for_each(|bytes| page.offer(bytes).unwrap());
    page
}

#[test]
fn pages_of_small_runs() {
    assert_eq!(Page::default().numbers(), [0; PAGE_NUMBERS]);
    let cube = page_of(&[CUBE]);
    assert_eq!((cube.meshes, cube.corners, cube.borders), (1, 24, 48));
    assert_eq!((cube.refused, cube.refused_sharpness), ([0; 13], 0));
    assert_eq!(cube.largest_misses, [1 << 29, 8 << 30, 2 << 30, 0]);
    assert_eq!(cube.largest_ticks(), [0.5, 8.0, 2.0, 0.0]);
    // once more the same mesh: the largest misses stay, and so they do with a refused one
    let twice = page_of(&[CUBE, FLAT, CUBE]);
    assert_eq!((twice.meshes, twice.corners, twice.borders), (3, 48, 96));
    assert_eq!(twice.largest_misses, cube.largest_misses);
    assert_eq!(twice.refused, [0, 0, 0, 0, 0, 0, 0, 0, 0, 0, 0, 1, 0]);
    // in any order
    let files = [CUBE, FLAT, TORUS, b"DMX", CRISP_PRISM, &CUBE[..50]];
    let page = page_of(&files);
    let mut turned = files;
    for _ in 0..files.len() {
        turned.rotate_left(1);
        assert_eq!(page_of(&turned), page);
    }
    turned.reverse();
    assert_eq!(page_of(&turned), page);
    assert_eq!(Page::from_numbers(page.numbers()), page);
    for (larger, other) in page.largest_misses.iter().zip(cube.largest_misses) {
        assert!(*larger >= other);
    }
}

/// A refused file is counted under its own number; 28 is not 8.
#[test]
fn refused_files() {
    let mesh = decode(CUBE).unwrap();
    let file = |change: fn(&mut Mesh)| {
        let mut faulty = mesh.clone();
        change(&mut faulty);
        file_of(&faulty)
    };
    let files = [
        file(|mesh| mesh.corners[5] = 8),
        file(|mesh| mesh.sharpness[5] = 17),
        file(|mesh| {
            mesh.corners[5] = 8;
            mesh.sharpness[5] = 17;
        }),
        file(|mesh| mesh.coordinates[0] = 65_537),
        file(|mesh| mesh.corners[..4].reverse()),
        FLAT.to_vec(),
        b"DMS\x03\x00......".to_vec(),
        vec![],
    ];
    for (bytes, number) in files.iter().zip([8, 28, 8, 7, 10, 12, 2, 1]) {
        let fault = Fault::of_number(number).unwrap();
        assert_eq!(survey(bytes).unwrap_err().fault, fault);
        let page = page_of(&[bytes]);
        assert_eq!((page.meshes, page.corners, page.borders, page.largest_misses), (1, 0, 0, [0; 4]));
        for &other in Fault::ALL {
            let asked = match other.number() {
                1..=13 | 28 => Some(u64::from(other == fault)),
                _ => None,
            };
            assert_eq!(page.refused_by(other), asked, "{other:?} of a file refused by {number}");
        }
    }
}

/// 37 at 4,096 meshes, then 38 above 2^40 in any number; the page is as it was.
#[test]
fn limits_of_a_page() {
    let offered = |page: Page, bytes: &[u8]| {
        let mut next = page;
        let answer = next.offer(bytes);
        assert!(answer.is_ok() || next == page);
        answer.map(|()| next)
    };
    let cube = page_of(&[CUBE]);
    let full = Refusal::new(Fault::PageFull, MAX_PAGE_MESHES);
    let beyond = Refusal::new(Fault::PageNumber, 0);
    let mut page = Page::default();
    page.meshes = 4_095;
    assert_eq!(offered(page, CUBE).unwrap().meshes, 4_096);
    for bytes in [CUBE, FLAT, b""] {
        for meshes in [4_096, 4_097, MOST, MOST + 1, u64::MAX] {
            page = cube;
            page.meshes = meshes;
            assert_eq!(offered(page, bytes), Err(full));
            page.corners = u64::MAX;
            assert_eq!(offered(page, bytes), Err(full));
        }
        for position in 1..PAGE_NUMBERS {
            for number in [MOST, MOST + 1, u64::MAX] {
                let mut numbers = cube.numbers();
                numbers[position] = number;
                let answer = offered(Page::from_numbers(numbers), bytes);
                assert_eq!(answer.err(), (number > MOST).then_some(beyond), "number {position} is {number}");
            }
        }
    }
    // a count that passes the limit is seen by the next call
    page = Page::default();
    page.corners = MOST;
    page = offered(page, CUBE).unwrap();
    assert_eq!(page.corners, MOST + 24);
    assert_eq!(offered(page, CUBE), Err(beyond));
    assert_eq!(
        (full.to_string(), beyond.to_string()),
        (
            "refused 37: a page counts 4,096 meshes or more; two pages to be merged count more than 4,096".to_string(),
            "refused 38: a number on a page is above 2^40".to_string()
        )
    );
}

#[test]
fn merged_pages() {
    let merged = |page: Page, other: Page| {
        let mut both = page;
        let answer = both.merge(&other);
        assert!(answer.is_ok() || both == page);
        answer.map(|()| both)
    };
    let files = [CUBE, FLAT, TORUS, b"DMX", CRISP_PRISM, &CUBE[..50]];
    let whole = page_of(&files);
    for cut in 0..=files.len() {
        let [one, other] = [&files[..cut], &files[cut..]].map(page_of);
        assert_eq!(merged(one, other), Ok(whole));
        assert_eq!(merged(other, one), Ok(whole));
    }
    let of_meshes = |meshes: u64| {
        let mut page = Page::default();
        page.meshes = meshes;
        page
    };
    let full = Refusal::new(Fault::PageFull, MAX_PAGE_MESHES);
    for (one, other) in [(0, 0), (1, 4_095), (4_096, 0), (2_048, 2_048)] {
        assert_eq!(merged(of_meshes(one), of_meshes(other)), Ok(of_meshes(one + other)));
    }
    // sums that wrap in 64 bits too
    for (one, other) in
        [(1, 4_096), (4_097, 0), (2_049, 2_048), (u64::MAX, 1), (u64::MAX, u64::MAX), (1 << 63, 1 << 63)]
    {
        for (one, other) in [(one, other), (other, one)] {
            assert_eq!(merged(of_meshes(one), of_meshes(other)), Err(full), "{one} and {other}");
        }
    }
    for position in 1..PAGE_NUMBERS {
        let with = |number: u64| {
            let mut numbers = whole.numbers();
            numbers[position] = number;
            Page::from_numbers(numbers)
        };
        let both = merged(with(MOST), with(MOST)).unwrap();
        assert_eq!(both.numbers()[position], if position < 17 { 2 * MOST } else { MOST });
        let beyond = Err(Refusal::new(Fault::PageNumber, 0));
        assert_eq!(merged(with(MOST + 1), whole), beyond);
        assert_eq!(merged(whole, with(MOST + 1)), beyond);
        let mut many = with(u64::MAX);
        many.meshes = 4_091;
        assert_eq!(merged(many, whole), Err(full), "37 comes before 38");
        many.meshes = 4_090;
        assert_eq!(merged(many, whole), beyond);
    }
}

#[test]
fn a_page_in_words() {
    let text = page_of(&[CUBE, FLAT]).to_string();
    let lines: Vec<&str> = text.lines().collect();
    assert_eq!(lines[..4], ["meshes offered: 2", "corners built: 24", "borders met: 48", "refused by 1: 0"]);
    assert_eq!(lines[14..17], ["refused by 12: 1", "refused by 13: 0", "refused by 28: 0"]);
    let mut page = Page::default();
    page.largest_misses = [0, (1 << 30) / 16, 13 << 30, (5 << 30) - 1];
    let text = page.to_string();
    let ticks: Vec<&str> = text.lines().skip(17).collect();
    assert_eq!(
        ticks,
        [
            "largest miss of condition 1: 0.000 of 13 ticks",
            "largest miss of condition 2: 0.063 of 13 ticks",
            "largest miss of condition 3: 13.000 of 13 ticks",
            "largest miss of condition 4: 5.000 of 13 ticks",
        ]
    );
}

/// No bytes at all, bytes that are not held, and lengths that are another number's in 32 bits.
#[test]
fn files_of_odd_lengths() {
    let mut numbers = [0; PAGE_NUMBERS];
    let mut place = UNTOUCHED;
    assert_eq!(unsafe { raw::mahunopi_report(null(), 0, 0, &mut numbers, &mut place) }, 0);
    assert_eq!(unsafe { raw::mahunopi_report(null(), 0, u64::MAX, &mut numbers, &mut place) }, 0);
    assert_eq!((numbers[0], numbers[3], place), (2, 2, UNTOUCHED));
    assert_eq!(numbers.iter().sum::<u64>(), 4);
    let line = |bytes: &[u8], length: u64| {
        let mut page = Page::default();
        page.offer_counted(bytes, length).unwrap();
        (page.meshes, page.corners, page.refused.iter().position(|&times| times == 1).map(|line| line + 1))
    };
    let length = CUBE.len() as u64;
    assert_eq!(line(CUBE, length), (1, 24, None));
    for far in [length - 1, length + 1, (1 << 32) + length, u64::MAX] {
        assert_eq!(line(CUBE, far), (1, 0, Some(3)));
    }
    assert_eq!(line(&CUBE[..100], length), (1, 0, Some(3)));
    let mut longer = CUBE.to_vec();
    longer.extend([1, 2, 3]);
    assert_eq!(line(&longer, length), (1, 24, None));
    // counts beyond the limits: 4 where the length is the one that 3 asks, though not all bytes are held
    let mut many = b"DMS\x02\x00".to_vec();
    many.extend([255; 6]);
    assert_eq!(line(&many, 11 + 65_535 * 17), (1, 0, Some(4)));
    assert_eq!(line(&many, 12 + 65_535 * 17), (1, 0, Some(3)));
    for short in 0..11 {
        assert_eq!(line(&CUBE[..short], short as u64), (1, 0, Some(1)));
    }
    // a page that is refused does not look at the file
    let mut numbers = [7; PAGE_NUMBERS];
    numbers[0] = 4_096;
    assert_eq!(unsafe { raw::mahunopi_report(null(), 0, 0, &mut numbers, &mut place) }, 37);
    assert_eq!((numbers[0], &numbers[1..], place), (4_096, &[7; 20][..], 4_096));
}

/// The largest mesh, on a thread with the stack that the header names, and pages on several threads merged.
#[test]
fn the_stack_that_a_call_needs() {
    let (p, q) = (32, 64);
    let at = |i: usize, j: usize| ((i % p) * q + j % q) as u16;
    let coordinates = (0..p * q).flat_map(|v| [(v / q) as i32, -(v as i32), (v % 7) as i32]).collect();
    let corners = (0..p * q)
        .map(|f| (f / q, f % q))
        .flat_map(|(i, j)| [at(i, j), at(i, j + 1), at(i + 1, j + 1), at(i + 1, j)])
        .collect();
    let bytes = file_of(&Mesh::new(coordinates, vec![4; p * q], corners));
    let part = |bytes: Vec<u8>| {
        let call = move || page_of(&[&bytes]);
        thread::Builder::new().stack_size(CALL_STACK).spawn(call).unwrap()
    };
    let parts = [part(bytes.clone()), part(bytes)].map(|worker| worker.join().unwrap());
    let mut page = parts[0];
    page.merge(&parts[1]).unwrap();
    assert_eq!((page.meshes, page.corners, page.borders), (2, 16_384, 32_768));
    assert_eq!(page.largest_misses, parts[0].largest_misses);
}
