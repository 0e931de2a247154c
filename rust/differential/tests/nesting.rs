//! The listing of nested grids: the proved library and the program `nest` against the independent implementation.

use differential::each_case;
use differential::program::{beside, find, run};
use mahunopi::{raw, MAX_BODIES, SUN};
use reference::Refusal;
use shapes::Random;

/// What `place` and the listing hold before a call.
const UNTOUCHED: u64 = 0xfeed_0000_0000_beef;

/// The library and the reference on the same table and the same lent listing: the same answer, place and contents.
fn nest(holders: &[u16], room: usize, random: &mut Random) -> Result<Vec<u16>, Refusal> {
    let old: Vec<u16> = (0..room).map(|_| random.bits() as u16).collect();
    let mut listing = old.clone();
    let mut place = UNTOUCHED;
    // SAFETY: each pointer goes with the length of its own list
    let number =
        unsafe { raw::mahunopi_nest(holders.as_ptr(), holders.len(), listing.as_mut_ptr(), listing.len(), &mut place) };
    let expected = reference::nest(holders, room);
    match &expected {
        Ok(order) => {
            assert_eq!((number, place), (0, UNTOUCHED), "{holders:?}");
            assert!(listing == *order, "{holders:?} is listed as {listing:?}, not {order:?}");
        }
        Err(refusal) => {
            assert_eq!(Refusal { number, place }, *refusal, "{holders:?}");
            assert!(listing == old, "{holders:?} is refused, and the listing changes");
        }
    }
    expected
}

/// The listing as the request puts it: again and again the lowest body not yet listed whose holder is listed or the Sun.
fn literal(holders: &[u16]) -> Option<Vec<u16>> {
    let mut listing = Vec::new();
    while listing.len() < holders.len() {
        let may_follow = |body: u16| {
            let holder = holders[usize::from(body)];
            !listing.contains(&body) && (holder == SUN || listing.contains(&holder))
        };
        let next = (0..holders.len() as u16).find(|&body| may_follow(body))?;
        listing.push(next);
    }
    Some(listing)
}

#[test]
fn all_tables_of_up_to_five_bodies() {
    let mut random = Random::new(41);
    let mut accepted = 0;
    for bodies in 0..=5usize {
        // every body, the Sun, and the first number that is neither
        let numbers: Vec<u16> = (0..=bodies as u16).chain([SUN]).collect();
        for table in 0..numbers.len().pow(bodies as u32) {
            let digit = |place: u32| numbers[table / numbers.len().pow(place) % numbers.len()];
            let holders: Vec<u16> = (0..bodies as u32).map(digit).collect();
            match nest(&holders, bodies, &mut random) {
                Ok(listing) => {
                    accepted += 1;
                    assert_eq!(literal(&holders), Some(listing));
                }
                Err(Refusal { number: 23, .. }) => assert_eq!(literal(&holders), None),
                Err(_) => {}
            }
        }
    }
    // the forests of 1 to 5 labelled bodies: 1, 3, 16, 125, 1,296
    assert_eq!(accepted, 1 + 3 + 16 + 125 + 1_296);
}

/// A forest whose bodies hang in earlier ones of a random order.
fn forest(bodies: usize, random: &mut Random) -> Vec<u16> {
    let mut order: Vec<u16> = (0..bodies as u16).collect();
    random.shuffle(&mut order);
    let mut holders = vec![SUN; bodies];
    let near = 1 + random.below(bodies);
    for place in 1..bodies {
        if !random.once_in(8) {
            let back = 1 + random.below(place.min(near));
            holders[usize::from(order[place])] = order[place - back];
        }
    }
    holders
}

#[test]
fn random_tables_sound_and_damaged() {
    let mut counts = [0; 4];
    each_case(3_000, 42, |_, random| {
        let bodies = *random.pick(&[1, 2, 7, 40, 255, 256, 256, 257]);
        let mut holders = forest(bodies, random);
        // up to two faults at once: rings, self loops, numbers that are neither
        for _ in 0..random.below(3) {
            let body = random.below(bodies);
            holders[body] = match random.below(4) {
                0 => body as u16,
                1 => *random.pick(&[bodies as u16, SUN - 1, 300]),
                _ => random.below(bodies) as u16,
            };
        }
        let room = if random.once_in(20) { random.below(300) } else { bodies };
        match nest(&holders, room, random) {
            Ok(listing) => {
                counts[0] += 1;
                assert_eq!(literal(&holders), Some(listing));
            }
            Err(refusal) => counts[refusal.number as usize - 20] += 1,
        }
    });
    println!("listed {}, refused by 21, 22, 23: {:?}", counts[0], &counts[1..]);
    assert!(std::env::var_os("MAHUNOPI_CASE").is_some() || counts.iter().all(|&count| count > 0));
}

#[test]
fn long_chains_rings_and_every_refusal() {
    let mut random = Random::new(43);
    let count = MAX_BODIES as u16;
    // chains of 256 upwards and downwards; then the end of the chain hangs in its beginning
    let mut up: Vec<u16> = (0..count).map(|body| body.wrapping_sub(1)).collect();
    let down: Vec<u16> = (1..count).chain([SUN]).collect();
    assert_eq!(up[0], SUN);
    assert_eq!(nest(&up, MAX_BODIES, &mut random), Ok((0..count).collect()));
    assert_eq!(nest(&down, MAX_BODIES, &mut random), Ok((0..count).rev().collect()));
    up[0] = count - 1;
    let refusal = |number, place| Err(Refusal { number, place });
    assert_eq!(nest(&up, MAX_BODIES, &mut random), refusal(23, 0));
    assert_eq!(nest(&[SUN; 256], MAX_BODIES, &mut random), Ok((0..count).collect()));
    // all of 21, before a 22 and a 23
    assert_eq!(nest(&[], 0, &mut random), refusal(21, 0));
    assert_eq!(nest(&[], 1, &mut random), refusal(21, 0));
    assert_eq!(nest(&[SUN; 257], 257, &mut random), refusal(21, 0));
    assert_eq!(nest(&[0, 9], 1, &mut random), refusal(21, 0));
    assert_eq!(nest(&[0, 9], 3, &mut random), refusal(21, 0));
    // 22 at the lowest body, before any 23
    assert_eq!(nest(&[0, 9, 8], 3, &mut random), refusal(22, 1));
    assert_eq!(nest(&[SUN, SUN - 1], 2, &mut random), refusal(22, 1));
    // 23: a self loop; a body that runs into a ring, lower than the ring
    assert_eq!(nest(&[SUN, 1], 2, &mut random), refusal(23, 1));
    assert_eq!(nest(&[SUN, 2, 3, 4, 3], 5, &mut random), refusal(23, 1));
    // neither breadth first nor depth first
    assert_eq!(nest(&[SUN, 0, SUN], 3, &mut random), Ok(vec![0, 1, 2]));
    assert_eq!(nest(&[SUN, SUN, 0], 3, &mut random), Ok(vec![0, 1, 2]));
}

fn text_of(holders: &[u16]) -> Vec<u8> {
    let line = |&holder: &u16| if holder == SUN { "sun\n".to_string() } else { format!("{holder}\n") };
    holders.iter().map(line).collect::<String>().into_bytes()
}

#[test]
fn nest_prints_listings_pictures_and_refusals() {
    let path = find("nest");
    let compare = |text: &[u8]| {
        let written = run(&path, &[], text, 4_099);
        let expected = match reference::nest_lines(text) {
            Ok(lines) => (lines.clone(), beside(&lines)),
            Err(line) => (String::new(), line),
        };
        let output = String::from_utf8(written.output).expect("plain text");
        assert_eq!((output, written.said), expected, "of {:?}", String::from_utf8_lossy(text));
    };
    for text in ["", "\n", "sun", "sun\n\n", "sun\n0\nsun\n", "Sun\n", "sun \n", "-1\n", "+1\n", "sun\nx\ny\n"] {
        compare(text.as_bytes());
    }
    for text in ["65535\n", "65536\n", "999999999\n", "1000000000\n", "000000000\n", "sun\r\n", "sun\n00000\n", "\0\n"]
    {
        compare(text.as_bytes());
    }
    compare(&b"sun\n".repeat(256));
    compare(&b"sun\n".repeat(257));
    compare(&b"sun\n".repeat(3_000));
    compare(&[&b"sun\n".repeat(257)[..], b"x\n"].concat());
    compare(&[&b"sun\n".repeat(256)[..], b"x\n"].concat());
    compare(&[b'7'; 10_000]);
    compare(&b"000000255\n".repeat(256));
    each_case(200, 44, |_, random| {
        let bodies = 1 + random.below(256);
        let mut holders = forest(bodies, random);
        if random.once_in(3) {
            let body = random.below(bodies);
            holders[body] = random.below(bodies + 2) as u16;
        }
        let mut text = text_of(&holders);
        if random.once_in(4) {
            let at = random.below(text.len());
            text[at] = *random.pick(b"\n 9xs-");
        }
        compare(&text);
    });
}
