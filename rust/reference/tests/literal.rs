//! The fast check against a literal one, which tries each number of 01 and L8 over the whole input by plain search, on
//! random meshes and damaged ones.

use reference::{check, links_of, Lists, Refusal};
use shapes::{damage, random_tables, Random, Tables, DAMAGES};

/// The lowest place of the first fault of 4 to 13, 27 and 28, or the links.
fn literal(tables: &Tables) -> Result<Vec<usize>, Refusal> {
    let Tables { coordinates, sides, corners, sharpness } = tables;
    let count = corners.len();
    let vertices = coordinates.len() / 3;
    let fault = |number: u32, place: Option<usize>| match place {
        Some(place) => Err(Refusal { number, place: place as u64 }),
        None => Ok(()),
    };
    let bad_lengths = coordinates.len() % 3 != 0
        || !(1..=2_048).contains(&vertices)
        || !(1..=4_096).contains(&sides.len())
        || !(1..=8_192).contains(&count);
    fault(4, bad_lengths.then_some(0))?;
    fault(27, (sharpness.len() != 2 * count).then_some(sharpness.len()))?;
    fault(5, sides.iter().position(|s| !(3..=16).contains(s)))?;
    let starts = tables.starts();
    let sum = starts[sides.len()];
    fault(6, (sum != count).then_some(sum))?;
    fault(7, coordinates.iter().position(|c| !(-65_536..=65_536).contains(c)))?;
    fault(8, corners.iter().position(|&v| usize::from(v) >= vertices))?;
    fault(28, sharpness.iter().position(|&s| s > 16))?;

    let face_of = |c: usize| starts.partition_point(|&start| start <= c) - 1;
    let next = |c: usize| if c + 1 == starts[face_of(c) + 1] { starts[face_of(c)] } else { c + 1 };
    let vertex = |c: usize| corners[c];
    let leaving: Vec<(u16, u16)> = (0..count).map(|c| (vertex(c), vertex(next(c)))).collect();
    let all = || 0..count;
    let repeats = |&c: &usize| (starts[face_of(c)]..c).any(|d| vertex(d) == vertex(c));
    fault(9, all().find(repeats))?;
    fault(10, all().find(|&c| leaving[..c].contains(&leaving[c])))?;
    let reverse = |c: usize| leaving.iter().position(|&(a, b)| (b, a) == leaving[c]);
    fault(11, all().find(|&c| reverse(c).is_none()))?;
    let of = |v: usize| all().filter(move |&c| usize::from(vertex(c)) == v);
    fault(12, (0..vertices).find(|&v| !(3..=16).contains(&of(v).count())))?;
    let links: Vec<usize> = all().map(|c| next(reverse(c).unwrap())).collect();
    let met = |v: usize| {
        let lowest = of(v).next().unwrap();
        let mut met = vec![lowest];
        while links[met[met.len() - 1]] != lowest {
            met.push(links[met[met.len() - 1]]);
        }
        met
    };
    fault(13, (0..vertices).find(|&v| of(v).any(|c| !met(v).contains(&c))))?;
    Ok(links)
}

fn lists(tables: &Tables) -> Lists<'_> {
    Lists {
        coordinates: &tables.coordinates,
        sides: &tables.sides,
        corners: &tables.corners,
        sharpness: &tables.sharpness,
    }
}

#[test]
fn the_fast_check_is_the_literal_one() {
    let mut random = Random::new(1);
    let mut seen = [0; 29];
    for case in 0..3_000 {
        let mut tables = random_tables(&mut random);
        if tables.corners.len() > 300 && case % 50 != 0 {
            continue;
        }
        for _ in 0..random.below(3) {
            let number = *random.pick(&DAMAGES);
            damage(&mut tables, number, &mut random);
        }
        let expected = literal(&tables);
        match &expected {
            Ok(links) => {
                let found = links_of(lists(&tables)).expect("an accepted mesh");
                assert!(found.iter().map(|&l| usize::from(l)).eq(links.iter().copied()), "case {case}");
                seen[0] += 1;
            }
            Err(refusal) => {
                assert_eq!(check(lists(&tables)), Err(*refusal), "case {case}");
                seen[refusal.number as usize] += 1;
            }
        }
    }
    let refused = DAMAGES.map(|number| seen[number as usize]);
    println!("accepted {}, refused by {DAMAGES:?}: {refused:?}", seen[0]);
    assert!(seen[0] > 100 && refused.iter().all(|&n| n >= 5), "{seen:?}");
}
