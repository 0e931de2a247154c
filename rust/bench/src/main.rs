//! Times of the proved library beside the independent implementation in plain Rust, in one run:
//!
//!     cargo run --release --offline -p bench [SECONDS [TABLE..]]
//!
//! Each figure is the least of many passes, with turns of three between the two; SECONDS (1 by default) is what one
//! figure may take. The tables, all by default:
//! - `meshes`: linking and building in nanoseconds per corner, a range of 64 corners in microseconds per call, with
//!   sharpness 8 and 8 throughout and at random;
//! - `drags`: the preview of a moved vertex beside building the same range, and a drag: the corners that the vertex
//!   touches, by ranges, beside building the whole mesh;
//! - `archive`: archiving and restoring, in nanoseconds per number;
//! - `samples`: samples of a patch, in nanoseconds per sample;
//! - `triangles`: the whole surface as triangles beside building it and sampling each net's four triangles;
//! - `turning`: turning faces beside linking the same mesh;
//! - `report`: the border report beside building all corners;
//! - `builds`, only where it is named: linking and building by two builds of the library (bench/builds).

mod builds;
mod report;
mod samples;
mod triangles;
mod turning;

use std::time::{Duration, Instant};

use mahunopi::{Mesh, NUMBERS_PER_CORNER};
use reference::Lists;
use shapes::{Places, Random, Sharpness, Solid, Tables};

/// The corners of a range, where a mesh has as many.
const RANGE: usize = 64;
/// A pass repeats a call until it takes about this long.
const PASS: Duration = Duration::from_micros(200);
/// The passes of a turn: the first finds the caches full of the other side's data.
const TURN: usize = 3;

/// The least time of one call, of the library and of the reference.
#[derive(Clone, Copy)]
struct Pair {
    library: f64,
    reference: f64,
}

impl Pair {
    fn ratio(self) -> f64 {
        self.library / self.reference
    }
}

/// The least seconds that one call takes, over passes of both that take turns for `budget`.
fn least(budget: Duration, mut library: impl FnMut(), mut reference: impl FnMut()) -> Pair {
    let pass = |call: &mut dyn FnMut(), times: u32| {
        let start = Instant::now();
        for _ in 0..times {
            call();
        }
        start.elapsed()
    };
    let times_of = |call: &mut dyn FnMut()| {
        let once = pass(call, 1).min(pass(call, 1)).max(Duration::from_nanos(20));
        (PASS.as_nanos() / once.as_nanos()).max(1) as u32
    };
    let times = [times_of(&mut library), times_of(&mut reference)];
    let mut best = [Duration::MAX; 2];
    let start = Instant::now();
    while start.elapsed() < budget {
        for _ in 0..TURN {
            best[0] = best[0].min(pass(&mut library, times[0]));
        }
        for _ in 0..TURN {
            best[1] = best[1].min(pass(&mut reference, times[1]));
        }
    }
    Pair {
        library: best[0].as_secs_f64() / f64::from(times[0]),
        reference: best[1].as_secs_f64() / f64::from(times[1]),
    }
}

/// How vertices and faces are numbered.
#[derive(Clone, Copy)]
enum Numbers {
    /// In the order that the solid was drawn in: neighbours are near each other in the lists.
    Drawn,
    /// At random, each face begun at another corner: what the lists name lies anywhere.
    Random,
}

impl Numbers {
    fn tables(self, solid: &Solid) -> Tables {
        match self {
            Numbers::Drawn => Tables::of(solid),
            Numbers::Random => Tables::relabelled(solid, Places::Shaken, &mut Random::new(9)),
        }
    }

    fn word(self) -> &'static str {
        match self {
            Numbers::Drawn => "drawn",
            Numbers::Random => "random",
        }
    }
}

/// A mesh by name, with how it is numbered and sharpened.
type Named = (&'static str, Solid, Numbers, Sharpness);

fn sharpness_word(sharpness: Sharpness) -> &'static str {
    if sharpness == Sharpness::Plain {
        "8 and 8"
    } else {
        "random"
    }
}

/// The figures of a mesh.
struct Figures {
    corners: usize,
    link: Pair,
    build: Pair,
    range: Pair,
}

fn measure(name: &str, tables: Tables, budget: Duration) -> Figures {
    let Tables { coordinates, sides, corners, sharpness } = tables;
    let mesh = Mesh::new(coordinates, sides, corners).with_sharpness(sharpness);
    let lists = Lists {
        coordinates: &mesh.coordinates,
        sides: &mesh.sides,
        corners: &mesh.corners,
        sharpness: &mesh.sharpness,
    };
    let count = mesh.corners.len();
    let accepted = "an accepted mesh";

    let mut tables = [vec![0; count], vec![0; count]];
    let [library, plain] = &mut tables;
    let link = least(
        budget,
        || mahunopi::link_into(&mesh, library).expect(accepted),
        || reference::link(lists, plain).expect(accepted),
    );
    let [links, plain] = tables;
    assert!(links == plain, "{name}: the link tables differ");

    let build = |first: usize, count: usize| {
        let mut outputs = [vec![0; NUMBERS_PER_CORNER * count], vec![0; NUMBERS_PER_CORNER * count]];
        let [library, plain] = &mut outputs;
        let pair = least(
            budget,
            || mahunopi::build_into(&mesh, &links, first, count, library).expect(accepted),
            || reference::build(lists, &links, first, count, plain).expect(accepted),
        );
        assert!(outputs[0] == outputs[1], "{name}: the control points differ");
        pair
    };
    let range = RANGE.min(count);
    Figures { corners: count, link, build: build(0, count), range: build((count - range) / 2, range) }
}

/// The bytes of the numbers, plane by plane, with no difference taken: what the rearranging alone costs.
fn planes(numbers: &[i32], bytes: &mut [u8]) {
    let count = numbers.len();
    let (lower, upper) = bytes.split_at_mut(2 * count);
    let ((lowest, second), (third, highest)) = (lower.split_at_mut(count), upper.split_at_mut(count));
    for i in 0..count {
        [lowest[i], second[i], third[i], highest[i]] = numbers[i].to_le_bytes();
    }
}

/// Archiving and restoring lists of all 32-bit numbers, beside the reference and beside planes without differences.
fn measure_archive(budget: Duration) {
    println!();
    println!(
        "| numbers | archiving, ns per number | plain | ratio | planes alone | restoring, ns per number | plain | ratio |"
    );
    println!("|---|---|---|---|---|---|---|---|");
    let mut random = Random::new(11);
    let accepted = "a list of vertices";
    for count in [3, 12, 24, 36, 48, 96, 288, 6_144, 60_000, 600_000] {
        let numbers: Vec<i32> = (0..count).map(|_| random.bits() as i32).collect();
        let mut bytes = [vec![0; 4 * count], vec![0; 4 * count]];
        let [library, plain] = &mut bytes;
        let archive = least(
            budget,
            || mahunopi::archive_into(&numbers, library).expect(accepted),
            || reference::archive(&numbers, plain).expect(accepted),
        );
        assert!(library == plain, "the archived bytes differ");
        let archived = library.clone();
        let alone = least(budget, || planes(&numbers, library), || planes(&numbers, plain)).reference;
        let mut lists = [vec![0; count], vec![0; count]];
        let [library, plain] = &mut lists;
        let restore = least(
            budget,
            || mahunopi::restore_into(&archived, library).expect(accepted),
            || reference::restore(&archived, plain).expect(accepted),
        );
        assert!(*library == numbers && *plain == numbers, "the numbers do not come back");
        let each = 1e9 / count as f64;
        println!(
            "| {count} | {:.2} | {:.2} | {:.2} | {:.2} | {:.2} | {:.2} | {:.2} |",
            each * archive.library,
            each * archive.reference,
            archive.ratio(),
            each * alone,
            each * restore.library,
            each * restore.reference,
            restore.ratio(),
        );
    }
}

/// The preview beside building, of the whole and of a range, and a drag beside the whole: a line of the last table.
fn drag(name: &str, word: &str, tables: Tables, budget: Duration) {
    let Tables { coordinates, sides, corners, sharpness } = tables;
    let mesh = Mesh::new(coordinates, sides, corners).with_sharpness(sharpness);
    let count = mesh.corners.len();
    let accepted = "an accepted mesh";
    let links = mahunopi::link(&mesh).expect(accepted);
    let vertex = mesh.coordinates.len() / 6;
    let to = [1, 2, 3];
    let beside = |first: usize, count: usize| {
        let mut outputs = [vec![0; NUMBERS_PER_CORNER * count], vec![0; NUMBERS_PER_CORNER * count]];
        let [tried, built] = &mut outputs;
        least(
            budget,
            || mahunopi::preview_into(&mesh, &links, first, count, vertex, to, tried).expect(accepted),
            || mahunopi::build_into(&mesh, &links, first, count, built).expect(accepted),
        )
    };
    let range = RANGE.min(count);
    let (whole, part) = (beside(0, count), beside((count - range) / 2, range));

    // a drag: the marks are made once, the ranges previewed at every step
    let corners = mahunopi::touched(&mesh, vertex).expect(accepted);
    let ranges = mahunopi::ranges(&corners, count / 12);
    let rebuilt: usize = ranges.iter().map(|range| range.len()).sum();
    let mut points = mahunopi::build(&mesh, &links, 0, count).expect(accepted);
    let mut built = points.clone();
    let mut marks = vec![0; count];
    let step = least(
        budget,
        || {
            for range in &ranges {
                let part = &mut points[NUMBERS_PER_CORNER * range.start..NUMBERS_PER_CORNER * range.end];
                mahunopi::preview_into(&mesh, &links, range.start, range.len(), vertex, to, part).expect(accepted);
            }
        },
        || mahunopi::build_into(&mesh, &links, 0, count, &mut built).expect(accepted),
    );
    let touch = least(budget, || mahunopi::touched_into(&mesh, vertex, &mut marks).expect(accepted), || ());
    let tried = mahunopi::preview(&mesh, &links, 0, count, vertex, to).expect(accepted);
    assert!(tried == points, "{name}: a drag by ranges leaves other control points");
    println!(
        "| {name} | {word} | {count} | {:.3} | {:.3} | {} | {} | {rebuilt} | {:.1} | {:.1} | {:.2} | {:.1} |",
        whole.ratio(),
        part.ratio(),
        corners.len(),
        ranges.len(),
        1e6 * step.library,
        1e6 * step.reference,
        step.ratio(),
        1e6 * touch.library,
    );
}

fn main() {
    let seconds = std::env::args().nth(1).map_or(1.0, |text| text.parse().expect("a number of seconds"));
    let budget = Duration::from_secs_f64(seconds);
    let tables: Vec<String> = std::env::args().skip(2).collect();
    let wanted = |table: &str| tables.is_empty() || tables.iter().any(|name| name == table);
    let mut random = Random::new(10);
    let prisms = (1..85).fold(Solid::prism(12), |all, _| all.with(Solid::prism(12)));
    let irregular = Solid::torus(20, 30).roughened(&mut random, 20_000, 8_000);
    use Numbers::{Drawn, Random as Shuffled};
    use Sharpness::{Plain, Random as Sharp};
    let meshes = [
        ("cube", Solid::cube(), Shuffled, Plain),
        ("85 twelve-sided prisms", prisms.clone(), Shuffled, Plain),
        ("mixed irregular mesh", irregular.clone(), Shuffled, Plain),
        ("torus", Solid::torus(16, 16), Shuffled, Plain),
        ("torus", Solid::torus(16, 32), Shuffled, Plain),
        ("torus", Solid::torus(32, 32), Shuffled, Plain),
        ("torus", Solid::torus(32, 64), Shuffled, Plain),
        ("torus", Solid::torus(16, 16), Drawn, Plain),
        ("torus", Solid::torus(32, 64), Drawn, Plain),
        ("85 twelve-sided prisms", prisms, Shuffled, Sharp),
        ("mixed irregular mesh", irregular, Shuffled, Sharp),
        ("torus", Solid::torus(32, 64), Shuffled, Sharp),
    ];
    if wanted("meshes") {
        measure_meshes(&meshes, budget);
    }
    if wanted("drags") {
        measure_drags(&meshes, budget);
    }
    if wanted("archive") {
        measure_archive(budget);
    }
    if wanted("samples") {
        samples::measure(budget);
    }
    if wanted("triangles") {
        triangles::measure(budget);
    }
    if wanted("turning") {
        measure_turning(&meshes, budget);
    }
    if wanted("report") {
        measure_report(&meshes, budget);
    }
    if tables.iter().any(|name| name == "builds") {
        measure_builds(&meshes, budget);
    }
}

/// Each mesh by two builds of the library. L3's benchmark is the line of the prisms.
fn measure_builds(meshes: &[Named], budget: Duration) {
    let [before, after] = ["MAHUNOPI_BEFORE", "MAHUNOPI_AFTER"].map(builds::Library::named);
    println!("{}", builds::HEADING);
    for (name, solid, numbers, sharpness) in meshes {
        let word = format!("{} | {}", numbers.word(), sharpness_word(*sharpness));
        let tables = numbers.tables(solid).sharpened(*sharpness, &mut Random::new(11));
        builds::line(&before, &after, name, &word, &tables, budget);
    }
}

/// The report of each mesh, and of the smallest one: what a call costs whatever the mesh counts most there.
fn measure_report(meshes: &[Named], budget: Duration) {
    println!("{}", report::HEADING);
    let mut largest = 0.0f64;
    let smallest = ("tetrahedron", Solid::tetrahedron(), Numbers::Random, Sharpness::Plain);
    for (name, solid, numbers, sharpness) in std::iter::once(&smallest).chain(meshes) {
        let word = format!("{} | {}", numbers.word(), sharpness_word(*sharpness));
        let tables = numbers.tables(solid).sharpened(*sharpness, &mut Random::new(11));
        largest = largest.max(report::line(name, &word, tables, budget));
    }
    let kept = if largest <= report::LIMIT { "kept" } else { "NOT kept" };
    println!(
        "\nThe report takes at most {largest:.2} times as long as building; its limit of {} is {kept}.",
        report::LIMIT
    );
}

/// Turning the faces of each mesh.
fn measure_turning(meshes: &[Named], budget: Duration) {
    println!("{}", turning::HEADING);
    for (name, solid, numbers, sharpness) in meshes {
        let word = format!("{} | {}", numbers.word(), sharpness_word(*sharpness));
        turning::line(name, &word, numbers.tables(solid).sharpened(*sharpness, &mut Random::new(11)), budget);
    }
}

/// Linking, building and a range of each mesh, and how they grow.
fn measure_meshes(meshes: &[Named], budget: Duration) {
    println!(
        "| mesh | numbers | sharpness | corners | linking, ns per corner | plain | ratio | building, ns per corner | plain | ratio \
              | range of {RANGE}, µs | plain | ratio | range over linking |"
    );
    println!("|---|---|---|---|---|---|---|---|---|---|---|---|---|---|");
    let mut figures = Vec::new();
    for (name, solid, numbers, sharpness) in meshes {
        let tables = numbers.tables(solid).sharpened(*sharpness, &mut Random::new(11));
        let found = measure(name, tables, budget);
        let each = 1e9 / found.corners as f64;
        let Figures { link, build, range, .. } = found;
        println!(
            "| {} | {} | {} | {} | {:.1} | {:.1} | {:.2} | {:.0} | {:.0} | {:.2} | {:.1} | {:.1} | {:.2} | {:.2} |",
            name,
            numbers.word(),
            sharpness_word(*sharpness),
            found.corners,
            each * link.library,
            each * link.reference,
            link.ratio(),
            each * build.library,
            each * build.reference,
            build.ratio(),
            1e6 * range.library,
            1e6 * range.reference,
            range.ratio(),
            range.library / link.library,
        );
        figures.push(found);
    }
    // the torus of 8,192 corners against that of 1,024, per corner, in each numbering
    println!();
    println!("| growth per corner from 1024 to 8192 corners | numbers | library | plain |");
    println!("|---|---|---|---|");
    for (small, large, numbers) in [(3, 6, Numbers::Random), (7, 8, Numbers::Drawn)] {
        let [small, large] = [&figures[small], &figures[large]];
        let growth =
            |time: fn(&Figures) -> f64| time(large) / time(small) * small.corners as f64 / large.corners as f64;
        let line = |what: &str, library: f64, plain: f64| {
            println!("| {what} | {} | {library:.2} | {plain:.2} |", numbers.word());
        };
        line("linking", growth(|f| f.link.library), growth(|f| f.link.reference));
        line("building", growth(|f| f.build.library), growth(|f| f.build.reference));
    }
}

/// Previews and drags on each mesh.
fn measure_drags(meshes: &[Named], budget: Duration) {
    println!();
    println!(
        "| mesh | numbers | sharpness | corners | preview over building | of a range of {RANGE} | touched corners | ranges | rebuilt \
              | a step of a drag, µs | building all, µs | ratio | marking, µs |"
    );
    println!("|---|---|---|---|---|---|---|---|---|---|---|---|---|");
    for (name, solid, numbers, sharpness) in meshes {
        let word = format!("{} | {}", numbers.word(), sharpness_word(*sharpness));
        drag(name, &word, numbers.tables(solid).sharpened(*sharpness, &mut Random::new(11)), budget);
    }
}
