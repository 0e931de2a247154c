//! Two builds of the library in one process, in turns: what a change of it costs or gains. MAHUNOPI_BEFORE and
//! MAHUNOPI_AFTER name them as shared libraries; bench/builds makes these of two archives.

use std::ffi::CString;
use std::os::raw::{c_char, c_int, c_void};
use std::time::Duration;

use mahunopi::NUMBERS_PER_CORNER;
use shapes::Tables;

use crate::{least, RANGE};

pub const HEADING: &str = "| mesh | numbers | sharpness | corners | linking, ns per corner | before | ratio \
     | building, ns per corner | before | ratio | range, µs | before | ratio |\n|---|---|---|---|---|---|---|---|---|---|---|---|---|";

type Link = unsafe extern "C" fn(
    *const i32,
    usize,
    *const u8,
    usize,
    *const u16,
    usize,
    *const u8,
    usize,
    *mut u16,
    usize,
    *mut u64,
) -> u32;
type Build = unsafe extern "C" fn(
    *const i32,
    usize,
    *const u8,
    usize,
    *const u16,
    usize,
    *const u8,
    usize,
    *const u16,
    usize,
    usize,
    usize,
    *mut i32,
    usize,
    *mut u64,
) -> u32;

extern "C" {
    fn dlopen(file: *const c_char, flags: c_int) -> *mut c_void;
    fn dlsym(library: *mut c_void, name: *const c_char) -> *mut c_void;
}

/// A build of the library: its two calls, with the signatures of include/mahunopi.h.
pub struct Library {
    link: Link,
    build: Build,
}

impl Library {
    /// The one whose file an environment variable names.
    pub fn named(variable: &str) -> Library {
        const AT_ONCE: c_int = 2;
        let text = |text: &str| CString::new(text).expect("a name has no zero byte");
        let file = std::env::var(variable).unwrap_or_else(|_| panic!("{variable} names no shared library"));
        // SAFETY: the pointers are of strings that end in a zero byte; what is found has the header's signatures
        unsafe {
            let library = dlopen(text(&file).as_ptr(), AT_ONCE);
            assert!(!library.is_null(), "{file} cannot be loaded");
            let find = |name: &str| {
                let found = dlsym(library, text(name).as_ptr());
                assert!(!found.is_null(), "{file} has no {name}");
                found
            };
            Library {
                link: std::mem::transmute::<*mut c_void, Link>(find("mahunopi_link")),
                build: std::mem::transmute::<*mut c_void, Build>(find("mahunopi_build")),
            }
        }
    }

    fn link(&self, mesh: &Tables, links: &mut [u16]) {
        let mut place = 0;
        // SAFETY: each pointer comes with its list's length
        let refusal = unsafe {
            (self.link)(
                mesh.coordinates.as_ptr(),
                mesh.coordinates.len(),
                mesh.sides.as_ptr(),
                mesh.sides.len(),
                mesh.corners.as_ptr(),
                mesh.corners.len(),
                mesh.sharpness.as_ptr(),
                mesh.sharpness.len(),
                links.as_mut_ptr(),
                links.len(),
                &mut place,
            )
        };
        assert!(refusal == 0, "refused by {refusal} at {place}");
    }

    fn build(&self, mesh: &Tables, links: &[u16], first: usize, count: usize, output: &mut [i32]) {
        let mut place = 0;
        // SAFETY: each pointer comes with its list's length
        let refusal = unsafe {
            (self.build)(
                mesh.coordinates.as_ptr(),
                mesh.coordinates.len(),
                mesh.sides.as_ptr(),
                mesh.sides.len(),
                mesh.corners.as_ptr(),
                mesh.corners.len(),
                mesh.sharpness.as_ptr(),
                mesh.sharpness.len(),
                links.as_ptr(),
                links.len(),
                first,
                count,
                output.as_mut_ptr(),
                output.len(),
                &mut place,
            )
        };
        assert!(refusal == 0, "refused by {refusal} at {place}");
    }
}

/// A line of the table: linking, building and a range of a mesh by both.
pub fn line(before: &Library, after: &Library, name: &str, word: &str, mesh: &Tables, budget: Duration) {
    let count = mesh.corners.len();
    let mut tables = [vec![0; count], vec![0; count]];
    let [new, old] = &mut tables;
    let link = least(budget, || after.link(mesh, new), || before.link(mesh, old));
    let [links, old] = tables;
    assert!(links == old, "{name}: the link tables differ");

    let build = |first: usize, count: usize| {
        let mut outputs = [vec![0; NUMBERS_PER_CORNER * count], vec![0; NUMBERS_PER_CORNER * count]];
        let [new, old] = &mut outputs;
        let pair = least(
            budget,
            || after.build(mesh, &links, first, count, new),
            || before.build(mesh, &links, first, count, old),
        );
        assert!(outputs[0] == outputs[1], "{name}: the control points differ");
        pair
    };
    let range = RANGE.min(count);
    let (whole, part) = (build(0, count), build((count - range) / 2, range));
    let each = 1e9 / count as f64;
    println!(
        "| {name} | {word} | {count} | {:.1} | {:.1} | {:.3} | {:.1} | {:.1} | {:.3} | {:.1} | {:.1} | {:.3} |",
        each * link.library,
        each * link.reference,
        link.ratio(),
        each * whole.library,
        each * whole.reference,
        whole.ratio(),
        1e6 * part.library,
        1e6 * part.reference,
        part.ratio(),
    );
}
