//! The nested grids as a table: which body's grid each body hangs in, and a listing in which every body stands after it.

use crate::{raw, refusal::answer, Refusal};

/// The most bodies of a table.
pub const MAX_BODIES: usize = 256;
/// What a table has for a body that hangs in the Sun's grid.
pub const SUN: u16 = 65_535;

/// Fills the lent listing, which has an entry for each body: faults 21 to 23. `holders` has, for each body, the number
/// of the body whose grid it hangs in, or [`SUN`].
pub fn nest_into(holders: &[u16], listing: &mut [u16]) -> Result<(), Refusal> {
    let mut place = 0;
    // SAFETY: each pointer goes with the length of its own slice, and the lent slices overlap nothing
    let number =
        unsafe { raw::mahunopi_nest(holders.as_ptr(), holders.len(), listing.as_mut_ptr(), listing.len(), &mut place) };
    answer(number, place)
}

/// The bodies, every one after the one that it hangs in, the lowest number first among those that may come next:
/// faults 21 to 23.
///
/// ```
/// use mahunopi::{nest, Fault, SUN};
///
/// // body 0 hangs in 2, which hangs in the Sun's grid, as 1 does
/// assert_eq!(nest(&[2, SUN, SUN])?, [1, 2, 0]);
/// // 0 and 1 hang in each other, and 2 in 1
/// let refusal = nest(&[1, 0, 1, SUN]).unwrap_err();
/// assert_eq!((refusal.fault, refusal.place), (Fault::ChainWithoutSun, 0));
/// # Ok::<(), mahunopi::Refusal>(())
/// ```
pub fn nest(holders: &[u16]) -> Result<Vec<u16>, Refusal> {
    let mut listing = vec![0; holders.len()];
    nest_into(holders, &mut listing)?;
    Ok(listing)
}
