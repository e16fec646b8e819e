//! Compares the proved library with the hand-written one on generated modules and their tables, on lists of runs and on
//! single accesses and lookups: by the box's limits, and modules and runs by others too.

mod accesses;
mod by_origin;
mod counts;
mod difference;
mod files;
mod limits;
mod lists;
mod lookups;
mod plan;
mod shapes;
mod signed;
mod tally;
mod turns;
mod worked;
mod written;

pub use difference::Difference;
pub use limits::Limited;
pub use lookups::Looked;
pub use signed::Seen;
pub use tally::Tally;
pub use worked::Worked;
pub use written::Written;

use accesses::Access;
use difference::guarded;

/// The seed where none is named.
pub const SEED: u64 = 20_260_101;

/// Compares `modules` files, `lists` lists of runs and every single access. Stops at the first difference.
pub fn compare(seed: u64, modules: u64, lists: u64) -> Result<Tally, Difference> {
    let mut tally = Tally::default();
    for (case, access) in (0..).zip(Access::all()) {
        guarded(|| access.compare(&mut tally.accesses))
            .map_err(|what| Difference::new(seed, "access", case, what))?;
    }
    for case in 0..modules {
        guarded(|| files::compare_file(seed, case, &mut tally))
            .map_err(|what| Difference::new(seed, "module", case, what))?;
    }
    for case in 0..lists {
        guarded(|| lists::compare_list(seed, case, &mut tally))
            .map_err(|what| Difference::new(seed, "list", case, what))?;
    }
    Ok(tally)
}
