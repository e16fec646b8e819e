//! How often each of some kinds occurred, by how the modules were made: a table with a row for each.

use modules::generate::Origin;
use std::collections::BTreeMap;
use std::fmt;

/// Times by origin, in the order of `Origin::ALL`.
pub struct ByOrigin<Kind>(BTreeMap<Kind, [u64; Origin::ALL.len()]>);

impl<Kind> Default for ByOrigin<Kind> {
    fn default() -> Self {
        ByOrigin(BTreeMap::new())
    }
}

impl<Kind: Ord> ByOrigin<Kind> {
    pub fn count(&mut self, kind: Kind, origin: Origin) {
        self.0.entry(kind).or_default()[origin as usize] += 1;
    }

    pub fn of(&self, kind: &Kind, origin: Origin) -> u64 {
        self.0.get(kind).map_or(0, |times| times[origin as usize])
    }

    pub fn has(&self, kind: &Kind) -> bool {
        self.0.contains_key(kind)
    }

    /// How often any of them occurred.
    pub fn all(&self) -> u64 {
        self.0.values().flatten().sum()
    }
}

impl<Kind: fmt::Display> fmt::Display for ByOrigin<Kind> {
    fn fmt(&self, out: &mut fmt::Formatter<'_>) -> fmt::Result {
        write!(out, "{:<30}", "")?;
        for origin in Origin::ALL {
            write!(out, " {:>9}", origin.name())?;
        }
        writeln!(out, " {:>9}", "all")?;
        for (kind, times) in &self.0 {
            write!(out, "  {kind:<28}")?;
            for times in times {
                write!(out, " {times:>9}")?;
            }
            writeln!(out, " {:>9}", times.iter().sum::<u64>())?;
        }
        Ok(())
    }
}
