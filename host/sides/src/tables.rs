//! A module's tables for both sides.

use crate::{hand_written, proved};
use modules::tables;

/// A module's tables as each side takes them, made beforehand, so that a call copies nothing.
pub struct Tables {
    pub(crate) proved: proved::Tables,
    pub(crate) hand_written: hand_written::Tables,
}

impl Tables {
    pub fn new(tables: &tables::Tables) -> Tables {
        Tables {
            proved: proved::Tables::new(tables),
            hand_written: hand_written::Tables::new(tables),
        }
    }
}
