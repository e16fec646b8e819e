//! What is reported when the two differ: enough to make the case again.

use std::any::Any;
use std::fmt;
use std::panic::{catch_unwind, AssertUnwindSafe};

/// A case in which the two implementations differ, or one breaks a promise.
pub struct Difference {
    seed: u64,
    kind: &'static str,
    case: u64,
    what: String,
}

impl Difference {
    pub fn new(seed: u64, kind: &'static str, case: u64, what: String) -> Difference {
        Difference {
            seed,
            kind,
            case,
            what,
        }
    }
}

impl fmt::Display for Difference {
    fn fmt(&self, out: &mut fmt::Formatter<'_>) -> fmt::Result {
        let Difference {
            seed,
            kind,
            case,
            what,
        } = self;
        write!(out, "seed {seed}, {kind} {case}: {what}")
    }
}

impl fmt::Debug for Difference {
    fn fmt(&self, out: &mut fmt::Formatter<'_>) -> fmt::Result {
        fmt::Display::fmt(self, out)
    }
}

/// A case's result. A panic of either implementation is a difference too.
pub fn guarded(case: impl FnOnce() -> Result<(), String>) -> Result<(), String> {
    catch_unwind(AssertUnwindSafe(case)).unwrap_or_else(|panic| Err(panic_message(&*panic)))
}

fn panic_message(panic: &(dyn Any + Send)) -> String {
    let text = panic.downcast_ref::<String>().map(String::as_str);
    let text = text.or_else(|| panic.downcast_ref::<&str>().copied());
    format!("panicked: {}", text.unwrap_or("no message"))
}

/// A file as hexadecimal digits.
pub fn hexadecimal(file: &[u8]) -> String {
    file.iter().map(|byte| format!("{byte:02x}")).collect()
}
