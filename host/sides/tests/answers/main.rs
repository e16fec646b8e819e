//! Exact answers, the same of both sides: document 01's known outcomes, what document 02's ticket 1 turns and what its
//! tickets 2, 3, 5, 6 and 8 add, a file for each refusal, each ending, and the files that the gate programs are tried
//! on.

mod both;
mod claims;
mod form;
mod known;
mod long;
mod plate;
mod rule_n;
mod runs;
mod signed;
mod work_out;
mod write;
