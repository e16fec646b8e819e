//! What document 02's ticket 3 is compared on: claims that are worked out, and what they come to.

use crate::by_origin::ByOrigin;
use crate::files::same;
use modules::encode::{target_bounds, DIRECT};
use modules::generate::{garbled_claim, Origin};
use modules::random::Random;
use sides::{sweeps, Limits, Side, Sweeps, Verdict};
use std::fmt;

/// What a module shows.
#[derive(Clone, Copy, PartialEq, Eq, PartialOrd, Ord)]
enum Kind {
    /// Accepted, and the claims are those that it came with.
    AsItCame,
    /// Accepted with other claims than it came with.
    Written,
    /// Accepted, though `verify` refuses it with this number as it came.
    Turned(u32),
    /// Accepted, and a register became anything when it grew in a ninth sweep.
    Unbounded,
    /// Accepted, and a target that no edge reached was given anything.
    Given,
    /// Refused by 10, and a register became anything when it grew in a ninth sweep.
    RefusedUnbounded,
    /// Refused by 10, though `verify` accepts it as it came: its own claims are narrower.
    Lost,
    /// Refused by 7, though `verify` refuses it at a lower target.
    LaterTarget,
    /// Refused with this number.
    Refused(u32),
}

impl fmt::Display for Kind {
    fn fmt(&self, out: &mut fmt::Formatter<'_>) -> fmt::Result {
        let text = match self {
            Kind::AsItCame => "accepted as it came".into(),
            Kind::Written => "accepted, other claims".into(),
            Kind::Turned(number) => format!("accepted, as it came {number}"),
            Kind::Unbounded => "accepted, a ninth growth".into(),
            Kind::Given => "accepted, unreached targets".into(),
            Kind::RefusedUnbounded => "refused 10, a ninth growth".into(),
            Kind::Lost => "refused 10, as it came not".into(),
            Kind::LaterTarget => "refused 7 at a later target".into(),
            Kind::Refused(number) => format!("refused {number}"),
        };
        out.pad(&text)
    }
}

/// All but `Refused`, of which there is one for each number.
const WANTED: [Kind; 10] = [
    Kind::AsItCame,
    Kind::Written,
    Kind::Turned(7),
    Kind::Turned(10),
    Kind::Turned(11),
    Kind::Unbounded,
    Kind::Given,
    Kind::RefusedUnbounded,
    Kind::Lost,
    Kind::LaterTarget,
];

/// The refusals that there are on the box: 11 never occurs, nor does 17.
const REFUSALS: [u32; 12] = [1, 2, 3, 4, 5, 6, 7, 8, 9, 10, 12, 13];

/// A file after its claims are worked out by both sides.
pub struct Outcome {
    pub verdict: Verdict,
    pub file: Vec<u8>,
}

/// Works out the claims by both: the same answer and the same bytes.
pub fn by_both(limits: Limits, file: &[u8]) -> Result<Outcome, String> {
    let mut files = [file.to_vec(), file.to_vec()];
    let verdicts = Side::BOTH.map(|side| side.work_out(limits, &mut files[side as usize]));
    let verdict = same("work_out", verdicts)?;
    let [file, handwritten] = files;
    let mut bytes = file.iter().zip(&handwritten);
    match bytes.position(|(one, other)| one != other) {
        Some(at) => Err(format!(
            "work_out: {verdict:?}, the bytes differ first at {at}"
        )),
        None => Ok(Outcome { verdict, file }),
    }
}

/// The claims of the direct targets, as far as the file has any.
fn direct_claims(file: &mut [u8]) -> impl Iterator<Item = &mut [u8]> {
    let targets = target_bounds(file);
    let targets = file[targets].as_chunks_mut::<68>().0.iter_mut();
    let direct = targets.filter(|target| target[2] == DIRECT);
    direct.map(|target| &mut target[4..])
}

/// The file with other claims.
pub fn garbled(file: &[u8], random: &mut Random) -> Vec<u8> {
    let mut file = file.to_vec();
    for claim in direct_claims(&mut file) {
        let words = garbled_claim(random).map(|(lowest, highest)| [lowest, highest]);
        for (bytes, word) in claim.as_chunks_mut().0.iter_mut().zip(words.as_flattened()) {
            *bytes = word.to_le_bytes();
        }
    }
    file
}

/// The file with all claims made alike.
fn without_claims(file: &[u8]) -> Vec<u8> {
    let mut file = file.to_vec();
    direct_claims(&mut file).for_each(|claim| claim.fill(0));
    file
}

/// What a file shows of the ticket.
pub struct Worked {
    pub outcome: Outcome,
    kinds: Vec<Kind>,
    /// The sweeps made, and the targets.
    sweeps: Option<(Sweeps, u32)>,
}

impl Worked {
    /// Works out the claims of a file on which the box's `verify` answers this, and looks whether all is as promised.
    pub fn of(file: &[u8], verified: Verdict, random: &mut Random) -> Result<Worked, String> {
        let outcome = by_both(Limits::BOX, file)?;
        look_at(file, &outcome)?;
        if !matches!(outcome.verdict, Err((1..=4, _))) {
            look_at_other_claims(file, &outcome, random)?;
        }
        let mut worked = Worked {
            kinds: kinds(file, &outcome, verified),
            outcome,
            sweeps: None,
        };
        if let Ok(made) = sweeps(file) {
            let targets = (target_bounds(file).len() / 68) as u32;
            worked.look_at_sweeps(made, targets)?;
        }
        Ok(worked)
    }

    fn look_at_sweeps(&mut self, made: Sweeps, targets: u32) -> Result<(), String> {
        if made.made > most_sweeps(targets) {
            return Err(format!("{made:?} with {targets} targets"));
        }
        match self.outcome.verdict {
            Ok(_) if made.unbounded > 0 => self.kinds.push(Kind::Unbounded),
            Err((10, _)) if made.unbounded > 0 => self.kinds.push(Kind::RefusedUnbounded),
            _ => {}
        }
        if self.outcome.verdict.is_ok() && made.given > 0 {
            self.kinds.push(Kind::Given);
        }
        self.sweeps = Some((made, targets));
        Ok(())
    }
}

/// Each register of each target grows in at most nine sweeps, each target is reached in one, and one changes nothing.
fn most_sweeps(targets: u32) -> u32 {
    73 * targets + 1
}

/// A refusal leaves the file as it was; what is accepted has other claims at most, is so by `verify`, and worked out
/// again it stays as it is.
fn look_at(file: &[u8], outcome: &Outcome) -> Result<(), String> {
    let Outcome {
        verdict,
        file: left,
    } = outcome;
    match *verdict {
        Err((number, _)) if !REFUSALS.contains(&number) => {
            Err(format!("work_out: {verdict:?}, which never occurs"))
        }
        Err(_) if left != file => Err(format!("work_out: {verdict:?}, but the file changed")),
        Err(_) => Ok(()),
        Ok(_) if without_claims(file) != without_claims(left) => {
            Err("work_out: other bytes than claims changed".into())
        }
        Ok(_) => {
            let verified = Side::BOTH.map(|side| side.verify(Limits::BOX, left));
            if verified != [*verdict; 2] {
                return Err(format!("work_out: {verdict:?}, then verify: {verified:?}"));
            }
            let again = by_both(Limits::BOX, left)?;
            if again.verdict == *verdict && again.file == *left {
                Ok(())
            } else {
                Err(format!("worked out again: {:?}", again.verdict))
            }
        }
    }
}

/// The outcome doesn't depend on the claims of direct targets.
fn look_at_other_claims(file: &[u8], outcome: &Outcome, random: &mut Random) -> Result<(), String> {
    let garbled = garbled(file, random);
    let other = by_both(Limits::BOX, &garbled)?;
    let due = match outcome.verdict {
        Ok(_) => &outcome.file,
        Err(_) => &garbled,
    };
    if other.verdict == outcome.verdict && other.file == *due {
        Ok(())
    } else {
        let [one, other] = [outcome.verdict, other.verdict];
        Err(format!("work_out: {one:?}, with other claims {other:?}"))
    }
}

fn kinds(file: &[u8], outcome: &Outcome, verified: Verdict) -> Vec<Kind> {
    match (outcome.verdict, verified) {
        (Ok(_), verified) => {
            let written = if outcome.file == file {
                Kind::AsItCame
            } else {
                Kind::Written
            };
            let turned = verified.err().map(|(number, _)| Kind::Turned(number));
            turned.into_iter().chain([written]).collect()
        }
        (Err((10, _)), Ok(_)) => vec![Kind::Refused(10), Kind::Lost],
        (Err((7, place)), Err((7, earlier))) if earlier < place => {
            vec![Kind::Refused(7), Kind::LaterTarget]
        }
        (Err((number, _)), _) => vec![Kind::Refused(number)],
    }
}

/// How often each kind occurred, and the sweeps.
#[derive(Default)]
pub struct Workings {
    kinds: ByOrigin<Kind>,
    modules: u64,
    sweeps: u64,
    /// The most sweeps of a module, and how many there might have been.
    most: (u32, u32),
}

impl Workings {
    pub fn count(&mut self, origin: Origin, worked: &Worked) {
        for &kind in &worked.kinds {
            self.kinds.count(kind, origin);
        }
        if let Some((Sweeps { made, .. }, targets)) = worked.sweeps {
            self.modules += 1;
            self.sweeps += u64::from(made);
            self.most = self.most.max((made, most_sweeps(targets)));
        }
    }

    /// The wanted kinds that never occurred.
    pub fn missing(&self) -> impl Iterator<Item = String> + '_ {
        let refused = REFUSALS.into_iter().map(Kind::Refused);
        let wanted = WANTED.into_iter().chain(refused);
        let missing = wanted.filter(|kind| !self.kinds.has(kind));
        missing.map(|kind| format!("{kind} (claims worked out)"))
    }
}

impl fmt::Display for Workings {
    fn fmt(&self, out: &mut fmt::Formatter<'_>) -> fmt::Result {
        let Workings {
            kinds,
            modules,
            sweeps,
            most: (made, might),
        } = self;
        writeln!(
            out,
            "Claims worked out by both: {sweeps} sweeps of {modules} modules, at most {made} of {might} in one."
        )?;
        writeln!(
            out,
            "By how they were made; \"as it came\": by the claims that the module came with."
        )?;
        kinds.fmt(out)
    }
}
