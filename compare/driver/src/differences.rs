//! The listed differences between the Rust's answers and ours. A difference on no list is a failure.
use crate::answers::{Answers, AwaitRow};
use crate::reference::{backward, import_steps, star_steps};
use crate::source::Source;

#[derive(Clone, Copy, Debug, PartialEq, Eq, PartialOrd, Ord)]
pub enum Difference {
    /// The Rust's walk over a module's stars stops at the first open one, so that later targets are never met.
    StarPastFirstHit,
    /// The Rust keeps a "no" that it found while it was inside a circle of stars.
    StarInCircle,
    /// The same in a circle of imports, for the awaiting flag.
    AwaitingInCircle,
    /// The same for a `require` that gives no row.
    AwaitRowMissed,
    /// The same for a row that names another module.
    OtherSourceNamed,
}

pub const LISTED: [Difference; 5] = [
    Difference::StarPastFirstHit,
    Difference::StarInCircle,
    Difference::AwaitingInCircle,
    Difference::AwaitRowMissed,
    Difference::OtherSourceNamed,
];

/// Which modules lead into a circle of at least two modules: those that are left when modules that lead nowhere any more
/// are taken away, again and again. A step of a module to itself counts for nothing.
fn into_circles(steps: &[Vec<usize>]) -> Vec<bool> {
    let ways = |(m, to): (usize, &Vec<usize>)| to.iter().filter(|t| **t != m).count();
    let mut left: Vec<usize> = steps.iter().enumerate().map(ways).collect();
    let back = backward(steps);
    let mut done: Vec<usize> = (0..left.len()).filter(|m| left[*m] == 0).collect();
    while let Some(m) = done.pop() {
        for from in back[m].iter().filter(|from| **from != m) {
            left[*from] -= 1;
            if left[*from] == 0 {
                done.push(*from);
            }
        }
    }
    left.iter().map(|n| *n > 0).collect()
}

/// Whether every star record to `m` stands behind one of the same module whose target is open already.
fn past_first_hit(source: &Source, ours: &Answers, m: usize) -> bool {
    source
        .resolved()
        .filter(|(_, _, rec, t)| rec.star && *t == m)
        .all(|(from, k, _, _)| {
            let before = source.modules[from].records()[..k].iter().filter(|rec| rec.star);
            before
                .filter_map(|rec| rec.target)
                .any(|t| t as usize != from && ours.marks[t as usize].dynamic)
        })
}

fn star_differences(
    source: &Source,
    ours: &Answers,
    rust: &Answers,
    found: &mut Vec<Difference>,
) -> Result<(), String> {
    let differs = |m: &usize| ours.marks[*m].dynamic != rust.marks[*m].dynamic;
    let mut circles = None;
    for m in (0..ours.marks.len()).filter(differs) {
        let starred = source.modules[m].records().iter().any(|rec| rec.star);
        let circles = circles.get_or_insert_with(|| into_circles(&star_steps(source)));
        found.push(match () {
            _ if rust.marks[m].dynamic => return Err(format!("dynamic of {m}: only the Rust says yes")),
            _ if starred && circles[m] => Difference::StarInCircle,
            _ if !starred && past_first_hit(source, ours, m) => Difference::StarPastFirstHit,
            _ => return Err(format!("dynamic of {m}: on no list")),
        });
    }
    Ok(())
}

/// The Rust's row for the same record, if it has one.
fn same_record<'a>(rows: &'a [AwaitRow], row: &AwaitRow) -> Option<&'a AwaitRow> {
    let at = rows.binary_search_by_key(&(row.importer, row.record), |r| (r.importer, r.record));
    at.ok().map(|n| &rows[n])
}

fn row_difference(
    source: &Source,
    circles: &[bool],
    row: &AwaitRow,
    other: Option<&AwaitRow>,
) -> Result<Difference, String> {
    let rec = &source.modules[row.importer as usize].records()[row.record as usize];
    let target = rec.target.expect("a row's record has a target") as usize;
    if !circles[target] {
        return Err(format!("await row {row:?}, in the Rust {other:?}: on no list"));
    }
    match other {
        None => Ok(Difference::AwaitRowMissed),
        Some(other) if other.source != row.source && other.span == row.span => Ok(Difference::OtherSourceNamed),
        Some(other) => Err(format!("await row {row:?}, in the Rust {other:?}: on no list")),
    }
}

fn await_differences(
    source: &Source,
    ours: &Answers,
    rust: &Answers,
    found: &mut Vec<Difference>,
) -> Result<(), String> {
    if rust.awaits.iter().any(|row| same_record(&ours.awaits, row).is_none()) {
        return Err("the Rust has an await row that is not here".into());
    }
    if ours.awaits == rust.awaits
        && ours
            .marks
            .iter()
            .zip(&rust.marks)
            .all(|(a, b)| a.awaiting == b.awaiting)
    {
        return Ok(());
    }
    let circles = into_circles(&import_steps(source));
    for (m, (mine, theirs)) in ours.marks.iter().zip(&rust.marks).enumerate() {
        match (mine.awaiting, theirs.awaiting) {
            (true, false) if circles[m] => found.push(Difference::AwaitingInCircle),
            (mine, theirs) if mine == theirs => {}
            _ => return Err(format!("awaiting of {m}: on no list")),
        }
    }
    for row in &ours.awaits {
        let other = same_record(&rust.awaits, row);
        if other != Some(row) {
            found.push(row_difference(source, &circles, row, other)?);
        }
    }
    Ok(())
}

/// Every difference by its name, or the first that is on no list. Entry sets are not the Rust's.
pub fn differences(source: &Source, ours: &Answers, rust: &Answers) -> Result<Vec<Difference>, String> {
    for (m, (mine, theirs)) in ours.marks.iter().zip(&rust.marks).enumerate() {
        if (mine.kind, mine.wrap, mine.required) != (theirs.kind, theirs.wrap, theirs.required) {
            return Err(format!("module {m}: {mine:?}, in the Rust {theirs:?}"));
        }
    }
    if ours.wrappers != rust.wrappers {
        return Err(format!(
            "wrapper rows {:?}, in the Rust {:?}",
            ours.wrappers, rust.wrappers
        ));
    }
    let mut found = Vec::new();
    star_differences(source, ours, rust, &mut found)?;
    await_differences(source, ours, rust, &mut found)?;
    Ok(found)
}
