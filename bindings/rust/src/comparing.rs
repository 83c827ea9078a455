//! The hub compared with the fitter's sheet.

use core::fmt;

use crate::bind::Bind;

/// Compares the binds that were read with those of a sheet. Their order plays no part; every octet does, as in the hub: a bind to a group with another
/// unit behind it is another bind.
///
/// ```
/// use gneissfold::{compare, Address, Bind, Role};
///
/// let to = |unit| Bind::new(3, 1, Role::Server, 0x0200, Address::Device(4), unit).unwrap();
/// let (hub, sheet) = ([to(1), to(2)], [to(2), to(5)]);
/// assert!(compare(&hub, &sheet).missing().eq([to(5)]));
/// assert!(compare(&hub, &sheet).too_many().eq([to(1)]));
/// assert!(compare(&hub, &[to(2), to(1)]).agrees());
/// ```
pub const fn compare<'a>(read: &'a [Bind], sheet: &'a [Bind]) -> Comparison<'a> {
    Comparison { read, sheet }
}

/// What [`compare`] finds. Each bind counts as often as it stands: a bind that the sheet has twice and the hub once is missing once.
///
/// In words it is a line for each, `missing: ..` and then `too many: ..`, and nothing where both agree.
#[derive(Clone, Copy, Debug, PartialEq, Eq)]
#[must_use = "what is missing shows here alone"]
pub struct Comparison<'a> {
    read: &'a [Bind],
    sheet: &'a [Bind],
}

impl<'a> Comparison<'a> {
    /// The binds of the sheet that the hub does not have, in the sheet's order.
    pub fn missing(self) -> impl Iterator<Item = Bind> + 'a {
        beyond(self.sheet, self.read)
    }

    /// The binds of the hub that the sheet does not have, in the hub's order.
    pub fn too_many(self) -> impl Iterator<Item = Bind> + 'a {
        beyond(self.read, self.sheet)
    }

    /// Whether the hub has the binds of the sheet and no others.
    pub fn agrees(self) -> bool {
        self.missing().next().is_none() && self.too_many().next().is_none()
    }
}

impl fmt::Display for Comparison<'_> {
    fn fmt(&self, f: &mut fmt::Formatter<'_>) -> fmt::Result {
        for bind in self.missing() {
            writeln!(f, "missing: {bind}")?;
        }
        for bind in self.too_many() {
            writeln!(f, "too many: {bind}")?;
        }
        Ok(())
    }
}

/// Those of `ours` that `theirs` has fewer of: the nth of its like, where `theirs` has not n.
fn beyond<'a>(ours: &'a [Bind], theirs: &'a [Bind]) -> impl Iterator<Item = Bind> + 'a {
    let like = |binds: &[Bind], bind| binds.iter().filter(|&&other| other == bind).count();
    ours.iter()
        .enumerate()
        .filter(move |&(place, &bind)| like(&ours[..=place], bind) > like(theirs, bind))
        .map(|(_, &bind)| bind)
}
