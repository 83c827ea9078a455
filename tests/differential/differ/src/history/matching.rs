//! Which requests match a bind that was added ("CR 4": "for that sender, interface and
//! role" reads "matching").

use super::entry::Bind;
use super::Unit;
use crate::generate::word;

/// What a bind says of source device, source unit and UID: nothing where it says any.
pub fn said(bind: &Bind) -> [Option<u16>; 3] {
    let (device, unit, uid) = (word(bind, 0), u16::from(bind[2]), word(bind, 3) & 0x7FFF);
    [
        (device != 0x7FFF).then_some(device),
        (unit != 0xFF).then_some(unit),
        (uid != 0x7FFF).then_some(uid),
    ]
}

/// "A request matches if each field is equal or the bind says any." The role is none of
/// these fields: no bind says any role.
pub fn matches(bind: &Bind, (device, unit): Unit, interface: u16) -> bool {
    let asked = [device, u16::from(unit), interface & 0x7FFF];
    let mut fields = said(bind).into_iter().zip(asked);
    word(bind, 3) >> 15 == interface >> 15
        && fields.all(|(said, asked)| said.is_none_or(|said| said == asked))
}
