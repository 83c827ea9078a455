//! The values by which a bind is for any device, any unit or any interface, so that one bind serves a key in every room.
//!
//! A request to the bind address goes by a bind where source device, source unit and UID are each equal, or the bind says any there; the
//! interface type is always compared. A device written out must exist, and beside it a unit written out must be one of its units, while
//! beside any device a unit may be 0 to 254. A removal by source compares octets, so any takes only any; a release takes the binds that
//! name the device as source or individual destination, and any device names none.

/// As a bind's source device: a request of every device matches.
pub const DEVICE: u16 = 0x7FFF;
/// As a bind's source unit: a request of every unit matches.
pub const UNIT: u8 = 0xFF;
/// As a bind's UID: a request at every interface matches, of that interface type.
pub const INTERFACE: u16 = 0x7FFF;
