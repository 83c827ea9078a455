//! The lengths of what is lent: tables, sets of units, messages and the recipient list.

/// The octets before the payload, and the shortest message.
pub const HEADER_LENGTH: usize = 15;
/// The longest message, and the least room for a reply.
pub const LONGEST: usize = 500;
/// A set of units: 256 bits.
pub const UNITS_LENGTH: usize = 32;
/// The devices at full size: 64 records of 36 octets (address 2, rights 1, one octet 0, units 32).
pub const DEVICES_LENGTH: usize = (4 + UNITS_LENGTH) * 64;
/// The devices of the old form at full size: 64 records of 4 octets (address 2, rights 1, highest unit 1).
pub const OLD_DEVICES_LENGTH: usize = 4 * 64;
/// A bind: source 3, interface type and UID 2, destination type and address 2, destination unit 1.
pub const BIND_SIZE: usize = 8;
/// Most binds that a table has.
pub const MOST_BINDS: usize = 64;
/// The binds at full size: 64 records of 8 octets.
pub const BINDS_LENGTH: usize = BIND_SIZE * MOST_BINDS;
/// The groups at full size: 16 records of 16 octets.
pub const GROUPS_LENGTH: usize = 16 * 16;
/// The members at full size: 128 records of 5 octets.
pub const MEMBERS_LENGTH: usize = 5 * 128;
/// The sessions at full size: 8 records of 2 octets, each the device that reads binds back.
pub const SESSIONS_LENGTH: usize = 2 * 8;
/// Most entries that a read gives at once: as many as a reply holds.
pub const MOST_ENTRIES: usize = 60;
/// A recipient in the list: device 2, unit 1.
pub const RECIPIENT_SIZE: usize = 3;
/// The recipient list that serves tables at full size.
pub const LIST_LENGTH: usize = RECIPIENT_SIZE * (MOST_BINDS + 128);
