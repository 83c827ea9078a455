/*
 * gneissfold: the bind and group part of a HAN-FUN concentrator, for C and C++.
 *
 * Link target/staticlib/libgneissfold.a, which `tools/library` proves and writes (x86-64 Linux). Beside its six calls the
 * archive asks for memcpy and memset alone. It has no state, takes no memory of its own and calls nothing back: all that a call reads or
 * changes is lent to it by the caller, until it returns. On the stack no call takes 1 KiB (tests/stack measures each). Calls from several
 * threads need no lock unless they are lent the same octets.
 *
 * What the caller owes, and no call can test:
 *   - no pointer is NULL, also where the length that follows it is 0;
 *   - each pointer stands before as many elements as the length that follows it says; where no length follows, `units` before 32 octets,
 *     `fields` before 12 numbers, `count` and `length` before one, `reason` and `octet` before one octet;
 *   - what a call may write overlaps nothing else that is lent to the same call.
 * Nothing else is owed: every call answers on any octets and any lengths, and its whole answer is proved (crates/gneissfold/src/lib.rt).
 *
 * "Nothing is written" below means that tables, reply, list and room keep every octet. Octets past the written ones always stay.
 *
 * A site whose device records have 4 octets is carried over first: gneissfold_carry_over says how, and in which order.
 */
#ifndef GNEISSFOLD_H
#define GNEISSFOLD_H

#include <stddef.h>
#include <stdint.h>

#ifdef __cplusplus
extern "C" {
#endif

/* Outcomes: what every call returns. */
enum gneissfold_outcome {
    GNEISSFOLD_DONE = 0,                /* command handled; copy, admit, release, carry_over or read done */
    GNEISSFOLD_FORWARDED = 1,           /* message: the recipients are in the list, at least one */
    GNEISSFOLD_NOBODY = 2,              /* message: valid, nobody to send to */
    GNEISSFOLD_WRONG_LENGTH = 10,       /* length not 15 to 500 */
    GNEISSFOLD_WRONG_DATA_LENGTH = 11,  /* data length is not message length less 15 */
    GNEISSFOLD_WRONG_TYPE = 12,         /* type not 0x01 to 0x10 */
    GNEISSFOLD_NO_SOURCE = 13,          /* source device or unit does not exist */
    GNEISSFOLD_NO_DESTINATION = 14,     /* destination does not exist */
    GNEISSFOLD_RESPONSE_TO_MANY = 15,   /* response type to a group or to the bind address */
    GNEISSFOLD_UNSOUND = 16,            /* tables not sound; carry_over: old table not sound */
    GNEISSFOLD_NO_ROOM = 17,            /* reply or list too short; carry_over: new table not nine times as long as the old one */
    GNEISSFOLD_NOT_SERVED = 18,         /* to D'0:U'0, and not one of the eighteen commands */
    GNEISSFOLD_NO_COPY = 19,            /* copy: room too short, device above 0x7FFE or unit 0xFF */
    GNEISSFOLD_OUT_OF_RANGE = 20,       /* admit: address or rights out of range, unit 0 not set or unit 255 set */
    GNEISSFOLD_ALREADY_ADMITTED = 21,   /* admit: already admitted */
    GNEISSFOLD_NO_FREE_RECORD = 22,     /* admit: no free record */
    GNEISSFOLD_NOT_ADMITTED = 23        /* release: not admitted */
};

/* Response codes: the first octet of a reply's payload, octet 16 of the reply. */
enum gneissfold_code {
    GNEISSFOLD_CODE_OK = 0x00,
    GNEISSFOLD_CODE_NOT_AUTHORIZED = 0x01,
    GNEISSFOLD_CODE_INVALID_ARGUMENT = 0x02,
    GNEISSFOLD_CODE_NO_SESSION = 0x20,            /* a read without a session */
    GNEISSFOLD_CODE_NOT_ENOUGH_RESOURCES = 0xFE,
    GNEISSFOLD_CODE_UNKNOWN_REASON = 0xFF         /* an end without a session */
};

/*
 * Reasons: what is wrong with the bind of an Add Bind that is answered 0x02; the first that holds is given. Behind each stands its octet: the
 * first octet concerned of the payload, counted from 1, and 0 for the length. Octet o of the payload is octet 15 + o of the message. Of a
 * source of any device nothing is asked; of any unit of a device that is written out, only that the device exists.
 */
enum gneissfold_reason {
    GNEISSFOLD_REASON_NONE = 0,                /* octet 0: any other answer, command or outcome */
    GNEISSFOLD_REASON_LENGTH = 1,              /* octet 0: payload length not 8 */
    GNEISSFOLD_REASON_SOURCE_DEVICE = 2,       /* octet 1: source device written out that does not exist */
    GNEISSFOLD_REASON_SOURCE_UNIT = 3,         /* octet 3: source unit written out that the source device, written out, has not */
    GNEISSFOLD_REASON_UNIT_FF = 4,             /* octet 8: destination unit 0xFF, behind a group too */
    GNEISSFOLD_REASON_DESTINATION_DEVICE = 5,  /* octet 6: individual destination whose device does not exist */
    GNEISSFOLD_REASON_DESTINATION_UNIT = 6,    /* octet 8: individual destination whose device has not that unit; D'0000 has unit 0 only */
    GNEISSFOLD_REASON_GROUP = 7,               /* octet 6: group does not exist */
    GNEISSFOLD_REASON_ITSELF = 8,              /* octet 6: individual destination is the source unit itself */
    GNEISSFOLD_REASON_PRESENT = 9              /* octet 1: same bind present */
};

/* A reason in words, for the fitter. */
static inline const char *gneissfold_reason_text(uint8_t reason)
{
    switch (reason) {
    case GNEISSFOLD_REASON_NONE:
        return "nothing is wrong with the bind";
    case GNEISSFOLD_REASON_LENGTH:
        return "the bind is not eight octets long";
    case GNEISSFOLD_REASON_SOURCE_DEVICE:
        return "the source device is not admitted";
    case GNEISSFOLD_REASON_SOURCE_UNIT:
        return "the source unit is not one of that device's";
    case GNEISSFOLD_REASON_UNIT_FF:
        return "the destination unit is 0xFF, which is no unit";
    case GNEISSFOLD_REASON_DESTINATION_DEVICE:
        return "the destination device is not admitted";
    case GNEISSFOLD_REASON_DESTINATION_UNIT:
        return "the destination unit is not one of that device's";
    case GNEISSFOLD_REASON_GROUP:
        return "there is no such group";
    case GNEISSFOLD_REASON_ITSELF:
        return "the unit is bound to itself";
    case GNEISSFOLD_REASON_PRESENT:
        return "this bind is there already";
    default:
        return "no reason of this version";
    }
}

/* Tables: records of one size, no header. A free record is all GNEISSFOLD_FREE, so an empty table is filled with it. */
#define GNEISSFOLD_FREE 0xFF

#define GNEISSFOLD_DEVICE_SIZE 36  /* address 2, rights 1 (0 or 1), one octet 0, its set of units 32 */
#define GNEISSFOLD_BIND_SIZE 8     /* source 3, interface type and UID 2, destination type and address 2, destination unit 1 */
#define GNEISSFOLD_GROUP_SIZE 16   /* address 2, name length 1 (0 to 13), name 13 padded with 0x00 */
#define GNEISSFOLD_MEMBER_SIZE 5   /* group 2, device 2, unit 1 */
#define GNEISSFOLD_SESSION_SIZE 2  /* the device that reads binds back */

#define GNEISSFOLD_MOST_DEVICES 64
#define GNEISSFOLD_MOST_BINDS 64
#define GNEISSFOLD_MOST_GROUPS 16
#define GNEISSFOLD_MOST_MEMBERS 128
#define GNEISSFOLD_MOST_SESSIONS 8

/* The tables at full size. Shorter ones do too: any number of whole records up to these. */
#define GNEISSFOLD_DEVICES_LENGTH (GNEISSFOLD_DEVICE_SIZE * GNEISSFOLD_MOST_DEVICES)
#define GNEISSFOLD_BINDS_LENGTH (GNEISSFOLD_BIND_SIZE * GNEISSFOLD_MOST_BINDS)
#define GNEISSFOLD_GROUPS_LENGTH (GNEISSFOLD_GROUP_SIZE * GNEISSFOLD_MOST_GROUPS)
#define GNEISSFOLD_MEMBERS_LENGTH (GNEISSFOLD_MEMBER_SIZE * GNEISSFOLD_MOST_MEMBERS)
#define GNEISSFOLD_SESSIONS_LENGTH (GNEISSFOLD_SESSION_SIZE * GNEISSFOLD_MOST_SESSIONS)

/*
 * A set of units: one bit per unit, the lowest bit of the first octet for unit 0. `units[u / 8] |= 1 << u % 8` puts unit u into it,
 * `units[u / 8] >> u % 8 & 1` is 1 where it is there. Numbers may have gaps. Every device has unit 0, and none has unit 255.
 */
#define GNEISSFOLD_UNITS_LENGTH 32

/* Devices in the old form, which gneissfold_carry_over reads: address 2, rights 1 (0 or 1), highest unit 1 (0 to 254). */
#define GNEISSFOLD_OLD_DEVICE_SIZE 4
#define GNEISSFOLD_OLD_DEVICES_LENGTH (GNEISSFOLD_OLD_DEVICE_SIZE * GNEISSFOLD_MOST_DEVICES)

/* Messages. */
#define GNEISSFOLD_HEADER_LENGTH 15   /* the octets before the payload, and the shortest message */
#define GNEISSFOLD_LONGEST 500        /* the longest message, and the least room for a reply */

/*
 * Commands: messages to D'0:U'0 of type 0x01 or 0x02, to the server interface of one of these UIDs, with one of these members. Behind each
 * stands its payload, in octets. "Source" is octets 1 and 2 of a bind, "destination" 6 and 7, the flag of a group included.
 */
#define GNEISSFOLD_BIND_MANAGEMENT 0x0002
#define GNEISSFOLD_GROUP_MANAGEMENT 0x0003

enum gneissfold_bind_member {
    GNEISSFOLD_ADD_BIND = 0x01,                          /* bind 8 */
    GNEISSFOLD_REMOVE_BIND = 0x02,                       /* bind 8 */
    GNEISSFOLD_REMOVE_BY_SOURCE = 0x03,                  /* source 2 */
    GNEISSFOLD_REMOVE_BY_SOURCE_UNIT = 0x04,             /* source 2, its unit 1 */
    GNEISSFOLD_REMOVE_BY_DESTINATION = 0x05,             /* destination 2 */
    GNEISSFOLD_REMOVE_BY_DESTINATION_UNIT = 0x06,        /* destination 2, its unit 1 */
    GNEISSFOLD_START_READING = 0x07,                     /* none */
    GNEISSFOLD_END_READING = 0x08,                       /* none */
    GNEISSFOLD_READ_BY_INDEX = 0x09,                     /* index 2, from 0; how many 1 */
    GNEISSFOLD_READ_BY_SOURCE = 0x0A,                    /* source 2 */
    GNEISSFOLD_READ_BY_SOURCE_UNIT = 0x0B,               /* source 2, its unit 1 */
    GNEISSFOLD_READ_BY_DESTINATION = 0x0C,               /* destination 2 */
    GNEISSFOLD_READ_BY_DESTINATION_UNIT = 0x0D           /* destination 2, its unit 1 */
};

enum gneissfold_group_member {
    GNEISSFOLD_CREATE_GROUP = 0x01,                      /* length of the name 1, name */
    GNEISSFOLD_DELETE_GROUP = 0x02,                      /* group 2 */
    GNEISSFOLD_ADD_TO_GROUP = 0x03,                      /* group 2, device 2, unit 1 */
    GNEISSFOLD_REMOVE_FROM_GROUP = 0x04,                 /* group 2, device 2, unit 1 */
    GNEISSFOLD_GET_GROUP_INFO = 0x05                     /* group 2 */
};

/* The recipient list: device 2, unit 1. This length serves tables at full size. */
#define GNEISSFOLD_RECIPIENT_SIZE 3
#define GNEISSFOLD_LIST_LENGTH (GNEISSFOLD_RECIPIENT_SIZE * (GNEISSFOLD_MOST_BINDS + GNEISSFOLD_MOST_MEMBERS))

/* Addresses. */
#define GNEISSFOLD_CONCENTRATOR 0x0000     /* D'0000: always there, unit 0 only, never in the table */
#define GNEISSFOLD_LOWEST_ADDRESS 0x0001   /* of devices and of groups */
#define GNEISSFOLD_HIGHEST_ADDRESS 0x7FFE
#define GNEISSFOLD_BIND_ADDRESS 0x7FFF     /* with unit 0xFF and of individual type */
#define GNEISSFOLD_BIND_UNIT 0xFF
#define GNEISSFOLD_HIGHEST_UNIT 254

/*
 * Binds. A request to the bind address goes by a bind where source device, source unit and UID are each equal, or the bind says any there; the
 * interface type is always compared. Add Bind asks of a source: a device written out must exist, and beside it a unit written out must be
 * one of its units, while beside any device a unit may be 0 to 254. So one bind serves a key in every room. A removal by source compares
 * octets: any takes only any.
 */
#define GNEISSFOLD_ANY_DEVICE 0x7FFF       /* as source device */
#define GNEISSFOLD_ANY_UNIT 0xFF           /* as source unit */
#define GNEISSFOLD_ANY_INTERFACE 0x7FFF    /* as UID, behind the interface type */

/*
 * Reading binds back. A device with rights opens a session (GNEISSFOLD_START_READING, answered with the number of binds), reads in it
 * and ends it. The session is the device's: any of its units may read and end. To start again while it is open is no harm: it goes on.
 *
 * Every change to the binds closes all sessions, and a release that device's, so pages that were read in one session are one table. A read
 * without a session is answered 0x20: where it was open before, it was closed by a change of the binds, or another unit of the device ended
 * it, or the device was released; what was read may no longer be the table, and the reader starts again. One unit of a device reads at a
 * time: a start by another one after a change would hide the change. An end without a session is answered 0xFF: there is nothing to end.
 * A start is answered 0xFE while all records of the sessions table are other devices': it is tried again later. It is answered 0x01 where
 * the device has no rights.
 *
 * A read answered 0x00 gives entries as they are stored, GNEISSFOLD_BIND_SIZE octets each, in the order of the table, as many as there are and
 * were asked for, and at most GNEISSFOLD_MOST_ENTRIES, which is what a reply holds. By index it begins at any bind, counted from 0 without the
 * free records; past the last there are none. By source or destination only the first 60 that match are given: who gets 60 reads by index.
 * They match as at a removal, so any is read by any alone.
 */
#define GNEISSFOLD_MOST_ENTRIES 60

/* Places in a reply, from 0. What follows the code is there where this is 0x00. */
#define GNEISSFOLD_REPLY_CODE 15         /* of every reply */
#define GNEISSFOLD_REPLY_BINDS 16        /* start: how many binds there are, 2 octets */
#define GNEISSFOLD_REPLY_NUMBER 16       /* read: how many entries the reply has, 1 octet */
#define GNEISSFOLD_REPLY_ENTRIES 17      /* read: the entries, one behind the other */

/* The places of the fields that gneissfold_read writes. */
enum gneissfold_field {
    GNEISSFOLD_SOURCE,
    GNEISSFOLD_SOURCE_UNIT,
    GNEISSFOLD_ADDRESS_TYPE,       /* 0 individual, 1 group */
    GNEISSFOLD_DESTINATION,
    GNEISSFOLD_DESTINATION_UNIT,
    GNEISSFOLD_APP_REF,
    GNEISSFOLD_TYPE,               /* 0x01 to 0x10 */
    GNEISSFOLD_INTERFACE_TYPE,     /* 0 client, 1 server */
    GNEISSFOLD_UID,
    GNEISSFOLD_MEMBER,
    GNEISSFOLD_DATA_LENGTH,
    GNEISSFOLD_PAYLOAD,            /* the octet where the payload begins, counted from 1: 16 */
    GNEISSFOLD_FIELDS
};

/*
 * Handles a message: serves a command to D'0:U'0, or finds the recipients of any other message.
 *
 * Lent until the call returns: the five tables, `message` to be read, `reply` (at least GNEISSFOLD_LONGEST octets), `list` (at least
 * 3 * max(1, bind records + member records) octets, free records counted), `count`, `reason` and `octet`.
 *
 *   0   the reply is written, *count is its length, and the tables are as the command leaves them. Its code is reply[15].
 *   1   the list has *count recipients, 3 octets each, by rising device and then unit, each once; reply and tables stay
 *   2   valid, nobody to send to; nothing is written
 *   17, 16, 10, 11, 12, 13, 15, then 18 for D'0:U'0 or 14 for the rest, in this order: refused; nothing is written
 *
 * *count is 0 unless stated, and always written. *reason and *octet are always written too: an enum gneissfold_reason and its octet for an Add
 * Bind answered 0x02, and else 0 and 0.
 */
uint8_t gneissfold_message(
    uint8_t *devices, size_t devices_length,
    uint8_t *binds, size_t binds_length,
    uint8_t *groups, size_t groups_length,
    uint8_t *members, size_t members_length,
    uint8_t *sessions, size_t sessions_length,
    const uint8_t *message, size_t message_length,
    uint8_t *reply, size_t reply_length,
    uint8_t *list, size_t list_length,
    size_t *count, uint8_t *reason, uint8_t *octet);

/*
 * Admits a device, with its rights (1: its commands are served, 0: they are refused with code 0x01, but for Get Group Info, reads and the
 * end of a reading) and its units.
 *
 * Lent until the call returns: the devices, to be changed, and the other four tables and `units`, to be read. `units` is a set of units,
 * always GNEISSFOLD_UNITS_LENGTH octets. It was the number of the highest unit before, h: callers are compiled anew (a 0 written out there
 * still compiles, as NULL), and `for (unsigned u = 0; u <= h; u++) units[u / 8] |= 1 << u % 8;` makes the set of units 0 to h.
 *
 *   0   the device's record stands in the first free place
 *   16, 20, 21, 22, in this order: refused; nothing is written
 */
uint8_t gneissfold_admit(
    uint8_t *devices, size_t devices_length,
    const uint8_t *binds, size_t binds_length,
    const uint8_t *groups, size_t groups_length,
    const uint8_t *members, size_t members_length,
    const uint8_t *sessions, size_t sessions_length,
    uint16_t address, uint8_t rights, const uint8_t *units);

/*
 * Releases a device, with its members and all binds that name it as source or individual destination. Any device names none: a bind of
 * any device goes only where it leads to this one. Its session ends, and where a bind goes, every session.
 *
 * Lent until the call returns: devices, binds, members and sessions, to be changed, and the groups, to be read.
 *
 *   0   all these records are free
 *   16, 23, in this order: refused; nothing is written
 */
uint8_t gneissfold_release(
    uint8_t *devices, size_t devices_length,
    uint8_t *binds, size_t binds_length,
    const uint8_t *groups, size_t groups_length,
    uint8_t *members, size_t members_length,
    uint8_t *sessions, size_t sessions_length,
    uint16_t address);

/*
 * Carries the devices of the old form over: record i of the old table becomes record i of the new one, with its address, its rights and
 * units 0 to its highest. A free record stays free. So the same units exist in both.
 *
 * A site with an old table is carried over once, in this order:
 *   1. stop: nothing is called on its tables any more;
 *   2. carry over, into a new table of nine times the length; binds, groups and members stay as they are, and sessions begin free;
 *   3. start: all calls are lent the new table, and none the old one.
 * A refusal writes nothing, and the old table is only read: until step 3 the site can go on as it was.
 * An old table of full length, lent to another call by mistake, is refused there: its 256 octets are no whole number of records (16).
 *
 * Lent until the call returns: `old_devices`, to be read, and `devices`, to be written. What `devices` held before plays no part.
 *
 *   0   every octet of `devices` is written
 *   16, 17, in this order: refused; nothing is written. 16: the old table is not sound by itself, that is, its length is not a multiple of
 *       4 or over 256, a field is out of range, or an address is there twice. 17: devices_length is not nine times old_length
 */
uint8_t gneissfold_carry_over(
    const uint8_t *old_devices, size_t old_length,
    uint8_t *devices, size_t devices_length);

/*
 * Writes the copy of a message for one recipient: the message but for octets 4 to 6, which name the device and its unit.
 *
 * Lent until the call returns: `message` to be read, `room` (at least as long as the message) and `length`.
 *
 *   0   the copy is written, and *length is its length
 *   10, 11, 12, 19, in this order: refused; nothing is written, and *length is 0
 */
uint8_t gneissfold_copy(
    const uint8_t *message, size_t message_length,
    uint8_t *room, size_t room_length,
    uint16_t device, uint8_t unit,
    size_t *length);

/*
 * Reads a message: its twelve fields, at the places of enum gneissfold_field. All twelve are written, whatever the outcome.
 *
 * Lent until the call returns: `message` to be read, and `fields`, always GNEISSFOLD_FIELDS numbers.
 *
 *   0   the fields
 *   10, 11, 12, in this order: refused; every field is 0
 */
uint8_t gneissfold_read(const uint8_t *message, size_t message_length, uint16_t *fields);

#ifdef __cplusplus
}
#endif

#endif
