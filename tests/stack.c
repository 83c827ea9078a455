/* Prints the octets of stack that each call takes, and each command. Tables are full but for a record each, which additions take. A call is made on a stack
   that was painted, and what is paint no more was used. Exits with 1 where an answer is not the one that is due, so that no figure is of a call that went
   another way. */
#define _XOPEN_SOURCE 600
#include <stdio.h>
#include <string.h>
#include <ucontext.h>

#include "../include/gneissfold.h"

enum {
    DEVICES = GNEISSFOLD_MOST_DEVICES - 1,
    BINDS = GNEISSFOLD_MOST_BINDS - 1,
    GROUPS = GNEISSFOLD_MOST_GROUPS - 1,
    MEMBERS = GNEISSFOLD_MOST_MEMBERS - 1,
    /* Devices that units are taken from, one after the other: all but the first. */
    OTHERS = DEVICES - 1
};

static struct {
    uint8_t devices[GNEISSFOLD_DEVICES_LENGTH];
    uint8_t binds[GNEISSFOLD_BINDS_LENGTH];
    uint8_t groups[GNEISSFOLD_GROUPS_LENGTH];
    uint8_t members[GNEISSFOLD_MEMBERS_LENGTH];
    uint8_t sessions[GNEISSFOLD_SESSIONS_LENGTH];
    uint8_t old_devices[GNEISSFOLD_OLD_DEVICES_LENGTH];
} tables;
static uint8_t reply[GNEISSFOLD_LONGEST];
static uint8_t list[GNEISSFOLD_LIST_LENGTH];
static uint16_t fields[GNEISSFOLD_FIELDS];

static const uint8_t *message;
static size_t message_length;
static uint8_t outcome;
static size_t count;
static uint8_t reason, octet;

/* Devices 1 to 63 with units 0 to 3, of which the first has a session; binds of its unit 0; groups 1 to 15; members of the first. */
static void fill(void)
{
    memset(&tables, GNEISSFOLD_FREE, sizeof tables);
    for (uint8_t n = 0; n < DEVICES; n++) {
        const uint8_t device[GNEISSFOLD_DEVICE_SIZE] = {0, 1 + n, 1, 0, 0x0F};
        const uint8_t old_device[GNEISSFOLD_OLD_DEVICE_SIZE] = {0, 1 + n, 1, 3};
        memcpy(tables.devices + sizeof device * n, device, sizeof device);
        memcpy(tables.old_devices + sizeof old_device * n, old_device, sizeof old_device);
    }
    for (uint8_t n = 0; n < BINDS; n++) {
        const uint8_t bind[GNEISSFOLD_BIND_SIZE] = {0, 1, 0, 0x82, 0, 0, 2 + n % OTHERS, n / OTHERS};
        memcpy(tables.binds + sizeof bind * n, bind, sizeof bind);
    }
    for (uint8_t n = 0; n < GROUPS; n++) {
        const uint8_t group[GNEISSFOLD_GROUP_SIZE] = {0, 1 + n, 7, 'B', 'e', 'd', 'r', 'o', 'o', 'm'};
        memcpy(tables.groups + sizeof group * n, group, sizeof group);
    }
    for (uint8_t n = 0; n < MEMBERS; n++) {
        const uint8_t member[GNEISSFOLD_MEMBER_SIZE] = {0, 1, 0, 2 + n % OTHERS, n / OTHERS};
        memcpy(tables.members + sizeof member * n, member, sizeof member);
    }
    memcpy(tables.sessions, tables.devices, GNEISSFOLD_SESSION_SIZE);
}

static void call_nothing(void)
{
}

static void call_message(void)
{
    outcome = gneissfold_message(tables.devices, sizeof tables.devices, tables.binds, sizeof tables.binds, tables.groups, sizeof tables.groups,
                                 tables.members, sizeof tables.members, tables.sessions, sizeof tables.sessions, message, message_length,
                                 reply, sizeof reply, list, sizeof list, &count, &reason, &octet);
}

static void call_admit(void)
{
    static const uint8_t units[GNEISSFOLD_UNITS_LENGTH] = {1};
    outcome = gneissfold_admit(tables.devices, sizeof tables.devices, tables.binds, sizeof tables.binds, tables.groups, sizeof tables.groups,
                               tables.members, sizeof tables.members, tables.sessions, sizeof tables.sessions, 1 + DEVICES, 0, units);
}

static void call_release(void)
{
    outcome = gneissfold_release(tables.devices, sizeof tables.devices, tables.binds, sizeof tables.binds, tables.groups, sizeof tables.groups,
                                 tables.members, sizeof tables.members, tables.sessions, sizeof tables.sessions, 2);
}

static void call_carry_over(void)
{
    outcome = gneissfold_carry_over(tables.old_devices, sizeof tables.old_devices, tables.devices, sizeof tables.devices);
}

static void call_copy(void)
{
    outcome = gneissfold_copy(message, message_length, reply, sizeof reply, 2, 0, &count);
}

static void call_read(void)
{
    outcome = gneissfold_read(message, message_length, fields);
}

/* Octets 1 to 15 of a message from device 1, unit 0: to an address, and to D'0:U'0, a command of Bind or Group Management. */
#define TO(device, unit) 0, 1, 0, (device) >> 8, (device)&0xFF, unit, 0, 0, 7, 1, 0x82, 0, 1, 0, 0
#define COMMAND(uid, member, length) 0, 1, 0, 0, 0, 0, 0, 0, 7, 1, 0x80, uid, member, 0, length
#define BIND(member, length) COMMAND(GNEISSFOLD_BIND_MANAGEMENT, member, length)
#define GROUP(member, length) COMMAND(GNEISSFOLD_GROUP_MANAGEMENT, member, length)

enum { HEAD = GNEISSFOLD_HEADER_LENGTH, CODE = HEAD + 1, ENTRIES = CODE + 1 + GNEISSFOLD_MOST_ENTRIES * GNEISSFOLD_BIND_SIZE };

static const struct {
    const char *name;
    void (*call)(void);
    uint8_t message[GNEISSFOLD_HEADER_LENGTH + GNEISSFOLD_BIND_SIZE];
    size_t length;
    uint8_t outcome;
    /* Recipients, or the length of a reply or a copy. */
    size_t count;
} calls[] = {
    {"message, refused: 14 octets", call_message, {0}, 14, 10, 0},
    {"message to a unit", call_message, {TO(2, 0)}, HEAD, 1, 1},
    {"message to a group of 127", call_message, {TO(0x8001, 0)}, HEAD, 1, MEMBERS},
    {"message to the bind address, 63 binds", call_message, {TO(GNEISSFOLD_BIND_ADDRESS, GNEISSFOLD_BIND_UNIT)}, HEAD, 1, BINDS},
    {"Add Bind", call_message, {BIND(0x01, 8), 0, 1, 0, 0x82, 0, 0, 2, 3}, HEAD + 8, 0, CODE},
    {"Remove Bind", call_message, {BIND(0x02, 8), 0, 1, 0, 0x82, 0, 0, 2, 0}, HEAD + 8, 0, CODE},
    {"Remove Bind by source device", call_message, {BIND(0x03, 2), 0, 1}, HEAD + 2, 0, CODE},
    {"Remove Bind by source unit", call_message, {BIND(0x04, 3), 0, 1, 0}, HEAD + 3, 0, CODE},
    {"Remove Bind by destination", call_message, {BIND(0x05, 2), 0, 2}, HEAD + 2, 0, CODE},
    {"Remove Bind by destination unit", call_message, {BIND(0x06, 3), 0, 2, 0}, HEAD + 3, 0, CODE},
    {"Start", call_message, {BIND(0x07, 0)}, HEAD, 0, CODE + 2},
    {"End", call_message, {BIND(0x08, 0)}, HEAD, 0, CODE},
    {"60 binds read back by index", call_message, {BIND(0x09, 3), 0, 0, 0xFF}, HEAD + 3, 0, ENTRIES},
    {"60 binds read back by source device", call_message, {BIND(0x0A, 2), 0, 1}, HEAD + 2, 0, ENTRIES},
    {"60 binds read back by source unit", call_message, {BIND(0x0B, 3), 0, 1, 0}, HEAD + 3, 0, ENTRIES},
    {"binds read back by destination", call_message, {BIND(0x0C, 2), 0, 3}, HEAD + 2, 0, CODE + 1 + GNEISSFOLD_BIND_SIZE},
    {"binds read back by destination unit", call_message, {BIND(0x0D, 3), 0, 3, 0}, HEAD + 3, 0, CODE + 1 + GNEISSFOLD_BIND_SIZE},
    {"Create Group", call_message, {GROUP(0x01, 4), 3, 'H', 'a', 'l'}, HEAD + 4, 0, CODE + 2},
    {"Delete Group", call_message, {GROUP(0x02, 2), 0, 1}, HEAD + 2, 0, CODE},
    {"Add to Group", call_message, {GROUP(0x03, 5), 0, 1, 0, 1, 1}, HEAD + 5, 0, CODE},
    {"Remove from Group", call_message, {GROUP(0x04, 5), 0, 1, 0, 2, 0}, HEAD + 5, 0, CODE},
    {"Get Group Info, 127 members", call_message, {GROUP(0x05, 2), 0, 1}, HEAD + 2, 0, CODE + 1 + 7 + 2 + 3 * MEMBERS},
    {"admit", call_admit, {0}, 0, 0, 0},
    {"release", call_release, {0}, 0, 0, 0},
    {"carry-over", call_carry_over, {0}, 0, 0, 0},
    {"copy", call_copy, {TO(0x8001, 0)}, HEAD, 0, HEAD},
    {"read", call_read, {TO(0x8001, 0)}, HEAD, 0, 0}};

/* The octets of a painted stack that are paint no more after the call. */
static size_t painted(void (*call)(void))
{
    enum { SIZE = 1 << 16, PAINT = 0xA5 };
    static uint8_t stack[SIZE];
    static ucontext_t here, there;
    size_t left = 0;
    memset(stack, PAINT, SIZE);
    getcontext(&there);
    there.uc_stack.ss_sp = stack;
    there.uc_stack.ss_size = SIZE;
    there.uc_link = &here;
    makecontext(&there, call, 0);
    swapcontext(&here, &there);
    while (left < SIZE && stack[left] == PAINT)
        left++;
    return SIZE - left;
}

int main(void)
{
    const size_t around = painted(call_nothing);
    for (size_t n = 0; n < sizeof calls / sizeof calls[0]; n++) {
        size_t used;
        fill();
        memset(reply, 0, sizeof reply);
        message = calls[n].message;
        message_length = calls[n].length;
        outcome = 255;
        count = 0;
        used = painted(calls[n].call) - around;
        if (outcome != calls[n].outcome || count != calls[n].count || reply[GNEISSFOLD_REPLY_CODE] != 0) {
            fprintf(stderr, "stack: %s: outcome %d, count %zu, code 0x%02X\n", calls[n].name, outcome, count, reply[GNEISSFOLD_REPLY_CODE]);
            return 1;
        }
        printf("%zu\t%s\n", used, calls[n].name);
    }
    return 0;
}
