/* A curtain: a wall switch and a motor are admitted, the switch is bound to the motor, and the switch's command finds who moves. */
#include <stdio.h>
#include <string.h>

#include "../include/gneissfold.h"

enum { SWITCH = 0x0003, MOTOR = 0x0004 };

/* The tables, here at full size. A free record is all 0xFF. */
static uint8_t devices[GNEISSFOLD_DEVICES_LENGTH];
static uint8_t binds[GNEISSFOLD_BINDS_LENGTH];
static uint8_t groups[GNEISSFOLD_GROUPS_LENGTH];
static uint8_t members[GNEISSFOLD_MEMBERS_LENGTH];
static uint8_t sessions[GNEISSFOLD_SESSIONS_LENGTH];

static uint8_t reply[GNEISSFOLD_LONGEST];
static uint8_t list[GNEISSFOLD_LIST_LENGTH];

/* Units 0 and 1: the two lowest bits of the first octet. */
static const uint8_t units[GNEISSFOLD_UNITS_LENGTH] = {0x03};

static uint8_t admit(uint16_t address, uint8_t rights)
{
    return gneissfold_admit(devices, sizeof devices, binds, sizeof binds, groups, sizeof groups, members, sizeof members,
                            sessions, sizeof sessions, address, rights, units);
}

static uint8_t handle(const uint8_t *message, size_t length, size_t *count)
{
    uint8_t reason, octet;
    return gneissfold_message(devices, sizeof devices, binds, sizeof binds, groups, sizeof groups, members, sizeof members, sessions,
                              sizeof sessions, message, length, reply, sizeof reply, list, sizeof list, count, &reason, &octet);
}

int main(void)
{
    /* From 3:01 to D'0:U'0, Bind Management (server, UID 0x0002), Add Bind: 3:01, server, UID 0x0200, to D'4:U'01. */
    static const uint8_t add_bind[] = {
        0x00, 0x03, 0x01, 0x00, 0x00, 0x00, 0x00, 0x00, 0x07, 0x01, 0x80, 0x02, 0x01, 0x00, 0x08,
        0x00, 0x03, 0x01, 0x82, 0x00, 0x00, 0x04, 0x01};
    /* From 3:01 to the bind address, D'7FFF:U'FF: the switch's command, server, UID 0x0200, member 1, no payload. */
    static const uint8_t command[] = {
        0x00, 0x03, 0x01, 0x7F, 0xFF, 0xFF, 0x00, 0x00, 0x08, 0x01, 0x82, 0x00, 0x01, 0x00, 0x00};
    uint8_t copy[GNEISSFOLD_LONGEST];
    uint16_t fields[GNEISSFOLD_FIELDS];
    size_t count, length;
    uint8_t outcome;

    memset(devices, GNEISSFOLD_FREE, sizeof devices);
    memset(binds, GNEISSFOLD_FREE, sizeof binds);
    memset(groups, GNEISSFOLD_FREE, sizeof groups);
    memset(members, GNEISSFOLD_FREE, sizeof members);
    memset(sessions, GNEISSFOLD_FREE, sizeof sessions);

    printf("admit the switch: outcome %d\n", admit(SWITCH, 1));
    printf("admit the motor: outcome %d\n", admit(MOTOR, 0));
    printf("admit the motor again: outcome %d\n", admit(MOTOR, 0));

    outcome = handle(add_bind, sizeof add_bind, &count);
    printf("bind the switch to the motor: outcome %d, reply of %zu octets, code 0x%02X\n", outcome, count,
           reply[GNEISSFOLD_HEADER_LENGTH]);

    outcome = handle(command, sizeof command, &count);
    printf("the switch is pressed: outcome %d, recipients %zu\n", outcome, count);
    for (size_t i = 0; i < count; i++) {
        const uint8_t *to = list + i * GNEISSFOLD_RECIPIENT_SIZE;
        outcome = gneissfold_copy(command, sizeof command, copy, sizeof copy, (uint16_t)(to[0] << 8 | to[1]), to[2], &length);
        printf("copy: outcome %d, length %zu\n", outcome, length);
        outcome = gneissfold_read(copy, length, fields);
        printf("read: outcome %d, who moves: %04X:%02X\n", outcome, (unsigned)fields[GNEISSFOLD_DESTINATION],
               (unsigned)fields[GNEISSFOLD_DESTINATION_UNIT]);
    }

    outcome = gneissfold_release(devices, sizeof devices, binds, sizeof binds, groups, sizeof groups, members, sizeof members,
                                 sessions, sizeof sessions, MOTOR);
    printf("release the motor: outcome %d\n", outcome);
    outcome = handle(command, sizeof command, &count);
    printf("the switch is pressed: outcome %d, recipients %zu\n", outcome, count);
    return 0;
}
