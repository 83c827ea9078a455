/* A valance with three motors, units 1, 2 and 9, comes into a house that has devices of the old form: these are carried over, the valance is
   admitted, and the switch that was there before is bound to its third motor. A bind to a unit that it has not is refused, and the reason told. */
#include <stdio.h>
#include <string.h>

#include "../include/gneissfold.h"

enum { SWITCH = 0x0003, VALANCE = 0x0004 };

/* What the house has: a device table of the old form, where the switch has rights and units 0 and 1, and the other tables, here all free. */
static uint8_t old_devices[GNEISSFOLD_OLD_DEVICES_LENGTH];
static uint8_t binds[GNEISSFOLD_BINDS_LENGTH];
static uint8_t groups[GNEISSFOLD_GROUPS_LENGTH];
static uint8_t members[GNEISSFOLD_MEMBERS_LENGTH];
static uint8_t sessions[GNEISSFOLD_SESSIONS_LENGTH];

/* The new table, nine times as long. The carry-over writes every octet of it. */
static uint8_t devices[GNEISSFOLD_DEVICES_LENGTH];

static uint8_t reply[GNEISSFOLD_LONGEST];
static uint8_t list[GNEISSFOLD_LIST_LENGTH];

/* What is wrong with a bind, and which octet of it. */
static uint8_t reason, octet;

static void put(uint8_t *units, uint8_t unit)
{
    units[unit / 8] |= 1 << unit % 8;
}

static uint8_t admit(const uint8_t *units)
{
    return gneissfold_admit(devices, sizeof devices, binds, sizeof binds, groups, sizeof groups, members, sizeof members,
                            sessions, sizeof sessions, VALANCE, 0, units);
}

static uint8_t handle(const uint8_t *message, size_t length, size_t *count)
{
    return gneissfold_message(devices, sizeof devices, binds, sizeof binds, groups, sizeof groups, members, sizeof members, sessions,
                              sizeof sessions, message, length, reply, sizeof reply, list, sizeof list, count, &reason, &octet);
}

/* From 3:01 to D'0:U'0, Bind Management (server, UID 0x0002), Add Bind: 3:01, server, UID 0x0200, to this unit of the valance. */
static void bind_to(uint8_t unit)
{
    const uint8_t add_bind[] = {
        0x00, 0x03, 0x01, 0x00, 0x00, 0x00, 0x00, 0x00, 0x07, 0x01, 0x80, 0x02, 0x01, 0x00, 0x08,
        0x00, 0x03, 0x01, 0x82, 0x00, 0x00, 0x04, unit};
    size_t count;
    uint8_t outcome = handle(add_bind, sizeof add_bind, &count);
    printf("bind the switch to unit %d: outcome %d, code 0x%02X\n", unit, outcome, reply[GNEISSFOLD_HEADER_LENGTH]);
    if (reason != GNEISSFOLD_REASON_NONE)
        printf("octet %d of the bind: %s\n", octet, gneissfold_reason_text(reason));
}

int main(void)
{
    /* Address, rights, highest unit. */
    static const uint8_t old_switch[GNEISSFOLD_OLD_DEVICE_SIZE] = {0x00, SWITCH, 1, 1};
    /* From 3:01 to the bind address, D'7FFF:U'FF: the switch's command, server, UID 0x0200, member 1, no payload. */
    static const uint8_t command[] = {
        0x00, 0x03, 0x01, 0x7F, 0xFF, 0xFF, 0x00, 0x00, 0x08, 0x01, 0x82, 0x00, 0x01, 0x00, 0x00};
    uint8_t units[GNEISSFOLD_UNITS_LENGTH] = {0};
    size_t count;
    uint8_t outcome;

    memset(old_devices, GNEISSFOLD_FREE, sizeof old_devices);
    memcpy(old_devices, old_switch, sizeof old_switch);
    memset(binds, GNEISSFOLD_FREE, sizeof binds);
    memset(groups, GNEISSFOLD_FREE, sizeof groups);
    memset(members, GNEISSFOLD_FREE, sizeof members);
    memset(sessions, GNEISSFOLD_FREE, sizeof sessions);

    outcome = gneissfold_carry_over(old_devices, sizeof old_devices, devices, sizeof devices);
    printf("carry the devices over: outcome %d\n", outcome);
    if (outcome != GNEISSFOLD_DONE)
        return 1;

    put(units, 1);
    put(units, 2);
    put(units, 9);
    printf("admit the valance with units 1, 2 and 9: outcome %d\n", admit(units));
    put(units, 0);
    printf("admit it with unit 0 too, which every device has: outcome %d\n", admit(units));

    bind_to(9);
    bind_to(8);

    outcome = handle(command, sizeof command, &count);
    printf("the switch is pressed: outcome %d, recipients %zu\n", outcome, count);
    for (size_t i = 0; i < count; i++) {
        const uint8_t *to = list + i * GNEISSFOLD_RECIPIENT_SIZE;
        printf("who moves: %02X%02X:%02X\n", to[0], to[1], to[2]);
    }
    return 0;
}
