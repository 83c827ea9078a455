/* A scene switch: in three rooms there is the same key, unit 7 of each room's switch, and one bind is for all of them: any device, unit 7, to the
   group of the sheers. A room that is added later needs no bind of its own, and a switch that is released takes nothing along. */
#include <stdio.h>
#include <string.h>

#include "../include/gneissfold.h"

enum { SCENE_KEY = 7, SHEER = 1, CURTAINS = 0x0200, ROOMS = 3 };

static uint8_t devices[GNEISSFOLD_DEVICES_LENGTH];
static uint8_t binds[GNEISSFOLD_BINDS_LENGTH];
static uint8_t groups[GNEISSFOLD_GROUPS_LENGTH];
static uint8_t members[GNEISSFOLD_MEMBERS_LENGTH];
static uint8_t sessions[GNEISSFOLD_SESSIONS_LENGTH];
static uint8_t reply[GNEISSFOLD_LONGEST];
static uint8_t list[GNEISSFOLD_LIST_LENGTH];

/* The switch of room 1 is 0x0101 and its motor 0x0201, and so on. */
static uint16_t switch_of(int room) { return (uint16_t)(0x0100 + room); }
static uint16_t motor_of(int room) { return (uint16_t)(0x0200 + room); }

static uint8_t handle(const uint8_t *message, size_t length, size_t *count)
{
    uint8_t reason, octet;
    return gneissfold_message(devices, sizeof devices, binds, sizeof binds, groups, sizeof groups, members, sizeof members, sessions,
                              sizeof sessions, message, length, reply, sizeof reply, list, sizeof list, count, &reason, &octet);
}

/* Admits a device with unit 0 and one more. */
static void admit(const char *what, uint16_t address, uint8_t rights, uint8_t unit)
{
    uint8_t units[GNEISSFOLD_UNITS_LENGTH] = {1};
    units[unit / 8] |= 1 << unit % 8;
    printf("admit %s %04X: outcome %d\n", what, address,
           gneissfold_admit(devices, sizeof devices, binds, sizeof binds, groups, sizeof groups, members, sizeof members,
                            sessions, sizeof sessions, address, rights, units));
}

/* A command to D'0:U'0 from unit 0 of the switch of room 1, which has rights: UID (server), member, payload. */
static void command(const char *what, uint8_t uid, uint8_t member, const uint8_t *payload, uint8_t length)
{
    uint8_t message[GNEISSFOLD_LONGEST] = {0x01, 0x01, 0x00, 0x00, 0x00, 0x00, 0x00, 0x00, 0x07, 0x01, 0x80, uid, member, 0x00, length};
    size_t count;
    uint8_t outcome;
    memcpy(message + GNEISSFOLD_HEADER_LENGTH, payload, length);
    outcome = handle(message, GNEISSFOLD_HEADER_LENGTH + length, &count);
    printf("%s: outcome %d, code 0x%02X\n", what, outcome, reply[GNEISSFOLD_HEADER_LENGTH]);
}

/* A key of a switch is pressed: a command of that unit to the bind address, at the server interface of curtains. */
static void press(uint16_t address, uint8_t key)
{
    const uint8_t message[GNEISSFOLD_HEADER_LENGTH] = {
        (uint8_t)(address >> 8), (uint8_t)address, key, GNEISSFOLD_BIND_ADDRESS >> 8, GNEISSFOLD_BIND_ADDRESS & 0xFF, GNEISSFOLD_BIND_UNIT,
        0x00, 0x00, 0x08, 0x01, 0x80 | CURTAINS >> 8, CURTAINS & 0xFF, 0x01, 0x00, 0x00};
    size_t count;
    uint8_t outcome = handle(message, sizeof message, &count);
    printf("%04X:%02X is pressed: outcome %d,", address, key, outcome);
    for (size_t i = 0; i < count; i++) {
        const uint8_t *to = list + i * GNEISSFOLD_RECIPIENT_SIZE;
        printf(" %02X%02X:%02X", to[0], to[1], to[2]);
    }
    puts(count == 0 ? " nobody moves" : " move");
}

int main(void)
{
    static const uint8_t sheers[] = {6, 's', 'h', 'e', 'e', 'r', 's'};
    /* Source any device and unit 7, server, UID 0x0200; destination G'0001, whose unit plays no part. */
    static const uint8_t scene[GNEISSFOLD_BIND_SIZE] = {
        GNEISSFOLD_ANY_DEVICE >> 8, GNEISSFOLD_ANY_DEVICE & 0xFF, SCENE_KEY, 0x80 | CURTAINS >> 8, CURTAINS & 0xFF, 0x80, 0x01, 0x00};

    memset(devices, GNEISSFOLD_FREE, sizeof devices);
    memset(binds, GNEISSFOLD_FREE, sizeof binds);
    memset(groups, GNEISSFOLD_FREE, sizeof groups);
    memset(members, GNEISSFOLD_FREE, sizeof members);
    memset(sessions, GNEISSFOLD_FREE, sizeof sessions);

    for (int room = 1; room <= ROOMS; room++) {
        admit("the switch", switch_of(room), room == 1, SCENE_KEY);
        admit("the motor", motor_of(room), 0, SHEER);
    }
    command("create the group of the sheers", 0x03, 0x01, sheers, sizeof sheers);
    for (int room = 1; room <= ROOMS; room++) {
        const uint8_t member[GNEISSFOLD_MEMBER_SIZE] = {0x00, 0x01, (uint8_t)(motor_of(room) >> 8), (uint8_t)motor_of(room), SHEER};
        command("add a motor to it", 0x03, 0x03, member, sizeof member);
    }
    command("bind unit 7 of any device to it", 0x02, 0x01, scene, sizeof scene);

    for (int room = 1; room <= ROOMS; room++)
        press(switch_of(room), SCENE_KEY);
    press(switch_of(1), 0);

    admit("a fourth switch", switch_of(4), 0, SCENE_KEY);
    press(switch_of(4), SCENE_KEY);

    printf("release the switch %04X: outcome %d\n", switch_of(2),
           gneissfold_release(devices, sizeof devices, binds, sizeof binds, groups, sizeof groups, members, sizeof members,
                              sessions, sizeof sessions, switch_of(2)));
    press(switch_of(3), SCENE_KEY);
    command("remove the bind of any device", 0x02, 0x03, scene, 2);
    press(switch_of(3), SCENE_KEY);
    return 0;
}
