/* Binds read back: a fitter's device reads all binds of a hub, two at a time, and compares them with the sheet. Then somebody adds a bind while it
   reads, which closes its session: what was read is no longer the table, and it starts again. */
#include <stdio.h>
#include <stdlib.h>
#include <string.h>

#include "../include/gneissfold.h"

enum { FITTER = 0x0101, OTHER = 0x0102, SWITCH = 0x0103, MOTOR = 0x0201, SHEER = 0x0202, PAGE = 2 };

static uint8_t devices[GNEISSFOLD_DEVICES_LENGTH];
static uint8_t binds[GNEISSFOLD_BINDS_LENGTH];
static uint8_t groups[GNEISSFOLD_GROUPS_LENGTH];
static uint8_t members[GNEISSFOLD_MEMBERS_LENGTH];
static uint8_t sessions[GNEISSFOLD_SESSIONS_LENGTH];
static uint8_t reply[GNEISSFOLD_LONGEST];
static uint8_t list[GNEISSFOLD_LIST_LENGTH];

/* What was read, one bind behind the other. */
static uint8_t found[GNEISSFOLD_BINDS_LENGTH];

/* The hub as it was taught. A bind is its source (device 2, unit 1), its interface 2 (server: top bit set) and its destination (device or group 2, a
   group with the top bit set; unit 1). The third is for unit 7 of any device, the fourth for any interface, the fifth for any unit. */
static const uint8_t taught[][GNEISSFOLD_BIND_SIZE] = {
    {0x01, 0x03, 0x01, 0x82, 0x00, 0x02, 0x01, 0x01},
    {0x01, 0x03, 0x01, 0x82, 0x00, 0x80, 0x01, 0x00},
    {0x7F, 0xFF, 0x07, 0x82, 0x00, 0x80, 0x01, 0x00},
    {0x01, 0x03, 0x02, 0xFF, 0xFF, 0x02, 0x01, 0x01},
    {0x01, 0x01, 0xFF, 0x02, 0x00, 0x02, 0x02, 0x01}};

/* The fitter's sheet, in an order of its own. It has a bind of 0103:01 to the sheer, which nobody taught, and none of 0103:02. */
static const uint8_t sheet[][GNEISSFOLD_BIND_SIZE] = {
    {0x7F, 0xFF, 0x07, 0x82, 0x00, 0x80, 0x01, 0x00},
    {0x01, 0x01, 0xFF, 0x02, 0x00, 0x02, 0x02, 0x01},
    {0x01, 0x03, 0x01, 0x82, 0x00, 0x02, 0x01, 0x01},
    {0x01, 0x03, 0x01, 0x82, 0x00, 0x02, 0x02, 0x01},
    {0x01, 0x03, 0x01, 0x82, 0x00, 0x80, 0x01, 0x00}};

enum { TAUGHT = sizeof taught / sizeof taught[0], ON_SHEET = sizeof sheet / sizeof sheet[0] };

/* Admits a device with units 0, 1, 2 and 7. */
static void admit(const char *what, uint16_t address, uint8_t rights)
{
    static const uint8_t units[GNEISSFOLD_UNITS_LENGTH] = {0x87};
    printf("admit %s %04X: outcome %d\n", what, address,
           gneissfold_admit(devices, sizeof devices, binds, sizeof binds, groups, sizeof groups, members, sizeof members,
                            sessions, sizeof sessions, address, rights, units));
}

/* A command to D'0:U'0 from unit 0 of a device: UID (server), member, payload. Its code, which is there where the command was handled. */
static int command(uint16_t from, uint8_t uid, uint8_t member, const uint8_t *payload, uint8_t length)
{
    uint8_t message[GNEISSFOLD_LONGEST] = {
        (uint8_t)(from >> 8), (uint8_t)from, 0x00, 0x00, 0x00, 0x00, 0x00, 0x00, 0x07, 0x02, 0x80, uid, member, 0x00, length};
    size_t count;
    uint8_t outcome, reason, octet;
    memcpy(message + GNEISSFOLD_HEADER_LENGTH, payload, length);
    outcome = gneissfold_message(devices, sizeof devices, binds, sizeof binds, groups, sizeof groups, members, sizeof members,
                                 sessions, sizeof sessions, message, GNEISSFOLD_HEADER_LENGTH + length, reply, sizeof reply,
                                 list, sizeof list, &count, &reason, &octet);
    if (outcome != GNEISSFOLD_DONE) {
        printf("refused: outcome %d\n", outcome);
        exit(1);
    }
    return reply[GNEISSFOLD_REPLY_CODE];
}

/* Stands where there is no payload: memcpy takes no NULL. */
static const uint8_t nothing[1];

static int on_binds(uint16_t from, uint8_t member, const uint8_t *payload, uint8_t length)
{
    return command(from, GNEISSFOLD_BIND_MANAGEMENT, member, payload, length);
}

static void start(void)
{
    int code = on_binds(FITTER, GNEISSFOLD_START_READING, nothing, 0);
    printf("start: code 0x%02X", code);
    if (code == GNEISSFOLD_CODE_OK)
        printf(", binds %d", reply[GNEISSFOLD_REPLY_BINDS] << 8 | reply[GNEISSFOLD_REPLY_BINDS + 1]);
    putchar('\n');
}

static void end(void)
{
    printf("end: code 0x%02X\n", on_binds(FITTER, GNEISSFOLD_END_READING, nothing, 0));
}

/* A bind in words. */
static void say(const uint8_t *bind)
{
    unsigned device = (unsigned)(bind[0] << 8 | bind[1]);
    unsigned interface = (unsigned)(bind[3] << 8 | bind[4]);
    unsigned to = (unsigned)(bind[5] << 8 | bind[6]);
    const char *role = interface & 0x8000 ? "server" : "client";

    if (device != GNEISSFOLD_ANY_DEVICE && bind[2] != GNEISSFOLD_ANY_UNIT)
        printf("%04X:%02X", device, bind[2]);
    else if (device != GNEISSFOLD_ANY_DEVICE)
        printf("any unit of %04X", device);
    else if (bind[2] != GNEISSFOLD_ANY_UNIT)
        printf("unit %02X of any device", bind[2]);
    else
        printf("any unit of any device");
    if (to & 0x8000)
        printf(" to group %04X", to & 0x7FFF);
    else
        printf(" to %04X:%02X", to, bind[7]);
    if ((interface & 0x7FFF) == GNEISSFOLD_ANY_INTERFACE)
        printf(" at any %s interface\n", role);
    else
        printf(" at %s interface 0x%04X\n", role, interface & 0x7FFF);
}

/* How often a bind stands among these. */
static size_t times(const uint8_t *bind, const uint8_t *among, size_t number)
{
    size_t equal = 0;
    for (size_t i = 0; i < number; i++)
        equal += memcmp(bind, among + i * GNEISSFOLD_BIND_SIZE, GNEISSFOLD_BIND_SIZE) == 0;
    return equal;
}

/* Says each bind of `ours` that `theirs` has fewer of. */
static void beyond(const char *what, const uint8_t *ours, size_t our_number, const uint8_t *theirs, size_t their_number)
{
    for (size_t i = 0; i < our_number; i++) {
        const uint8_t *bind = ours + i * GNEISSFOLD_BIND_SIZE;
        if (times(bind, ours, i + 1) > times(bind, theirs, their_number)) {
            printf("%s: ", what);
            say(bind);
        }
    }
}

/* A page, at most PAGE binds from an index on, goes behind those that were found before. How many it has, or -1 where the session is closed. */
static int page(size_t index)
{
    const uint8_t payload[] = {(uint8_t)(index >> 8), (uint8_t)index, PAGE};
    int code = on_binds(FITTER, GNEISSFOLD_READ_BY_INDEX, payload, sizeof payload);
    int number = reply[GNEISSFOLD_REPLY_NUMBER];
    printf("read from bind %zu on: code 0x%02X", index, code);
    if (code != GNEISSFOLD_CODE_OK) {
        putchar('\n');
        return -1;
    }
    printf(", entries %d\n", number);
    for (size_t i = 0; i < (size_t)number; i++) {
        const uint8_t *entry = reply + GNEISSFOLD_REPLY_ENTRIES + i * GNEISSFOLD_BIND_SIZE;
        memcpy(found + (index + i) * GNEISSFOLD_BIND_SIZE, entry, GNEISSFOLD_BIND_SIZE);
        printf("  ");
        say(entry);
    }
    return number;
}

/* Reads page after page until one is not full, and compares what was found with the sheet. */
static void compare(void)
{
    size_t number = 0;
    int more;
    do {
        more = page(number);
        if (more < 0)
            return;
        number += (size_t)more;
    } while (more == PAGE);
    beyond("missing", sheet[0], ON_SHEET, found, number);
    beyond("too many", found, number, sheet[0], ON_SHEET);
}

int main(void)
{
    static const uint8_t sheers[] = {6, 's', 'h', 'e', 'e', 'r', 's'};
    static const uint8_t member[GNEISSFOLD_MEMBER_SIZE] = {0x00, 0x01, SHEER >> 8, SHEER & 0xFF, 0x01};

    memset(devices, GNEISSFOLD_FREE, sizeof devices);
    memset(binds, GNEISSFOLD_FREE, sizeof binds);
    memset(groups, GNEISSFOLD_FREE, sizeof groups);
    memset(members, GNEISSFOLD_FREE, sizeof members);
    memset(sessions, GNEISSFOLD_FREE, sizeof sessions);

    admit("the fitter's device", FITTER, 1);
    admit("another fitter's", OTHER, 1);
    admit("a switch", SWITCH, 0);
    admit("a motor", MOTOR, 0);
    admit("a sheer", SHEER, 0);
    printf("create the group of the sheers: code 0x%02X\n",
           command(OTHER, GNEISSFOLD_GROUP_MANAGEMENT, GNEISSFOLD_CREATE_GROUP, sheers, sizeof sheers));
    printf("add the sheer to it: code 0x%02X\n",
           command(OTHER, GNEISSFOLD_GROUP_MANAGEMENT, GNEISSFOLD_ADD_TO_GROUP, member, sizeof member));
    for (int i = 0; i < TAUGHT; i++)
        printf("add a bind: code 0x%02X\n", on_binds(OTHER, GNEISSFOLD_ADD_BIND, taught[i], GNEISSFOLD_BIND_SIZE));

    start();
    compare();
    end();

    puts("the other fitter adds what is missing, in the middle of a reading");
    start();
    page(0);
    printf("add a bind: code 0x%02X\n", on_binds(OTHER, GNEISSFOLD_ADD_BIND, sheet[3], GNEISSFOLD_BIND_SIZE));
    page(PAGE);
    end();
    start();
    compare();
    end();
    return 0;
}
