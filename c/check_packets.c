/* Calls both functions on packets and fields of every kind and prints what they answer. The file
   check_packets.expected has what they must. */
#include <stdio.h>
#include <string.h>

#include "cartridge_host.h"

_Static_assert(sizeof(struct cartridge_checked) == 8, "no gaps");

static void print_bytes(const uint8_t *bytes, size_t length)
{
    for (size_t i = 0; i < length; i++)
        printf(" %02X", (unsigned)bytes[i]);
}

static void check(const char *what, const uint8_t *packet, size_t length)
{
    struct cartridge_checked c = cartridge_check_packet(packet, length);
    printf("%s:", what);
    print_bytes(packet, length);
    printf("\n    status %u", (unsigned)c.status);
    if (c.has_detail)
        printf(", detail %u", (unsigned)c.detail);
    if (c.has_number)
        printf(", number %u", (unsigned)c.number);
    if (c.has_command)
        printf(", command %u", (unsigned)c.command);
    if ((!c.has_detail && c.detail) || (!c.has_number && c.number) || (!c.has_command && c.command))
        printf(", and a value that is not there is not 0");
    putchar('\n');
}

#define CHECK(what, ...)                                                                           \
    check(what, (const uint8_t[]){__VA_ARGS__}, sizeof((const uint8_t[]){__VA_ARGS__}))

static void read_packets(void)
{
    puts("-- good");
    CHECK("mount 258", 0x1B, 1, 2, 7, 'A', 'B', 'C', '1', '2', '3', 5);
    CHECK("cancel", 0x23, 0, 7, 2, 1, 2);
    CHECK("dismount", 0x1B, 0, 7, 3, '0', '9', 'A', 'Z', '0', '0', 255);
    CHECK("dismount, forced", 0x1F, 0, 7, 3, 1, 'A', 'B', 'C', '1', '2', '3', 0);
    CHECK("eject", 0x0B, 0, 7, 4, 'A', 'B', 'C', '1', '2', '3');
    CHECK("enter", 0x03, 255, 255, 5);
    CHECK("idle", 0x03, 0, 0, 6);
    CHECK("idle, forced", 0x07, 0, 7, 6, 1);
    CHECK("query", 0x03, 0, 7, 8);
    CHECK("query of a label", 0x0B, 0, 7, 8, 'A', 'B', 'C', '1', '2', '3');
    CHECK("start", 0x03, 0, 7, 9);
    CHECK("vary online", 0x53, 0, 7, 10, 2, 1);
    CHECK("vary offline", 0x53, 0, 7, 10, 2, 2);

    puts("-- short and long");
    CHECK("mount 258, one byte less", 0x1B, 1, 2, 7, 'A', 'B', 'C', '1', '2', '3');
    CHECK("mount 258, one byte more", 0x1B, 1, 2, 7, 'A', 'B', 'C', '1', '2', '3', 5, 0);
    check("no bytes", (const uint8_t[]){0}, 0);
    CHECK("the map alone", 0x03);
    CHECK("the number is cut", 0x03, 1);
    CHECK("the command is missing", 0x03, 1, 2);
    CHECK("a map that asks for nothing", 0x00, 0);

    puts("-- unknown command");
    CHECK("no command", 0x01, 0, 7);
    CHECK("command 1", 0x03, 0, 7, 1);
    CHECK("command 11", 0x03, 0, 7, 11);

    puts("-- wrong bit");
    CHECK("no number", 0x02, 5);
    CHECK("option 2", 0x07, 0, 7, 6, 2);
    CHECK("an option that mount does not take", 0x1F, 0, 7, 7, 1, 'A', 'B', 'C', '1', '2', '3', 5);
    CHECK("mount without label, with target", 0x33, 0, 7, 7, 5, 0, 1);
    CHECK("mount without place", 0x0B, 0, 7, 7, 'A', 'B', 'C', '1', '2', '3');
    CHECK("cancel without target", 0x03, 0, 7, 2);
    CHECK("vary without drive state", 0x13, 0, 7, 10, 2);
    CHECK("bit 7", 0x83, 0, 7, 9);

    puts("-- wrong character");
    CHECK("the first", 0x0B, 0, 7, 4, '/', 'B', 'C', '1', '2', '3');
    CHECK("the second", 0x0B, 0, 7, 4, 'A', ':', 'C', '1', '2', '3');
    CHECK("the third", 0x0B, 0, 7, 4, 'A', 'B', 'c', '1', '2', '3');
    CHECK("the fourth", 0x0B, 0, 7, 4, 'A', 'B', 'C', '@', '2', '3');
    CHECK("the fifth, and the last", 0x0B, 0, 7, 4, 'A', 'B', 'C', '1', '[', '?');
    CHECK("the last", 0x0B, 0, 7, 4, 'A', 'B', 'C', '1', '2', 0);

    puts("-- wrong drive state");
    CHECK("0", 0x53, 0, 7, 10, 2, 0);
    CHECK("3", 0x53, 0, 7, 10, 2, 3);
}

enum { HELD = 20 };

/* Writes into the first `room` bytes of a store of 20, all EE before. */
static void write(const char *what, size_t room, uint8_t map, uint8_t command, uint8_t option,
                  const char *label, uint8_t drive_state)
{
    uint8_t store[HELD];
    memset(store, 0xEE, sizeof store);
    struct cartridge_written w =
        cartridge_write_request(store, room, map, 258, command, option, (const uint8_t *)label, 5,
                                772, drive_state);
    printf("%s: status %u, length %zu\n   ", what, (unsigned)w.status, w.length);
    print_bytes(store, sizeof store);
    putchar('\n');
}

static void write_packets(void)
{
    puts("-- written, EE behind");
    write("mount", HELD, 0x1B, CARTRIDGE_MOUNT, 0, "ABC123", 0);
    write("mount into 15 bytes", 15, 0x1B, CARTRIDGE_MOUNT, 0, "ABC123", 0);
    write("cancel", HELD, 0x23, CARTRIDGE_CANCEL, 0, "??????", 0);
    write("dismount", HELD, 0x1B, CARTRIDGE_DISMOUNT, 0, "ZZZZZZ", 0);
    write("dismount, forced", HELD, 0x1F, CARTRIDGE_DISMOUNT, 1, "000000", 0);
    write("eject", HELD, 0x0B, CARTRIDGE_EJECT, 0, "ABC123", 0);
    write("enter", HELD, 0x03, CARTRIDGE_ENTER, 0, "??????", 0);
    write("idle", HELD, 0x03, CARTRIDGE_IDLE, 9, "??????", 0);
    write("idle, forced", HELD, 0x07, CARTRIDGE_IDLE, 1, "??????", 0);
    write("query", HELD, 0x03, CARTRIDGE_QUERY, 0, "??????", 0);
    write("query of a label", HELD, 0x0B, CARTRIDGE_QUERY, 0, "ABC123", 0);
    write("start", HELD, 0x03, CARTRIDGE_START, 0, "??????", 0);
    write("vary", HELD, 0x53, CARTRIDGE_VARY, 0, "??????", 2);

    puts("-- refused, nothing written");
    write("14 bytes", 14, 0x1B, CARTRIDGE_MOUNT, 0, "ABC123", 0);
    write("14 bytes for a start of 4", 14, 0x03, CARTRIDGE_START, 0, "??????", 0);
    write("14 bytes, and an unknown command", 14, 0x03, 11, 0, "??????", 0);
    write("no bytes", 0, 0x03, CARTRIDGE_START, 0, "??????", 0);
    write("command 11", HELD, 0x03, 11, 0, "??????", 0);
    write("mount without place", HELD, 0x0B, CARTRIDGE_MOUNT, 0, "ABC123", 0);
    write("option 0", HELD, 0x07, CARTRIDGE_IDLE, 0, "??????", 0);
    write("a wrong character", HELD, 0x0B, CARTRIDGE_EJECT, 0, "ABC12?", 0);
    write("drive state 3", HELD, 0x53, CARTRIDGE_VARY, 0, "??????", 3);
}

int main(void)
{
    read_packets();
    write_packets();
    return 0;
}
