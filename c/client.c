/* Makes request packets and prints them, in hexadecimal and in words.

   client                       the packets of a small session
   client NUMBER LABEL PLACE    a mount packet */
#include <errno.h>
#include <stdio.h>
#include <stdlib.h>
#include <string.h>

#include "cartridge_host.h"

struct request {
    uint8_t map;
    uint16_t number;
    uint8_t command;
    uint8_t option;
    uint8_t label[6];
    uint8_t place;
    uint16_t target;
    uint8_t drive_state;
};

enum { PLAIN = CARTRIDGE_NUMBER | CARTRIDGE_COMMAND };

static const char *command_name(uint8_t command)
{
    static const char *const names[] = {"cancel", "dismount", "eject", "enter", "idle",
                                        "mount",  "query",    "start", "vary"};
    return command >= CARTRIDGE_CANCEL && command <= CARTRIDGE_VARY
               ? names[command - CARTRIDGE_CANCEL]
               : "unknown command";
}

static const char *status_words(uint8_t status)
{
    static const char *const words[] = {
        "it is a request",     "it is too short",
        "it is too long",      "the command is unknown",
        "a bit is wrong",      "a character of the label is wrong",
        "the drive state is wrong"};
    return status <= CARTRIDGE_WRONG_DRIVE_STATE ? words[status] : "unknown status";
}

static void print_words(const struct request *r)
{
    printf("%s %u", command_name(r->command), (unsigned)r->number);
    if (r->map & CARTRIDGE_LABEL)
        printf(", label %.6s", (const char *)r->label);
    if (r->map & CARTRIDGE_PLACE)
        printf(", place %u", (unsigned)r->place);
    if (r->map & CARTRIDGE_TARGET)
        printf(", request %u", (unsigned)r->target);
    if (r->map & CARTRIDGE_DRIVE_STATE)
        printf(", %s", r->drive_state == 1 ? "online" : "offline");
    if (r->map & CARTRIDGE_OPTION)
        printf(", forced");
}

/* Prints the packet of a request; 0, or 1 where the writer refuses it. */
static int send(const struct request *r)
{
    uint8_t packet[CARTRIDGE_REQUEST_ROOM];
    struct cartridge_written w =
        cartridge_write_request(packet, sizeof packet, r->map, r->number, r->command, r->option,
                                r->label, r->place, r->target, r->drive_state);
    if (w.status != CARTRIDGE_SUCCESS) {
        fprintf(stderr, "client: no packet: %s (status %u)\n", status_words(w.status),
                (unsigned)w.status);
        return 1;
    }
    for (size_t i = 0; i < w.length; i++)
        printf("%02X ", (unsigned)packet[i]);
    printf("  ");
    print_words(r);
    putchar('\n');
    return 0;
}

static int send_session(void)
{
    static const struct request session[] = {
        {.map = PLAIN, .number = 1, .command = CARTRIDGE_START},
        {.map = PLAIN, .number = 2, .command = CARTRIDGE_ENTER},
        {.map = PLAIN | CARTRIDGE_LABEL | CARTRIDGE_PLACE, .number = 258,
         .command = CARTRIDGE_MOUNT, .label = {'A', 'B', 'C', '1', '2', '3'}, .place = 5},
        {.map = PLAIN | CARTRIDGE_LABEL, .number = 259, .command = CARTRIDGE_QUERY,
         .label = {'A', 'B', 'C', '1', '2', '3'}},
        {.map = PLAIN | CARTRIDGE_LABEL | CARTRIDGE_PLACE | CARTRIDGE_OPTION, .number = 260,
         .command = CARTRIDGE_DISMOUNT, .option = 1, .label = {'A', 'B', 'C', '1', '2', '3'},
         .place = 5},
        {.map = PLAIN | CARTRIDGE_LABEL, .number = 261, .command = CARTRIDGE_EJECT,
         .label = {'A', 'B', 'C', '1', '2', '3'}},
        {.map = PLAIN | CARTRIDGE_TARGET, .number = 262, .command = CARTRIDGE_CANCEL,
         .target = 261},
        {.map = PLAIN | CARTRIDGE_PLACE | CARTRIDGE_DRIVE_STATE, .number = 263,
         .command = CARTRIDGE_VARY, .place = 5, .drive_state = 2},
        {.map = PLAIN | CARTRIDGE_OPTION, .number = 65535, .command = CARTRIDGE_IDLE, .option = 1},
    };
    for (size_t i = 0; i < sizeof session / sizeof *session; i++)
        if (send(&session[i]))
            return 1;
    return 0;
}

/* A number from 0 to `most`, or -1. */
static long number_in(const char *text, long most)
{
    char *end;
    errno = 0;
    long n = strtol(text, &end, 10);
    return errno == 0 && end != text && *end == '\0' && n >= 0 && n <= most ? n : -1;
}

int main(int count, char **words)
{
    if (count == 1)
        return send_session();
    long number = count == 4 ? number_in(words[1], 65535) : -1;
    long place = count == 4 ? number_in(words[3], 255) : -1;
    if (number < 0 || place < 0 || strlen(words[2]) != 6) {
        fprintf(stderr, "client [NUMBER LABEL PLACE]: a number to 65535, six characters, a place to 255\n");
        return 2;
    }
    struct request mount = {.map = PLAIN | CARTRIDGE_LABEL | CARTRIDGE_PLACE,
                            .number = (uint16_t)number,
                            .command = CARTRIDGE_MOUNT,
                            .place = (uint8_t)place};
    memcpy(mount.label, words[2], sizeof mount.label);
    return send(&mount);
}
