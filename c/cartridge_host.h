/* Request packets for hosts of a cartridge library: a check of a packet's bytes, and the writer of
   request packets. Link libhost.a, which `c/library` writes. docs/PACKETS.md has the rules.

   The functions keep nothing between calls, ask for no memory and write nowhere but into the
   buffer that they are given. Pointers and lengths are trusted: a pointer must not be null, also
   where the length is 0, and as many bytes as the length says must be there. */
#ifndef CARTRIDGE_HOST_H
#define CARTRIDGE_HOST_H

#include <stdbool.h>
#include <stddef.h>
#include <stdint.h>

#ifdef __cplusplus
extern "C" {
#endif

/* Why a packet is no request. Where several of these are true, the lowest is told. */
enum cartridge_status {
    /* The packet is a request, or was written. */
    CARTRIDGE_SUCCESS = 0,
    /* The packet is empty, or ends before the last field that its map asks for is complete. */
    CARTRIDGE_SHORT = 1,
    /* Bytes are left behind the last field. Of the writer: the buffer has under 15 bytes. */
    CARTRIDGE_LONG = 2,
    /* There is no command, or it is none of 2 to 10. */
    CARTRIDGE_UNKNOWN_COMMAND = 3,
    /* A field is missing that the command needs, or is there and the command does not take it, or
       the option is not 1. The detail is the lowest bit, 0 to 7, of which this is true. */
    CARTRIDGE_WRONG_BIT = 4,
    /* The label has a character that is none of 0 to 9 and A to Z. The detail is the index, 0 to 5,
       of the first such character. */
    CARTRIDGE_WRONG_CHARACTER = 5,
    /* The drive state is neither 1 nor 2. */
    CARTRIDGE_WRONG_DRIVE_STATE = 6
};

/* What each bit of the map stands for. The fields follow the map in this order. */
enum cartridge_field {
    CARTRIDGE_NUMBER = 0x01,     /* two bytes, the high one first */
    CARTRIDGE_COMMAND = 0x02,    /* one byte */
    CARTRIDGE_OPTION = 0x04,     /* one byte; 1 is force */
    CARTRIDGE_LABEL = 0x08,      /* six characters */
    CARTRIDGE_PLACE = 0x10,      /* one byte */
    CARTRIDGE_TARGET = 0x20,     /* the number of another request, two bytes */
    CARTRIDGE_DRIVE_STATE = 0x40 /* one byte; 1 is online, 2 is offline */
};

/* The commands. Each needs a number and a command; what else, stands beside it. */
enum cartridge_command {
    CARTRIDGE_CANCEL = 2,   /* target */
    CARTRIDGE_DISMOUNT = 3, /* label and place; may have the option */
    CARTRIDGE_EJECT = 4,    /* label */
    CARTRIDGE_ENTER = 5,    /* nothing */
    CARTRIDGE_IDLE = 6,     /* nothing; may have the option */
    CARTRIDGE_MOUNT = 7,    /* label and place */
    CARTRIDGE_QUERY = 8,    /* nothing; may have the label */
    CARTRIDGE_START = 9,    /* nothing */
    CARTRIDGE_VARY = 10     /* place and drive state */
};

/* The least buffer that a request is written into, whatever its map. */
enum { CARTRIDGE_REQUEST_ROOM = 15 };

/* What the check tells. A value that is not there is 0. */
struct cartridge_checked {
    uint8_t status;   /* an enum cartridge_status */
    bool has_detail;  /* of status 4 and 5 */
    uint8_t detail;
    bool has_number;  /* whether the request number could be read */
    uint16_t number;
    bool has_command; /* whether the command could be read; it need not be a known one */
    uint8_t command;
};

/* Checks `length` bytes as a packet. Status 0 says that they are a request. */
struct cartridge_checked cartridge_check_packet(const uint8_t *packet, size_t length);

/* What the writer tells. */
struct cartridge_written {
    uint8_t status; /* an enum cartridge_status: 0, or 2 to 6 */
    size_t length;  /* of the packet; 0 where none was written */
};

/* Writes the map and the fields whose bits it has to the front of the buffer, and leaves the bytes
   behind them as they were. Values of other fields are ignored; the label is six bytes all the
   same. A buffer under 15 bytes is refused by 2, before all else; fields that are no request by 3
   to 6. Refused, it writes nothing. What it writes is a request to cartridge_check_packet. */
struct cartridge_written cartridge_write_request(uint8_t *buffer, size_t length, uint8_t map,
                                                 uint16_t number, uint8_t command, uint8_t option,
                                                 const uint8_t *label, uint8_t place,
                                                 uint16_t target, uint8_t drive_state);

#ifdef __cplusplus
}
#endif

#endif
