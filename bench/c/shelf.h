/* The types of the charger and selector by hand: a setup, a machine, its events and its answers. */
#ifndef SHELF_H
#define SHELF_H

#include <stdbool.h>
#include <stdint.h>

enum { BAYS = 4, OLDEST = 175 };

/* The largest value of a request, and the value that a request of 65535 gives. */
struct limit {
    uint16_t largest;
    uint16_t safe;
};

struct output {
    uint16_t milliamps;
    uint16_t millivolts;
};

struct setup {
    uint16_t supported; /* the bays as a nibble */
    struct limit current;
    struct limit voltage;
    uint16_t low;
    uint16_t restart;
    struct output wake; /* for a pack that has not asked yet; 0 mA switches it off */
};

struct bay {
    bool present;
    bool ok;
    bool low;
    bool was_read; /* the safety signal, since the pack was put in */
    uint32_t ohms;
};

struct request {
    uint16_t word;
    uint8_t age;
    bool mark; /* written since the latest alarm */
};

/* A nibble is 0 or the bit of one bay. AC and the notice fill the gap before the bays. */
struct machine {
    struct setup setup;
    bool ac;
    bool notice;
    struct bay bays[BAYS];
    struct request current;
    struct request voltage;
    uint8_t smb;
    uint8_t power;
    uint8_t charge;
    uint8_t next;
    uint8_t wake_age; /* ticks since the latest fresh start or, if later, AC arrival */
    bool spent;       /* wake-up, by a request or a zeroing since the latest fresh start */
    bool hold;
    bool inhibit;
};

/* The kinds have the log's numbers. */
enum kind { HOST_WRITE = 1, HOST_READ, BAY_WORD, INSERTION, REMOVAL, OHMS, TERMINAL, AC, TICK };

struct event {
    enum kind kind;
    uint8_t place;  /* the bay, or the address of a host word */
    uint8_t code;
    uint32_t value; /* the word, ohms, millivolts, or whether AC is present */
};

enum refusal {
    NONE,
    BAD_SETUP,
    UNSUPPORTED_BAY,
    NO_SUCH_WORD,
    NOT_CHARGING_BAY,
    BAD_NIBBLE,
    SMB_ELSEWHERE,
    NOT_USABLE,
    SAME_BAY,
    WRONG_PRESENCE,
    RECORD_CUT_OFF,
    BAD_LENGTH,
    UNKNOWN_KIND,
    BAD_AC_BYTE,
    NO_ROOM,
    BAD_MACHINE
};

/* Done, a word that was read, or a refusal. */
struct answer {
    enum { DONE, WORD, REFUSED } kind;
    uint16_t word;
    uint8_t refusal;
};

#endif
