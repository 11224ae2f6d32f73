/* tetra.h: the lower MAC of a TETRA radio, for C, C++ and whatever calls C.
 *
 * Between the blocks of the upper MAC and the 510 bits of a timeslot, both ways: a sender makes slots of blocks, a
 * receiver names for each block the message of least metric, with a certificate that anyone can check, and an audit
 * checks what another receiver claims. ETSI EN 300 392-2 clauses 8 and 9; docs/C.md has each call with an example,
 * docs/CODE.md the code, docs/CERTIFICATES.md what a certificate shows.
 *
 * WHAT A CALLER OWES. Nothing but this; every value that is passed is tested, and the library cannot be made to misbehave
 * by one.
 *
 *   - No pointer is null. (GCC and Clang warn where they see one.)
 *   - Each pointer is aligned as its type is, and what it points to is there: one struct; or as many values as the array
 *     in the declaration or the length beside it says. Of a length 0 the pointer is not null either.
 *   - What a call writes overlaps nothing else that is passed to it.
 *   - No other thread reads or writes, while a call runs, what the call writes, and none writes what it reads.
 *   - TETRA_STACK bytes of stack are left when a call is made.
 *
 * WHAT A CALLER GETS. Each call answers TETRA_OK, or one of the negative answers, and then it has written nothing at
 * all, to no struct and no array. No call takes memory, opens, prints or waits for anything, or keeps anything between
 * calls: a state is plain data of the caller, may be copied, stored and moved like any struct, and is tested at each
 * call. So every call is reentrant, and any thread may make it with structs of its own.
 *
 * A bit is a byte 0 or 1 (libosmocore's ubit_t). A soft value is a signed byte (libosmocore's sbit_t): above 0 it leans
 * to bit 0, below 0 to bit 1, the farther the surer, and 0 says nothing; -128 is read as -127. Structs have the layout
 * that C gives them, with the sizes that are asserted below; numbers in them have the byte order of the machine. */
#ifndef TETRA_H
#define TETRA_H

#include <stddef.h>
#include <stdint.h>

#ifdef __cplusplus
extern "C" {
#endif

#if defined(__GNUC__) || defined(__clang__)
#define TETRA_NOT_NULL __attribute__((nonnull))
#else
#define TETRA_NOT_NULL
#endif

/* What a call answers. Each call below says which of them it gives, in the order in which it tests. */
enum tetra_answer {
    TETRA_OK = 0,
    TETRA_LENGTH = -1, /* a list is longer or shorter than it may be */
    TETRA_BIT = -2,    /* a byte that stands for a bit is neither 0 nor 1 */
    TETRA_COLOUR = -3, /* a country, network or colour code is out of its range */
    TETRA_MODE = -4,   /* the direction is none, or a timeslot has a mode that is none, or TETRA_CB on the downlink */
    TETRA_PLACE = -5,  /* the place of slot 0 is not below 4,320 */
    TETRA_TURN = -6,   /* there were TETRA_TURNS slots */
    TETRA_KEPT = -7,   /* what is kept of a timeslot is not what its mode keeps */
    TETRA_MISFIT = -8, /* the slot may not carry these blocks */
    TETRA_FIELD = -9   /* there is no such field, or none that has a certificate */
};

enum tetra_direction { TETRA_DOWNLINK = 0, TETRA_UPLINK = 1 };

/* What a timeslot carries. */
enum tetra_mode {
    TETRA_SIG = 0,    /* signalling */
    TETRA_CB = 1,     /* control bursts, on the uplink alone */
    TETRA_D72 = 2,    /* unprotected data, TCH/7.2 */
    TETRA_D48N1 = 3,  /* protected data, TCH/4.8, over 1, 4 or 8 slots */
    TETRA_D48N4 = 4,
    TETRA_D48N8 = 5,
    TETRA_D24N1 = 6,  /* protected data, TCH/2.4, over 1, 4 or 8 slots */
    TETRA_D24N4 = 7,
    TETRA_D24N8 = 8,
    TETRA_SPEECH = 9  /* speech */
};

/* What a field is; the names are those of docs/FORMATS.md. */
enum tetra_field_name {
    TETRA_FIELD_AACH = 0,   /* access field, 14 bits, no certificate */
    TETRA_FIELD_SYNC = 1,   /* BSCH, 60 bits and 16 of parity */
    TETRA_FIELD_HALF = 2,   /* half a slot, SCH/HD, BNCH or STCH: 124 bits and 16 of parity */
    TETRA_FIELD_HU = 3,     /* SCH/HU, 92 bits and 16 of parity */
    TETRA_FIELD_FULL = 4,   /* SCH/F, 268 bits and 16 of parity */
    TETRA_FIELD_D72 = 5,    /* TCH/7.2, 432 bits, no certificate */
    TETRA_FIELD_D48 = 6,    /* TCH/4.8, 288 bits */
    TETRA_FIELD_D24 = 7,    /* TCH/2.4, 144 bits */
    TETRA_FIELD_WHOLE = 8,  /* speech in a whole slot: frames A and B, 137 bits each, and 8 of parity */
    TETRA_FIELD_SINGLE = 9  /* speech in half a slot: a frame, 137 bits, and 4 of parity */
};

enum tetra_mark {
    TETRA_GOOD = 0,      /* the parity of the message holds */
    TETRA_BAD = 1,       /* it does not hold; the message is the one of least metric all the same */
    TETRA_UNCHECKED = 2, /* the channel has no parity */
    TETRA_NOT_YET = 3    /* not all slots of the block have come: metric 0, all bits 0, no certificate */
};

/* The rules of a certificate (docs/CERTIFICATES.md): TETRA_ACCEPTED, or the first that does not hold. */
enum tetra_rule {
    TETRA_ACCEPTED = 0,
    TETRA_RULE_END = 1,
    TETRA_RULE_EDGE0 = 2,
    TETRA_RULE_EDGE1 = 3,
    TETRA_RULE_PATH = 4,
    TETRA_RULE_TIE = 5
};

/* What an audit finds: TETRA_AGREES, or the first test that fails. */
enum tetra_test {
    TETRA_AGREES = 0,
    TETRA_TEST_LETTER = 1,      /* the letter is not the one of the slot */
    TETRA_TEST_PAD = 2,         /* a pad bit of the field is 1 */
    TETRA_TEST_BITS = 3,        /* a bit that comes by no trellis is another */
    TETRA_TEST_CERTIFICATE = 4, /* a rule of the certificate does not hold */
    TETRA_TEST_METRIC = 5,      /* the metric is another */
    TETRA_TEST_MARK = 6         /* the mark is another */
};

#define TETRA_SLOT 510       /* values of a slot */
#define TETRA_BITS 432       /* the most bits of a block or a message */
#define TETRA_ROWS 293       /* the most rows of a certificate */
#define TETRA_RECORD 18743   /* the most bytes of a reading record with certificates */
#define TETRA_TURNS 16777216 /* slots that one sender or receiver may have */
#define TETRA_STACK 131072   /* bytes of stack that a call may want */

/* The colour of a cell, which makes the key of every channel but BSCH. */
struct tetra_colour {
    uint16_t mcc; /* mobile country code, 0 to 1023 */
    uint16_t mnc; /* mobile network code, 0 to 16383 */
    uint8_t cc;   /* colour code, 0 to 63 */
};

struct tetra_settings {
    struct tetra_colour colour;
    uint8_t direction; /* enum tetra_direction */
    uint8_t modes[4];  /* enum tetra_mode, of timeslots 1 to 4 */
    uint16_t at;       /* the place of slot 0 in the cycle of 4,320 slots, 0 to 4319; timeslot 1 + at % 4 */
};

/* What is kept of a timeslot: of protected data over N slots the last N blocks or slot words, or fewer at the beginning, in
 * a ring whose oldest entry stands at `oldest`; else nothing. It is the library's; a caller only stores it. */
struct tetra_kept_block { uint8_t bits[TETRA_BITS]; };
struct tetra_kept_blocks { uint8_t count, oldest; struct tetra_kept_block blocks[8]; };
struct tetra_kept_word { int8_t values[TETRA_BITS]; };
struct tetra_kept_words { uint8_t count, oldest; struct tetra_kept_word words[8]; };

/* A row of a certificate: the potentials of states 0 to 15. */
struct tetra_row { uint32_t states[16]; };

/* What is read of a field. Bytes of `message` behind `bits` and rows of `potentials` behind `rows` say nothing. */
struct tetra_field {
    uint32_t metric;                          /* that of the message; of speech that of its coded part */
    uint8_t name;                             /* enum tetra_field_name */
    uint8_t mark;                             /* enum tetra_mark */
    uint16_t bits;                            /* the length of the message, parity included */
    uint16_t rows;                            /* the rows of the certificate; 0 where there is none */
    uint8_t message[TETRA_BITS];              /* its bits */
    struct tetra_row potentials[TETRA_ROWS];  /* the certificate */
};

/* A sender and a receiver: their settings, the number of the slot whose turn it is, and what is kept of timeslots 1 to 4.
 * In `work` tetra_receiver_record reads the fields of a record; it need not be set, and nothing that stands in it is looked at. */
struct tetra_sender {
    struct tetra_settings settings;
    uint32_t turn;
    struct tetra_kept_blocks lanes[4];
};
struct tetra_receiver {
    struct tetra_settings settings;
    uint32_t turn;
    struct tetra_kept_words lanes[4];
    struct tetra_field work;
};

/* The blocks of a slot. Which letters a slot may carry, and the bits of each field:
 *
 *   letter  where                           fields
 *   'F'     signalling, both directions     SCH/F 268
 *   'H'     signalling, downlink            half 124, half 124
 *   'S'     signalling, downlink            BSCH 60, half 124
 *   'T'     traffic                         load
 *   'P'     traffic, first half stolen      STCH 124, load
 *   'Q'     traffic, both halves stolen     STCH 124, STCH 124, load; of speech without a load
 *   'C'     control bursts                  SCH/HU 92 of each subslot that is sent
 *
 * The load has 432, 288 or 144 bits of data at 7.2, 4.8 or 2.4 kbit/s; of speech 'T' has two frames, 274 bits, and 'P' has
 * one, 137. Traffic timeslots carry signalling in frame 18. A field that is not there has the length 0, and bytes of
 * `fields` behind the length are not looked at. Of 'C' field 0 is that of the first subslot, field 1 that of the second. */
struct tetra_blocks {
    uint8_t letter;                /* as above */
    uint16_t aach;                 /* the message of the access field, below 16384, its first bit highest; 0 on the uplink */
    uint8_t sends_first;           /* 1 where the first subslot of 'C' is sent, else 0; of other letters 0 or 1 */
    uint8_t sends_second;          /* likewise of the second subslot */
    uint16_t bits[3];              /* the lengths of the fields */
    uint8_t fields[3][TETRA_BITS]; /* their bits */
};

/* What is read of a slot. On the downlink the access field is first; of 'P', which is read where 'P' or 'Q' was sent, both
 * halves come before the load. */
struct tetra_reading {
    uint8_t letter;               /* 'F', 'H', 'S', 'T', 'P' or 'C' */
    uint8_t count;                /* fields that were read, 1 to 4 */
    struct tetra_field fields[4]; /* fields behind `count` say nothing */
};

/* What the rules say of a certificate: step and state are where the first one does not hold, 0 where all hold. */
struct tetra_verdict {
    uint16_t step;
    uint8_t state;
    uint8_t rule; /* enum tetra_rule */
};

/* What an audit says of a record. */
struct tetra_audit {
    uint8_t test;                     /* enum tetra_test */
    uint8_t field;                    /* the number of the field that fails, from 0; 0 where none does */
    struct tetra_verdict certificate; /* of TETRA_TEST_CERTIFICATE; else all 0 */
};

#if defined(__cplusplus) && __cplusplus >= 201103L
#define TETRA_SIZE(name, size) static_assert(sizeof(struct name) == (size), "the size of struct " #name)
#elif defined(__STDC_VERSION__) && __STDC_VERSION__ >= 201112L
#define TETRA_SIZE(name, size) _Static_assert(sizeof(struct name) == (size), "the size of struct " #name)
#else
#define TETRA_SIZE(name, size) typedef char name##_has_this_size[sizeof(struct name) == (size) ? 1 : -1]
#endif
TETRA_SIZE(tetra_colour, 6);
TETRA_SIZE(tetra_settings, 14);
TETRA_SIZE(tetra_kept_block, 432);
TETRA_SIZE(tetra_kept_blocks, 3458);
TETRA_SIZE(tetra_kept_word, 432);
TETRA_SIZE(tetra_kept_words, 3458);
TETRA_SIZE(tetra_sender, 13852);
TETRA_SIZE(tetra_receiver, 33048);
TETRA_SIZE(tetra_blocks, 1308);
TETRA_SIZE(tetra_row, 64);
TETRA_SIZE(tetra_field, 19196);
TETRA_SIZE(tetra_reading, 76788);
TETRA_SIZE(tetra_verdict, 4);
TETRA_SIZE(tetra_audit, 6);

/* Begins a sender: its turn is 0, and nothing is kept.
 *
 *   TETRA_COLOUR  the colour is out of its range
 *   TETRA_MODE    a direction or a mode is none, or the direction does not have the mode
 *   TETRA_PLACE   `at` is not below 4,320 */
int32_t tetra_sender_init(struct tetra_sender *sender, const struct tetra_settings *settings) TETRA_NOT_NULL;

/* Writes the slot whose turn it is, with these blocks: 127 for a bit 0, -127 for a bit 1, 0 where nothing is sent. Then it
 * is the turn of the next slot.
 *
 *   TETRA_LENGTH  a length in `bits` is above 432
 *   TETRA_BIT     a bit of a field, or `sends_first` or `sends_second`, is neither 0 nor 1
 *   TETRA_COLOUR, TETRA_MODE, TETRA_PLACE   the sender's settings, as in tetra_sender_init
 *   TETRA_TURN    the sender has written TETRA_TURNS slots
 *   TETRA_KEPT    of a timeslot of protected data over N slots `oldest` is not below N, or `count` is above N, or it is below
 *                 N and `oldest` is not 0
 *   TETRA_MISFIT  the letter is none, or the slot may not carry it, or not with these lengths and this access message */
int32_t tetra_sender_slot(struct tetra_sender *sender, const struct tetra_blocks *blocks,
                          int8_t slot[TETRA_SLOT]) TETRA_NOT_NULL;

/* Begins a receiver: its turn is 0, and nothing is kept. It answers as tetra_sender_init does. */
int32_t tetra_receiver_init(struct tetra_receiver *receiver, const struct tetra_settings *settings) TETRA_NOT_NULL;

/* Reads the slot whose turn it is: its letter, and of each field the message of least metric, the first in bit order among
 * those of the same metric, with its mark and its certificate. Then it is the turn of the next slot.
 *
 *   TETRA_COLOUR, TETRA_MODE, TETRA_PLACE   the receiver's settings, as in tetra_sender_init
 *   TETRA_TURN    the receiver has read TETRA_TURNS slots
 *   TETRA_KEPT    what is kept of a timeslot, as in tetra_sender_slot */
int32_t tetra_receiver_slot(struct tetra_receiver *receiver, const int8_t slot[TETRA_SLOT],
                            struct tetra_reading *reading) TETRA_NOT_NULL;

/* Reads the slot whose turn it is, and writes its reading record, to the byte that of the program (docs/FORMATS.md):
 * `written` bytes of `bytes`, with certificates where `certificates` is not 0. Bytes behind them say nothing. Then it is the
 * turn of the next slot. It answers as tetra_receiver_slot does. */
int32_t tetra_receiver_record(struct tetra_receiver *receiver, const int8_t slot[TETRA_SLOT], uint8_t certificates,
                              uint8_t bytes[TETRA_RECORD], uint32_t *written) TETRA_NOT_NULL;

/* Audits a reading record with certificates, whoever wrote it, that claims to be about the slot whose turn it is. The
 * verdict is the first test that fails, of the letter and then of each field. Then it is the turn of the next slot.
 *
 *   TETRA_COLOUR, TETRA_MODE, TETRA_PLACE, TETRA_TURN, TETRA_KEPT   as in tetra_receiver_slot
 *   TETRA_LENGTH  the record does not have the length that a record of this slot has; the slot alone decides it */
int32_t tetra_receiver_audit(struct tetra_receiver *receiver, const int8_t slot[TETRA_SLOT], const uint8_t *claim,
                             size_t bytes, struct tetra_audit *verdict) TETRA_NOT_NULL;

/* Checks a certificate by itself, whoever made it. TETRA_ACCEPTED shows that the message is the one of least metric over
 * these values among all messages of the channel, the first in bit order among those of the same metric, and that
 * potentials[0].states[0] is its metric. Values are in type-3 order (docs/FORMATS.md). Of speech it is about the coded part.
 *
 *   channel             values  bits  rows
 *   TETRA_FIELD_SYNC       120    76    81
 *   TETRA_FIELD_HALF       216   140   145
 *   TETRA_FIELD_HU         168   108   113
 *   TETRA_FIELD_FULL       432   284   289
 *   TETRA_FIELD_D48        432   288   293
 *   TETRA_FIELD_D24        432   144   149
 *   TETRA_FIELD_WHOLE      330   180   185
 *   TETRA_FIELD_SINGLE     165    90    95
 *
 *   TETRA_FIELD   `channel` is none of these
 *   TETRA_LENGTH  the numbers of values, bits and rows are not those of the channel
 *   TETRA_BIT     a byte of the message is neither 0 nor 1 */
int32_t tetra_check(uint8_t channel, const int8_t *soft, size_t values, const uint8_t *message, size_t bits,
                    const struct tetra_row *potentials, size_t rows, struct tetra_verdict *verdict) TETRA_NOT_NULL;

#ifdef __cplusplus
}
#endif

#endif
