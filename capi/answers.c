/* Draws forth each negative answer of each call, and looks that nothing was written: all that could be lies in one struct,
 * which is compared before and after. What is called afterwards goes on as if nothing had been. */
#include "tetra.h"
#include <stdio.h>
#include <string.h>

/* All that a call may write, and what it is given. */
static struct everything {
    struct tetra_settings settings;
    struct tetra_sender sender;
    struct tetra_blocks blocks;
    struct tetra_receiver receiver;
    struct tetra_reading reading;
    struct tetra_audit audit;
    struct tetra_verdict verdict;
    struct tetra_row potentials[TETRA_ROWS];
    uint32_t written;
    int8_t slot[TETRA_SLOT], soft[TETRA_BITS];
    uint8_t record[TETRA_RECORD], message[TETRA_BITS];
} now, before, good;

static unsigned refused, failed;

/* Compares the answer and what stands after it with what has to be, and puts all back that was good. */
static void compare(int32_t answer, int32_t wanted, const char *call, int line)
{
    int is_same = memcmp(&now, &before, sizeof now) == 0;
    if (answer == wanted && is_same)
        refused++;
    else {
        failed++;
        fprintf(stderr, "line %d: %s answers %d in place of %d%s\n", line, call, (int)answer, (int)wanted,
                is_same ? "" : ", and something was written");
    }
    memcpy(&now, &good, sizeof now);
}

/* Makes a change, and wants a negative answer of a call. */
#define REFUSED(wanted, change, call) \
    do { \
        change; \
        memcpy(&before, &now, sizeof now); \
        compare((call), (wanted), #call " after " #change, __LINE__); \
    } while (0)

#define DONE(call) \
    do { \
        if ((call) != TETRA_OK) { \
            failed++; \
            fprintf(stderr, "line %d: %s does not answer 0\n", __LINE__, #call); \
        } \
    } while (0)

#define SENDER_INIT tetra_sender_init(&now.sender, &now.settings)
#define SENDER_SLOT tetra_sender_slot(&now.sender, &now.blocks, now.slot)
#define RECEIVER_INIT tetra_receiver_init(&now.receiver, &now.settings)
#define RECEIVER_SLOT tetra_receiver_slot(&now.receiver, now.slot, &now.reading)
#define RECEIVER_RECORD tetra_receiver_record(&now.receiver, now.slot, 1, now.record, &now.written)
#define RECEIVER_AUDIT tetra_receiver_audit(&now.receiver, now.slot, now.record, now.written, &now.audit)
#define CHECK(channel, values, bits, rows) \
    tetra_check(channel, now.soft, values, now.message, bits, now.potentials, rows, &now.verdict)

/* Begins anew under these settings; timeslot 1 has slot 0. */
static void begin(uint8_t direction, uint8_t mode)
{
    memset(&now, 0xA5, sizeof now);
    now.settings.colour.mcc = 1023;
    now.settings.colour.mnc = 16383;
    now.settings.colour.cc = 63;
    now.settings.direction = direction;
    memset(now.settings.modes, mode, 4);
    now.settings.at = 0;
    DONE(SENDER_INIT);
    DONE(RECEIVER_INIT);
}

/* Blocks of a letter with fields of these lengths, all their bits 1. */
static void make_blocks(char letter, uint16_t first, uint16_t second, uint16_t third)
{
    memset(&now.blocks, 0, sizeof now.blocks);
    now.blocks.letter = (uint8_t)letter;
    now.blocks.bits[0] = first;
    now.blocks.bits[1] = second;
    now.blocks.bits[2] = third;
    for (int field = 0; field < 3; field++)
        memset(now.blocks.fields[field], 1, now.blocks.bits[field]);
}

/* Each setting that is out of its range, by the call that begins. */
#define SETTINGS(CALL, PLACE) \
    do { \
        REFUSED(TETRA_COLOUR, PLACE.colour.mcc = 1024, CALL); \
        REFUSED(TETRA_COLOUR, PLACE.colour.mnc = 16384, CALL); \
        REFUSED(TETRA_COLOUR, PLACE.colour.cc = 64, CALL); \
        REFUSED(TETRA_MODE, PLACE.direction = 2, CALL); \
        REFUSED(TETRA_MODE, PLACE.modes[0] = 10, CALL); \
        REFUSED(TETRA_MODE, PLACE.modes[3] = 255, CALL); \
        REFUSED(TETRA_MODE, PLACE.direction = TETRA_DOWNLINK; PLACE.modes[2] = TETRA_CB, CALL); \
        REFUSED(TETRA_PLACE, PLACE.at = 4320, CALL); \
        REFUSED(TETRA_PLACE, PLACE.at = 65535, CALL); \
        REFUSED(TETRA_MODE, PLACE.at = 4320; PLACE.direction = 255, CALL); \
        REFUSED(TETRA_COLOUR, memset(&PLACE, 255, sizeof PLACE), CALL); \
    } while (0)

/* Each state that cannot be. Its modes are those of data over 8 slots. */
#define STATES(CALL, STATE) \
    do { \
        SETTINGS(CALL, STATE.settings); \
        REFUSED(TETRA_TURN, STATE.turn = TETRA_TURNS, CALL); \
        REFUSED(TETRA_TURN, STATE.turn = 0xFFFFFFFF, CALL); \
        REFUSED(TETRA_KEPT, STATE.lanes[0].count = 9, CALL); \
        REFUSED(TETRA_KEPT, STATE.lanes[1].count = 255, CALL); \
        REFUSED(TETRA_KEPT, STATE.lanes[2].count = 8; STATE.lanes[2].oldest = 8, CALL); \
        REFUSED(TETRA_KEPT, STATE.lanes[3].count = 3; STATE.lanes[3].oldest = 1, CALL); \
        REFUSED(TETRA_KEPT, STATE.settings.modes[1] = TETRA_D24N4; STATE.lanes[1].count = 5, CALL); \
        REFUSED(TETRA_TURN, STATE.turn = TETRA_TURNS; STATE.lanes[0].count = 9, CALL); \
        REFUSED(TETRA_PLACE, STATE.turn = TETRA_TURNS; STATE.settings.at = 4320, CALL); \
    } while (0)

static void begins(void)
{
    begin(TETRA_UPLINK, TETRA_SIG);
    memcpy(&good, &now, sizeof now);
    SETTINGS(SENDER_INIT, now.settings);
    SETTINGS(RECEIVER_INIT, now.settings);
}

static void sends_states(void)
{
    begin(TETRA_UPLINK, TETRA_D48N8);
    make_blocks('T', 288, 0, 0);
    memcpy(&good, &now, sizeof now);
    STATES(SENDER_SLOT, now.sender);
    DONE(SENDER_SLOT);
}

/* Lengths and bits, which are looked at before the state, and the state before what fits. */
static void sends_fields(void)
{
    begin(TETRA_UPLINK, TETRA_SIG);
    make_blocks('F', 268, 0, 0);
    memcpy(&good, &now, sizeof now);
    REFUSED(TETRA_LENGTH, now.blocks.bits[0] = 433, SENDER_SLOT);
    REFUSED(TETRA_LENGTH, now.blocks.bits[2] = 65535, SENDER_SLOT);
    REFUSED(TETRA_BIT, now.blocks.fields[0][0] = 2, SENDER_SLOT);
    REFUSED(TETRA_BIT, now.blocks.fields[0][267] = 255, SENDER_SLOT);
    REFUSED(TETRA_BIT, now.blocks.sends_first = 2, SENDER_SLOT);
    REFUSED(TETRA_BIT, now.blocks.sends_second = 255, SENDER_SLOT);
    REFUSED(TETRA_LENGTH, now.blocks.bits[1] = 433; now.blocks.fields[0][0] = 2, SENDER_SLOT);
    REFUSED(TETRA_BIT, now.blocks.fields[0][0] = 2; now.sender.settings.colour.cc = 64, SENDER_SLOT);
    REFUSED(TETRA_TURN, now.sender.turn = TETRA_TURNS; now.blocks.letter = 'T', SENDER_SLOT);
    now.blocks.fields[0][268] = 2; /* behind the length */
    DONE(SENDER_SLOT);
}

static void sends_misfits(void)
{
    begin(TETRA_UPLINK, TETRA_SIG);
    make_blocks('F', 268, 0, 0);
    memcpy(&good, &now, sizeof now);
    REFUSED(TETRA_MISFIT, now.blocks.letter = 0, SENDER_SLOT);
    REFUSED(TETRA_MISFIT, now.blocks.letter = 'f', SENDER_SLOT);
    REFUSED(TETRA_MISFIT, now.blocks.bits[0] = 267, SENDER_SLOT);
    REFUSED(TETRA_MISFIT, now.blocks.bits[2] = 1; now.blocks.fields[2][0] = 0, SENDER_SLOT);
    REFUSED(TETRA_MISFIT, now.blocks.aach = 1, SENDER_SLOT);
    REFUSED(TETRA_MISFIT, make_blocks('H', 124, 124, 0), SENDER_SLOT);
    REFUSED(TETRA_MISFIT, make_blocks('S', 60, 124, 0), SENDER_SLOT);
    REFUSED(TETRA_MISFIT, make_blocks('T', 432, 0, 0), SENDER_SLOT);
    REFUSED(TETRA_MISFIT, make_blocks('C', 0, 0, 0), SENDER_SLOT);
    begin(TETRA_DOWNLINK, TETRA_SPEECH);
    make_blocks('T', 274, 0, 0);
    memcpy(&good, &now, sizeof now);
    REFUSED(TETRA_MISFIT, now.blocks.aach = 16384, SENDER_SLOT);
    REFUSED(TETRA_MISFIT, make_blocks('F', 268, 0, 0), SENDER_SLOT);
    REFUSED(TETRA_MISFIT, make_blocks('P', 124, 138, 0), SENDER_SLOT);
    REFUSED(TETRA_MISFIT, make_blocks('Q', 124, 124, 137), SENDER_SLOT);
    DONE(SENDER_SLOT);
    begin(TETRA_UPLINK, TETRA_CB);
    make_blocks('C', 92, 92, 0);
    memcpy(&good, &now, sizeof now);
    REFUSED(TETRA_MISFIT, now.blocks.sends_first = 1, SENDER_SLOT);
    now.blocks.sends_first = now.blocks.sends_second = 1;
    DONE(SENDER_SLOT);
}

static void receives(void)
{
    begin(TETRA_UPLINK, TETRA_D48N8);
    memcpy(&good, &now, sizeof now);
    STATES(RECEIVER_SLOT, now.receiver);
    STATES(RECEIVER_RECORD, now.receiver);
    now.written = 1;
    memcpy(&good, &now, sizeof now);
    STATES(RECEIVER_AUDIT, now.receiver);
    DONE(RECEIVER_SLOT);
    DONE(RECEIVER_RECORD);
}

static void audits(void)
{
    struct tetra_receiver fresh;
    begin(TETRA_UPLINK, TETRA_SIG);
    fresh = now.receiver;
    DONE(RECEIVER_RECORD);
    now.receiver = fresh;
    memcpy(&good, &now, sizeof now);
    REFUSED(TETRA_LENGTH, now.written--, RECEIVER_AUDIT);
    REFUSED(TETRA_LENGTH, now.written++, RECEIVER_AUDIT);
    REFUSED(TETRA_LENGTH, now.written = 0, RECEIVER_AUDIT);
    REFUSED(TETRA_TURN, now.written = 0; now.receiver.turn = TETRA_TURNS, RECEIVER_AUDIT);
    DONE(RECEIVER_AUDIT);
    if (now.audit.test != TETRA_AGREES)
        failed++;
}

/* The numbers of values, bits and rows of each channel that has a certificate. */
static const struct { uint8_t channel; unsigned values, bits, rows; } channels[] = {
    {TETRA_FIELD_SYNC, 120, 76, 81},    {TETRA_FIELD_HALF, 216, 140, 145},
    {TETRA_FIELD_HU, 168, 108, 113},    {TETRA_FIELD_FULL, 432, 284, 289},
    {TETRA_FIELD_D48, 432, 288, 293},   {TETRA_FIELD_D24, 432, 144, 149},
    {TETRA_FIELD_WHOLE, 330, 180, 185}, {TETRA_FIELD_SINGLE, 165, 90, 95},
};

/* Values that say nothing: a message of zeros is the first-least one, and a table of zeros shows it. */
static void checks(void)
{
    begin(TETRA_UPLINK, TETRA_SIG);
    memset(now.soft, 0, sizeof now.soft);
    memset(now.message, 0, sizeof now.message);
    memset(now.potentials, 0, sizeof now.potentials);
    memcpy(&good, &now, sizeof now);
    REFUSED(TETRA_FIELD, , CHECK(TETRA_FIELD_AACH, 30, 14, 1));
    REFUSED(TETRA_FIELD, , CHECK(TETRA_FIELD_D72, 432, 432, 1));
    REFUSED(TETRA_FIELD, , CHECK(10, 432, 284, 289));
    REFUSED(TETRA_FIELD, now.message[0] = 2, CHECK(255, 0, 1, 0));
    for (unsigned k = 0; k < sizeof channels / sizeof channels[0]; k++) {
        uint8_t channel = channels[k].channel;
        unsigned values = channels[k].values, bits = channels[k].bits, rows = channels[k].rows;
        REFUSED(TETRA_LENGTH, , CHECK(channel, values - 1, bits, rows));
        REFUSED(TETRA_LENGTH, , CHECK(channel, values, bits + 1, rows));
        REFUSED(TETRA_LENGTH, , CHECK(channel, values, bits, rows - 1));
        REFUSED(TETRA_LENGTH, , CHECK(channel, 0, 0, 0));
        REFUSED(TETRA_LENGTH, now.message[0] = 2, CHECK(channel, values, bits - 1, rows));
        REFUSED(TETRA_BIT, now.message[bits - 1] = 2, CHECK(channel, values, bits, rows));
        DONE(CHECK(channel, values, bits, rows));
        if (now.verdict.rule != TETRA_ACCEPTED || now.verdict.step != 0 || now.verdict.state != 0)
            failed++;
        now.message[bits - 1] = 1; /* another message of the same metric, which does not stand first */
        DONE(CHECK(channel, values, bits, rows));
        if (now.verdict.rule != TETRA_RULE_TIE || now.verdict.step != bits - 1)
            failed++;
        memcpy(&now, &good, sizeof now);
    }
}

/* -128 is read as -127, in a slot, in what is kept, and by the checker. */
static void least_values(void)
{
    static struct tetra_reading at_127;
    begin(TETRA_UPLINK, TETRA_D48N8);
    for (int turn = 0; turn < 40; turn++) {
        now.receiver.turn = 0;
        memset(now.slot, turn % 2 ? -127 : 127, sizeof now.slot);
        DONE(RECEIVER_SLOT);
    }
    good = now;
    now.receiver.turn = 0;
    memset(now.slot, -127, sizeof now.slot);
    DONE(RECEIVER_SLOT);
    memcpy(&at_127, &now.reading, sizeof at_127);
    memcpy(&now, &good, sizeof now);
    now.receiver.turn = 0;
    for (int word = 0; word < 8; word++)
        for (int k = 0; k < TETRA_BITS; k++)
            if (now.receiver.lanes[0].words[word].values[k] == -127)
                now.receiver.lanes[0].words[word].values[k] = -128;
    memset(now.slot, -128, sizeof now.slot);
    DONE(RECEIVER_SLOT);
    if (memcmp(&at_127, &now.reading, sizeof at_127) != 0) {
        failed++;
        fprintf(stderr, "-128 is not read as -127\n");
    }
}

int main(void)
{
    begins();
    sends_states();
    sends_fields();
    sends_misfits();
    receives();
    audits();
    checks();
    least_values();
    printf("%u calls refused as they should be, %u failed\n", refused, failed);
    return failed != 0;
}
