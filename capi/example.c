/* Sends a block of SCH/F on the uplink, damages the slot, reads it, and lets an auditor check what was read. */
#include "tetra.h"
#include <stdio.h>
#include <string.h>

/* Large and without needs of their own, so they need not be on the stack. */
static struct tetra_sender sender;
static struct tetra_receiver receiver, writer, auditor;
static struct tetra_reading reading;
static uint8_t record[TETRA_RECORD];

int main(void)
{
    struct tetra_settings settings = {{901, 1, 1}, TETRA_UPLINK, {TETRA_SIG, TETRA_SIG, TETRA_SIG, TETRA_SIG}, 0};
    struct tetra_blocks blocks = {'F', 0, 0, 0, {268, 0, 0}, {{0}}};
    int8_t slot[TETRA_SLOT];
    uint32_t bytes;
    struct tetra_audit audit;

    if (tetra_sender_init(&sender, &settings) != TETRA_OK || tetra_receiver_init(&receiver, &settings) != TETRA_OK)
        return 1;
    writer = auditor = receiver; /* a state is plain data */
    for (int k = 0; k < 268; k += 3)
        blocks.fields[0][k] = 1;

    if (tetra_sender_slot(&sender, &blocks, slot) != TETRA_OK)
        return 1;
    for (int k = 40; k < 240; k += 20) /* ten values of block 1 lean a little to the wrong side */
        slot[k] = (int8_t)(slot[k] < 0 ? 30 : -30);

    if (tetra_receiver_slot(&receiver, slot, &reading) != TETRA_OK)
        return 1;
    const struct tetra_field *field = &reading.fields[0];
    printf("read: letter %c, %s, metric %u, %s\n", reading.letter, field->mark == TETRA_GOOD ? "good" : "not good",
           (unsigned)field->metric, memcmp(field->message, blocks.fields[0], 268) == 0 ? "the block" : "another block");

    if (tetra_receiver_record(&writer, slot, 1, record, &bytes) != TETRA_OK
        || tetra_receiver_audit(&auditor, slot, record, bytes, &audit) != TETRA_OK)
        return 1;
    printf("audited: %u bytes, test %d\n", (unsigned)bytes, audit.test);

    blocks.fields[0][5] = 2;
    printf("a bit that is 2: answer %d\n", (int)tetra_sender_slot(&sender, &blocks, slot));
    return 0;
}
