/* A file of cases, as capi/cases.py writes it: rows of slots that have settings in common, each slot with what the program
 * says of it. Numbers in it are big-endian. */
#ifndef CASES_H
#define CASES_H

#include "tetra.h"
#include <stdio.h>
#include <stdlib.h>
#include <string.h>

/* A certificate and what the rules say of it. */
struct check_case {
    uint8_t channel;
    uint16_t values, bits, rows;
    const int8_t *soft;
    const uint8_t *message;
    struct tetra_row potentials[TETRA_ROWS];
    struct tetra_verdict verdict;
};

/* A slot: its blocks, the slot that they make, what is received of it, the reading record without and with certificates,
 * and a byte of the second that is changed, with what the audit says of it then. */
struct slot_case {
    struct tetra_blocks blocks;
    const int8_t *sent, *received;
    const uint8_t *plain, *record;
    uint16_t plain_bytes, record_bytes, changed;
    uint8_t byte;
    struct tetra_audit audit;
    unsigned checks;
};

static const uint8_t *cases_next;

static uint32_t cases_number(int bytes)
{
    uint32_t number = 0;
    while (bytes-- > 0)
        number = number << 8 | *cases_next++;
    return number;
}

static const uint8_t *cases_bytes(size_t count)
{
    const uint8_t *front = cases_next;
    cases_next += count;
    return front;
}

/* Reads a whole file, and answers the number of its rows. */
static unsigned cases_open(const char *name)
{
    FILE *file = fopen(name, "rb");
    long size;
    uint8_t *data;
    if (file == NULL || fseek(file, 0, SEEK_END) != 0 || (size = ftell(file)) < 2 || fseek(file, 0, SEEK_SET) != 0
        || (data = malloc((size_t)size)) == NULL || fread(data, 1, (size_t)size, file) != (size_t)size) {
        fprintf(stderr, "%s: not read\n", name);
        exit(2);
    }
    fclose(file);
    cases_next = data;
    return cases_number(2);
}

/* Reads the settings of the next row, and answers the number of its slots. */
static unsigned cases_row(struct tetra_settings *settings)
{
    memset(settings, 0xA5, sizeof *settings);
    settings->colour.mcc = (uint16_t)cases_number(2);
    settings->colour.mnc = (uint16_t)cases_number(2);
    settings->colour.cc = (uint8_t)cases_number(1);
    settings->direction = (uint8_t)cases_number(1);
    memcpy(settings->modes, cases_bytes(4), 4);
    settings->at = (uint16_t)cases_number(2);
    return cases_number(2);
}

static void cases_verdict(struct tetra_verdict *verdict)
{
    verdict->step = (uint16_t)cases_number(2);
    verdict->state = (uint8_t)cases_number(1);
    verdict->rule = (uint8_t)cases_number(1);
}

/* Reads the next slot, but for its checks. What stands behind the bits of a field is no bit. */
static void cases_slot(struct slot_case *next)
{
    memset(&next->blocks, 0xA5, sizeof next->blocks);
    next->blocks.letter = (uint8_t)cases_number(1);
    next->blocks.aach = (uint16_t)cases_number(2);
    next->blocks.sends_first = (uint8_t)cases_number(1);
    next->blocks.sends_second = (uint8_t)cases_number(1);
    for (int field = 0; field < 3; field++) {
        next->blocks.bits[field] = (uint16_t)cases_number(2);
        memcpy(next->blocks.fields[field], cases_bytes(next->blocks.bits[field]), next->blocks.bits[field]);
    }
    next->sent = (const int8_t *)cases_bytes(TETRA_SLOT);
    next->received = (const int8_t *)cases_bytes(TETRA_SLOT);
    next->plain_bytes = (uint16_t)cases_number(2);
    next->plain = cases_bytes(next->plain_bytes);
    next->record_bytes = (uint16_t)cases_number(2);
    next->record = cases_bytes(next->record_bytes);
    next->changed = (uint16_t)cases_number(2);
    next->byte = (uint8_t)cases_number(1);
    next->audit.test = (uint8_t)cases_number(1);
    next->audit.field = (uint8_t)cases_number(1);
    cases_verdict(&next->audit.certificate);
    next->checks = cases_number(1);
}

/* Reads the next check of a slot. */
static void cases_check(struct check_case *next)
{
    next->channel = (uint8_t)cases_number(1);
    next->values = (uint16_t)cases_number(2);
    next->soft = (const int8_t *)cases_bytes(next->values);
    next->bits = (uint16_t)cases_number(2);
    next->message = cases_bytes(next->bits);
    next->rows = (uint16_t)cases_number(2);
    for (unsigned row = 0; row < next->rows; row++)
        for (unsigned state = 0; state < 16; state++)
            next->potentials[row].states[state] = cases_number(2);
    cases_verdict(&next->verdict);
}

#endif
