/* Runs the library over a file of cases, and compares each answer byte by byte with what the program says. Each struct and
 * each array that is passed ends at a page that nothing may read or write, so a call that goes behind it is seen. */
#define _DEFAULT_SOURCE
#include "cases.h"
#include <sys/mman.h>
#include <unistd.h>

static unsigned slots, certificates, failed;

/* Room for so many bytes, painted, with a page behind it that may not be touched. */
static void *guarded(size_t size)
{
    size_t page = (size_t)sysconf(_SC_PAGESIZE), whole = (size + page - 1) / page * page;
    uint8_t *room = mmap(NULL, whole + page, PROT_READ | PROT_WRITE, MAP_PRIVATE | MAP_ANONYMOUS, -1, 0);
    if (room == MAP_FAILED || mprotect(room + whole, page, PROT_NONE) != 0)
        exit(2);
    memset(room, 0xA5, whole);
    return room + whole - size;
}

static void want(int holds, const char *what)
{
    if (holds)
        return;
    failed++;
    fprintf(stderr, "slot %u: %s\n", slots, what);
}

/* What a reading says, as the bytes of its record. */
static size_t spelled(const struct tetra_reading *reading, int with_certificates, uint8_t *bytes)
{
    static const uint8_t marks[] = {[TETRA_GOOD] = 'G', [TETRA_BAD] = 'B', [TETRA_UNCHECKED] = 'U', [TETRA_NOT_YET] = 'N'};
    uint8_t *next = bytes;
    *next++ = reading->letter;
    for (int f = 0; f < reading->count; f++) {
        const struct tetra_field *field = &reading->fields[f];
        *next++ = marks[field->mark & 3];
        *next++ = (uint8_t)(field->metric >> 8);
        *next++ = (uint8_t)field->metric;
        for (int bit = 0; bit < field->bits; bit++) {
            if (bit % 8 == 0)
                *next++ = 0;
            next[-1] = (uint8_t)(next[-1] | field->message[bit] << (7 - bit % 8));
        }
        for (int row = 0; with_certificates && row < field->rows; row++)
            for (int state = 0; state < 16; state++) {
                *next++ = (uint8_t)(field->potentials[row].states[state] >> 8);
                *next++ = (uint8_t)field->potentials[row].states[state];
            }
    }
    return (size_t)(next - bytes);
}

static struct tetra_settings *settings;
static struct tetra_sender *sender;
static struct tetra_blocks *blocks;
static struct tetra_receiver *reader, *plain_writer, *writer, *auditor, *doubter;
static struct tetra_reading *reading;
static struct tetra_audit *audit;
static struct tetra_verdict *verdict;
static int8_t *sent, *received;
static uint8_t *record;
static uint32_t *written;

static void rooms(void)
{
    settings = guarded(sizeof *settings);
    sender = guarded(sizeof *sender);
    blocks = guarded(sizeof *blocks);
    reader = guarded(sizeof *reader);
    plain_writer = guarded(sizeof *plain_writer);
    writer = guarded(sizeof *writer);
    auditor = guarded(sizeof *auditor);
    doubter = guarded(sizeof *doubter);
    reading = guarded(sizeof *reading);
    audit = guarded(sizeof *audit);
    verdict = guarded(sizeof *verdict);
    sent = guarded(TETRA_SLOT);
    received = guarded(TETRA_SLOT);
    record = guarded(TETRA_RECORD);
    written = guarded(sizeof *written);
}

static void begin(void)
{
    want(tetra_sender_init(sender, settings) == TETRA_OK, "tetra_sender_init");
    want(tetra_receiver_init(reader, settings) == TETRA_OK, "tetra_receiver_init");
    *plain_writer = *writer = *auditor = *reader;
}

static void send(const struct slot_case *slot)
{
    *blocks = slot->blocks;
    want(tetra_sender_slot(sender, blocks, sent) == TETRA_OK && memcmp(sent, slot->sent, TETRA_SLOT) == 0,
         "tetra_sender_slot writes another slot than encode");
}

static void receive(const struct slot_case *slot)
{
    static uint8_t told[TETRA_RECORD];
    memcpy(received, slot->received, TETRA_SLOT);
    memset(reading, 0xA5, sizeof *reading);
    want(tetra_receiver_slot(reader, received, reading) == TETRA_OK
             && spelled(reading, 1, told) == slot->record_bytes && memcmp(told, slot->record, slot->record_bytes) == 0,
         "tetra_receiver_slot reads another thing than decode");
    memset(record, 0xA5, TETRA_RECORD);
    want(tetra_receiver_record(plain_writer, received, 0, record, written) == TETRA_OK
             && *written == slot->plain_bytes && memcmp(record, slot->plain, *written) == 0,
         "tetra_receiver_record writes another record than decode");
    want(tetra_receiver_record(writer, received, 1, record, written) == TETRA_OK
             && *written == slot->record_bytes && memcmp(record, slot->record, *written) == 0,
         "tetra_receiver_record writes another record than decode form=audit");
}

static int is_audit(const struct tetra_audit *told)
{
    return audit->test == told->test && audit->field == told->field && audit->certificate.step == told->certificate.step
           && audit->certificate.state == told->certificate.state && audit->certificate.rule == told->certificate.rule;
}

/* Audits the record, which agrees, and before it, by a copy of the state, the record with a byte changed. */
static void doubt(const struct slot_case *slot)
{
    static const struct tetra_audit agrees;
    uint8_t *claim = record + TETRA_RECORD - slot->record_bytes;
    *doubter = *auditor;
    memcpy(claim, slot->record, slot->record_bytes);
    claim[slot->changed] = slot->byte;
    memset(audit, 0xA5, sizeof *audit);
    want(tetra_receiver_audit(doubter, received, claim, slot->record_bytes, audit) == TETRA_OK && is_audit(&slot->audit),
         "tetra_receiver_audit says another thing than audit");
    claim[slot->changed] = slot->record[slot->changed];
    want(tetra_receiver_audit(auditor, received, claim, slot->record_bytes, audit) == TETRA_OK && is_audit(&agrees),
         "tetra_receiver_audit refuses the record of decode");
}

static void check(const struct check_case *told)
{
    static struct tetra_row *table;
    struct tetra_row *potentials;
    if (table == NULL)
        table = guarded(TETRA_ROWS * sizeof *table);
    potentials = table + TETRA_ROWS - told->rows;
    memcpy(potentials, told->potentials, told->rows * sizeof *potentials);
    memset(verdict, 0xA5, sizeof *verdict);
    want(tetra_check(told->channel, told->soft, told->values, told->message, told->bits, potentials, told->rows, verdict)
                 == TETRA_OK
             && verdict->step == told->verdict.step && verdict->state == told->verdict.state
             && verdict->rule == told->verdict.rule,
         "tetra_check says another thing than audit");
    certificates++;
}

int main(int count, char **words)
{
    static struct slot_case slot;
    static struct check_case told;
    unsigned rows = count == 2 ? cases_open(words[1]) : 0;
    rooms();
    for (unsigned row = 0; row < rows; row++) {
        unsigned left = cases_row(settings);
        begin();
        for (; left > 0; left--, slots++) {
            cases_slot(&slot);
            send(&slot);
            receive(&slot);
            doubt(&slot);
            for (unsigned k = 0; k < slot.checks; k++) {
                cases_check(&told);
                check(&told);
            }
        }
    }
    printf("%u slots of %u settings and %u certificates, %u differ\n", slots, rows, certificates, failed);
    return slots == 0 || failed != 0;
}
