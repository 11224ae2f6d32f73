/* What the calls cost over a file of cases: `costs time FILE REPEATS` prints microseconds of processor time per call for each
 * row, one sample that goes over its slots REPEATS times (1 to 1000), and `costs stack FILE` the most bytes of stack that each
 * call takes over all slots. */
#define _DEFAULT_SOURCE
#include "cases.h"
#include <pthread.h>
#include <sys/mman.h>
#include <time.h>

enum { MOST_SLOTS = 4320, MOST_REPEATS = 1000, ROOM = 1 << 21, PAINT = 0xAA };

static struct slot_case slots[MOST_SLOTS];
static struct check_case checked;
static unsigned count;
static struct tetra_settings settings;
static struct tetra_sender sender;
static struct tetra_receiver receiver;
static struct tetra_reading reading;
static struct tetra_audit audit;
static struct tetra_verdict verdict;
static int8_t sent[TETRA_SLOT];
static uint8_t record[TETRA_RECORD];
static uint32_t written;
static volatile int32_t sum;

static void send(const struct slot_case *slot) { sum += tetra_sender_slot(&sender, &slot->blocks, sent); }
static void receive(const struct slot_case *slot) { sum += tetra_receiver_slot(&receiver, slot->received, &reading); }
static void write_plain(const struct slot_case *slot)
{
    sum += tetra_receiver_record(&receiver, slot->received, 0, record, &written);
}
static void write_record(const struct slot_case *slot)
{
    sum += tetra_receiver_record(&receiver, slot->received, 1, record, &written);
}
static void doubt(const struct slot_case *slot)
{
    sum += tetra_receiver_audit(&receiver, slot->received, slot->record, slot->record_bytes, &audit);
}
static void check(const struct slot_case *slot)
{
    (void)slot;
    if (checked.rows > 0)
        sum += tetra_check(checked.channel, checked.soft, checked.values, checked.message, checked.bits,
                           checked.potentials, checked.rows, &verdict);
}

static const struct { const char *name; void (*call)(const struct slot_case *); } calls[] = {
    {"tetra_sender_slot", send},
    {"tetra_receiver_slot", receive},
    {"tetra_receiver_record, plain", write_plain},
    {"tetra_receiver_record", write_record},
    {"tetra_receiver_audit", doubt},
    {"tetra_check", check},
};
enum { CALLS = sizeof calls / sizeof calls[0] };

/* Reads the next row. Of the certificates the last one of the row is kept. */
static void next_row(void)
{
    count = cases_row(&settings);
    if (count > MOST_SLOTS)
        exit(2);
    for (unsigned k = 0; k < count; k++) {
        cases_slot(&slots[k]);
        for (unsigned n = 0; n < slots[k].checks; n++)
            cases_check(&checked);
    }
}

/* One pass over the slots of the row, with a sender and a receiver that begin. */
static void pass(void (*call)(const struct slot_case *))
{
    sum += tetra_sender_init(&sender, &settings) + tetra_receiver_init(&receiver, &settings);
    for (unsigned k = 0; k < count; k++)
        call(&slots[k]);
}

static double now(void)
{
    struct timespec time;
    clock_gettime(CLOCK_PROCESS_CPUTIME_ID, &time);
    return (double)time.tv_sec * 1e6 + (double)time.tv_nsec * 1e-3;
}

static double microseconds(void (*call)(const struct slot_case *), long repeats)
{
    double begun = now();
    for (long repeat = 0; repeat < repeats; repeat++)
        pass(call);
    return (now() - begun) / (double)repeats / count;
}

static void (*measured)(const struct slot_case *);

static void *thread(void *unused)
{
    if (measured != NULL)
        pass(measured);
    return unused;
}

/* How much of a painted stack a thread has written over. */
static size_t taken(void (*call)(const struct slot_case *))
{
    static uint8_t *stack;
    pthread_attr_t attributes;
    pthread_t id;
    size_t left = 0;
    if (stack == NULL)
        stack = mmap(NULL, ROOM, PROT_READ | PROT_WRITE, MAP_PRIVATE | MAP_ANONYMOUS, -1, 0);
    if (stack == MAP_FAILED)
        exit(2);
    memset(stack, PAINT, ROOM);
    measured = call;
    if (pthread_attr_init(&attributes) != 0 || pthread_attr_setstack(&attributes, stack, ROOM) != 0
        || pthread_create(&id, &attributes, thread, NULL) != 0 || pthread_join(id, NULL) != 0)
        exit(2);
    while (left < ROOM && stack[left] == PAINT)
        left++;
    return ROOM - left;
}

static int usage(void)
{
    fprintf(stderr, "usage: costs time FILE REPEATS (from 1 to %d), or costs stack FILE\n", MOST_REPEATS);
    return 2;
}

/* The number that a word is, and 0 where it is none from 1 to 1000. */
static long repeats_of(const char *word)
{
    char *end;
    long repeats = strtol(word, &end, 10);
    return end != word && *end == '\0' && repeats >= 1 && repeats <= MOST_REPEATS ? repeats : 0;
}

int main(int words, char **word)
{
    int is_time = words == 4 && strcmp(word[1], "time") == 0, is_stack = words == 3 && strcmp(word[1], "stack") == 0;
    long repeats = is_time ? repeats_of(word[3]) : 0;
    unsigned rows;
    size_t most[CALLS] = {0};
    if (!is_stack && repeats == 0)
        return usage();
    rows = cases_open(word[2]);
    for (unsigned row = 0; row < rows; row++) {
        size_t none = taken(NULL);
        next_row();
        for (int k = 0; k < CALLS; k++) {
            size_t bytes = is_time ? 0 : taken(calls[k].call) - none;
            most[k] = bytes > most[k] ? bytes : most[k];
            if (is_time)
                printf("%u\t%s\t%.3f\n", row, calls[k].name, microseconds(calls[k].call, repeats));
        }
    }
    for (int k = 0; is_stack && k < CALLS; k++)
        printf("%s\t%lu\n", calls[k].name, (unsigned long)most[k]);
    return sum != 0 || rows == 0;
}
