// The library from C++: sends blocks of each mode over frame 18, loses a few values, reads the slots, and audits what was
// read.
#include "tetra.h"

#include <algorithm>
#include <cstdio>
#include <memory>
#include <vector>

namespace {

/// A mode of the uplink: the bits of its load, and how many of its slots later a block is read.
struct Mode {
    uint8_t number;
    uint16_t load;
    size_t behind;
    bool is_coded;
};

const Mode modes[] = {
    {TETRA_SIG, 0, 0, true},       {TETRA_D72, 432, 0, false},   {TETRA_D48N1, 288, 0, true},
    {TETRA_D48N4, 288, 3, true},   {TETRA_D48N8, 288, 7, true},  {TETRA_D24N1, 144, 0, true},
    {TETRA_D24N4, 144, 3, true},   {TETRA_D24N8, 144, 7, true},  {TETRA_SPEECH, 274, 0, false},
};

unsigned draw(unsigned below) {
    static uint32_t drawn = 1;
    drawn = drawn * 1664525u + 1013904223u;
    return (drawn >> 16) % below;
}

/// Blocks of a letter that has one field, with bits drawn.
tetra_blocks blocks_of(char letter, uint16_t length) {
    tetra_blocks blocks = tetra_blocks();
    blocks.letter = static_cast<uint8_t>(letter);
    blocks.bits[0] = length;
    std::generate_n(blocks.fields[0], length, [] { return static_cast<uint8_t>(draw(2)); });
    return blocks;
}

/// A sender, receivers and an auditor of one mode on all four timeslots.
class Chain {
public:
    explicit Chain(const Mode &mode) : mode(mode) {
        const uint8_t m = mode.number;
        const tetra_settings settings = {{901, 1, 1}, TETRA_UPLINK, {m, m, m, m}, 0};
        is_good = tetra_sender_init(&sender, &settings) == TETRA_OK && tetra_receiver_init(&reader, &settings) == TETRA_OK;
        writer = auditor = reader;
    }

    /// Whether slot `turn` comes through.
    bool comes_through(unsigned turn) {
        const bool is_signalling = mode.number == TETRA_SIG || turn / 4 % 18 == 17;
        const tetra_blocks blocks = is_signalling ? blocks_of('F', 268) : blocks_of('T', mode.load);
        int8_t slot[TETRA_SLOT];
        if (tetra_sender_slot(&sender, &blocks, slot) != TETRA_OK)
            return false;
        if (mode.is_coded)
            for (int k = 0; k < 4; k++)
                slot[38 + draw(216)] = 0;
        if (is_signalling)
            return is_read(slot, blocks.letter, &blocks) && is_audited(slot);
        std::vector<tetra_blocks> &lane = loads[turn % 4];
        lane.push_back(blocks);
        const tetra_blocks *told = lane.size() > mode.behind ? &lane[lane.size() - 1 - mode.behind] : nullptr;
        return is_read(slot, blocks.letter, told) && is_audited(slot);
    }

    bool is_good;

private:
    /// Whether the slot is read as this letter with this block, or as none yet.
    bool is_read(const int8_t *slot, uint8_t letter, const tetra_blocks *told) {
        if (tetra_receiver_slot(&reader, slot, &reading) != TETRA_OK || reading.letter != letter || reading.count != 1)
            return false;
        const tetra_field &field = reading.fields[0];
        if (told == nullptr)
            return field.mark == TETRA_NOT_YET;
        return field.mark != TETRA_BAD && std::equal(told->fields[0], told->fields[0] + told->bits[0], field.message);
    }

    /// Whether the record of the slot agrees.
    bool is_audited(const int8_t *slot) {
        uint32_t written = 0;
        tetra_audit audit;
        return tetra_receiver_record(&writer, slot, 1, record, &written) == TETRA_OK
               && tetra_receiver_audit(&auditor, slot, record, written, &audit) == TETRA_OK
               && audit.test == TETRA_AGREES;
    }

    const Mode mode;
    tetra_sender sender;
    tetra_receiver reader, writer, auditor;
    tetra_reading reading;
    uint8_t record[TETRA_RECORD];
    std::vector<tetra_blocks> loads[4];
};

}  // namespace

int main() {
    int failed = 0;
    for (const Mode &mode : modes) {
        const std::unique_ptr<Chain> chain(new Chain(mode));
        bool is_good = chain->is_good;
        for (unsigned turn = 0; is_good && turn < 80; turn++)
            is_good = chain->comes_through(turn);
        if (!is_good)
            std::fprintf(stderr, "mode %d does not come through\n", mode.number);
        failed += !is_good;
    }
    std::printf("80 slots of each of 9 modes, %d modes failed\n", failed);
    return failed != 0;
}
