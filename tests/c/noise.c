/* Random bytes as sheets, seeded: noise, and the desk's sheet with some bytes changed and pairs put into it. Random
 * numbers and text as tables likewise. */
#include <string.h>

#include "cases.h"
#include "check.h"
#include "replay.h"
#include "write.h"

/* splitmix64 */
static uint64_t next(uint64_t *state) {
    uint64_t z = *state += 0x9E3779B97F4A7C15u;
    z = (z ^ (z >> 30)) * 0xBF58476D1CE4E5B9u;
    z = (z ^ (z >> 27)) * 0x94D049BB133111EBu;
    return z ^ (z >> 31);
}

static size_t noise(uint8_t *sheet, uint64_t *state) {
    size_t length = next(state) % 200;
    int small = next(state) % 2;
    for (size_t at = 0; at < length; at++)
        sheet[at] = (uint8_t)(small ? next(state) % 5 : next(state));
    if (length > 0 && next(state) % 4)
        sheet[0] = 1;
    return length;
}

/* The desk's last text starts at 66. */
static void put_pairs(uint8_t *sheet, size_t length, uint64_t *state) {
    for (size_t pairs = next(state) % 5; pairs > 0; pairs--) {
        size_t at = 66 + next(state) % (length - 66 - 1);
        sheet[at] = 0xC2;
        sheet[at + 1] = 0xB0;
    }
}

static size_t changed_desk(uint8_t *sheet, uint64_t *state) {
    size_t length = sizeof desk_sheet;
    memcpy(sheet, desk_sheet, length);
    put_pairs(sheet, length, state);
    for (size_t changes = next(state) % 4; changes > 0; changes--) {
        uint8_t *byte = &sheet[next(state) % length];
        *byte = (uint8_t)(next(state) % 2 ? *byte + 1 + next(state) % 4 : next(state));
    }
    return next(state) % 4 ? length : next(state) % length;
}

static void noise_table(struct slices *s, uint64_t *state) {
    int small = next(state) % 2;
    s->numbers_len = next(state) % 60;
    s->text_len = next(state) % 60;
    for (size_t at = 0; at < s->numbers_len; at++)
        s->numbers[at] = (uint16_t)(small ? next(state) % 5 : next(state));
    for (size_t at = 0; at < s->text_len; at++)
        s->text[at] = (uint8_t)next(state);
    if (next(state) % 4)
        s->numbers[0] = 1;
}

/* Most tables keep their lengths and their counts, so that their fields are looked at. */
static void changed_desk_table(struct slices *s, uint64_t *state) {
    s->numbers_len = 37 - (next(state) % 8 ? 0 : next(state) % 37);
    s->text_len = 39 - (next(state) % 8 ? 0 : next(state) % 39);
    memcpy(s->numbers, desk_numbers, sizeof desk_numbers);
    memcpy(s->text, desk_text, sizeof desk_text);
    for (size_t changes = next(state) % 4; changes > 0; changes--) {
        uint16_t *number = &s->numbers[next(state) % 37];
        *number = (uint16_t)(next(state) % 2 ? *number + 1 + next(state) % 4 : next(state));
    }
    for (size_t changes = next(state) % 3; changes > 0; changes--) {
        size_t at = next(state) % 38;
        s->text[at] = (uint8_t)(next(state) % 2 ? 0xC2 : next(state));
        s->text[at + 1] = (uint8_t)(next(state) % 2 ? 0xB0 : s->text[at + 1]);
    }
}

static void random_table(enum fence fence, uint64_t *state) {
    uint16_t numbers[60];
    uint8_t text[60];
    struct slices s = {.numbers = numbers, .text = text};
    if (next(state) % 4)
        changed_desk_table(&s, state);
    else
        noise_table(&s, state);
    write_unknown(&s, fence);
}

void random_cases(enum fence fence, size_t count) {
    uint8_t sheet[200];
    uint64_t state = 20261115, table_state = 20261117;
    for (size_t index = 0; index < count; index++) {
        about_sheet("random, number", index);
        size_t length = next(&state) % 2 ? noise(sheet, &state) : changed_desk(sheet, &state);
        replay_unknown(sheet, length, fence);
        about_sheet("random table, number", index);
        random_table(fence, &table_state);
    }
}
