#include "apart.h"

#include <string.h>

struct walk {
    const uint8_t *at;
    struct slices *to;
};

static size_t take_byte(struct walk *walk) { return walk->to->numbers[walk->to->numbers_len++] = *walk->at++; }

static void take_bytes(struct walk *walk, size_t count) {
    for (; count > 0; count--)
        take_byte(walk);
}

static void take_word(struct walk *walk) {
    walk->to->numbers[walk->to->numbers_len++] = (uint16_t)(walk->at[0] | walk->at[1] << 8);
    walk->at += 2;
}

static void take_text(struct walk *walk) {
    size_t length = take_byte(walk);
    memcpy(walk->to->text + walk->to->text_len, walk->at, length);
    walk->to->text_len += length;
    walk->at += length;
}

static void take_columns(struct walk *walk) {
    for (size_t columns = take_byte(walk); columns > 0; columns--) {
        take_bytes(walk, 5);
        for (size_t width = 0; width < 2; width++) {
            take_byte(walk);
            take_word(walk);
        }
    }
}

static void take_rows(struct walk *walk) {
    for (size_t rows = take_byte(walk); rows > 0; rows--) {
        take_byte(walk);
        for (size_t cells = take_byte(walk); cells > 0; cells--) {
            take_bytes(walk, 2);
            for (size_t lines = take_byte(walk); lines > 0; lines--)
                take_text(walk);
        }
    }
}

size_t take_apart(const uint8_t *sheet, struct slices *to) {
    struct walk walk = {sheet, to};
    to->numbers_len = to->text_len = 0;
    take_bytes(&walk, 2);
    take_word(&walk);
    take_byte(&walk);
    take_text(&walk);
    take_text(&walk);
    take_columns(&walk);
    take_rows(&walk);
    take_rows(&walk);
    return (size_t)(walk.at - sheet);
}
