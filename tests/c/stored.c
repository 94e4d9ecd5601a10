/* Stored sheets with their answers. */
#define _GNU_SOURCE
#include <dirent.h>
#include <stdio.h>
#include <stdlib.h>
#include <string.h>

#include "cases.h"
#include "check.h"
#include "replay.h"

static uint8_t *read_file(const char *name, size_t *length) {
    FILE *file = fopen(name, "rb");
    if (!file || fseek(file, 0, SEEK_END))
        give_up(name);
    *length = (size_t)ftell(file);
    rewind(file);
    uint8_t *bytes = calloc(*length + 1, 1);
    if (!bytes || fread(bytes, 1, *length, file) != *length)
        give_up(name);
    fclose(file);
    return bytes;
}

/* Reads `refused N at P`; the page is left alone if it is anything else. */
static void take_refusal(struct expected *e) {
    unsigned long long number, place;
    char again[64];
    if (sscanf((const char *)e->page, "refused %llu at %llu", &number, &place) != 2)
        return;
    snprintf(again, sizeof again, "refused %llu at %llu\n", number, place);
    if (strlen(again) != e->page_len || memcmp(again, e->page, e->page_len) != 0)
        return;
    e->number = number;
    e->place = place;
    e->page_len = 0;
}

static void one_file(const char *folder, const char *name, enum fence fence) {
    char path[4096];
    struct expected e = {0};
    int stem = (int)(strlen(name) - strlen(".sheet"));
    snprintf(path, sizeof path, "%s/%s", folder, name);
    uint8_t *sheet = read_file(path, &e.sheet_len);
    snprintf(path, sizeof path, "%s/%.*s.page", folder, stem, name);
    uint8_t *page = read_file(path, &e.page_len);
    e.sheet = sheet;
    e.page = page;
    take_refusal(&e);
    about_sheet(name, 0);
    replay(&e, fence);
    free(sheet);
    free(page);
}

static int is_sheet(const struct dirent *entry) {
    const char *end = strrchr(entry->d_name, '.');
    return end && strcmp(end, ".sheet") == 0;
}

void folder_cases(const char *folder, enum fence fence) {
    struct dirent **entries;
    int found = scandir(folder, &entries, is_sheet, alphasort);
    if (found < 0)
        give_up(folder);
    for (int at = 0; at < found; at++) {
        one_file(folder, entries[at]->d_name, fence);
        free(entries[at]);
    }
    free(entries);
    about_sheet(folder, 0);
    CHECK(found > 0);
}

struct reader {
    const uint8_t *bytes;
    size_t left;
};

static const uint8_t *take(struct reader *reader, size_t count) {
    CHECK(count <= reader->left);
    const uint8_t *taken = reader->bytes;
    reader->bytes += count;
    reader->left -= count;
    return taken;
}

/* Low byte first. */
static size_t number(struct reader *reader, size_t size) {
    const uint8_t *bytes = take(reader, size);
    size_t value = 0;
    while (size-- > 0)
        value = value << 8 | bytes[size];
    return value;
}

static void one_record(struct reader *reader, enum fence fence) {
    cagwoni_measured widths = {0};
    struct expected e = {0};
    e.sheet_len = number(reader, 2);
    e.sheet = take(reader, e.sheet_len);
    e.number = number(reader, 1);
    e.place = number(reader, 2);
    if (e.number == 0) {
        widths.columns = number(reader, 1);
        CHECK(widths.columns <= CAGWONI_MOST_COLUMNS);
        for (size_t at = 0; at < widths.columns; at++) {
            widths.content[at] = (uint16_t)number(reader, 2);
            widths.hidden[at] = number(reader, 1);
        }
        number(reader, 4);
        e.page_len = number(reader, 4);
        e.page = take(reader, e.page_len);
        e.widths = &widths;
    }
    replay(&e, fence);
}

void record_cases(const char *file, enum fence fence) {
    size_t length;
    uint8_t *bytes = read_file(file, &length);
    struct reader reader = {bytes, length};
    for (size_t index = 0; reader.left > 0; index++) {
        about_sheet("stored record", index);
        one_record(&reader, fence);
    }
    free(bytes);
}
