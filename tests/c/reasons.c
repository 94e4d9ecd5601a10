/* The call that reports why each column is as wide as it is: each step and its neighbours, who is widened, the
 * difference to the target around 0 and at its ends, and refused sheets. Expected values are worked out by hand from
 * document 01's width rules. */
#include <stdlib.h>
#include <string.h>

#include "cases.h"
#include "check.h"
#include "replay.h"

/* Steps and constraints by short names. */
enum {
    FIRST = CAGWONI_STEP_FIRST,
    LOWER = CAGWONI_STEP_LOWER,
    UPPER = CAGWONI_STEP_UPPER,
    LONGEST = CAGWONI_STEP_LONGEST,
    PART = CAGWONI_STEP_PART,
    SHARE = CAGWONI_STEP_SHARE,
    FREE = CAGWONI_STEP_UNTARGETED_LONGEST,
    FREE_UPPER = CAGWONI_STEP_UNTARGETED_UPPER
};
enum { HIDE = 1, CONTENT, ABSOLUTE, AT_LEAST, AT_MOST, BETWEEN };

/* A space is an unset character. BARE prints nothing but text. TOP and BOTTOM have one fill and no junction anywhere;
 * the border puts a junction all the same, so that it is longer than text lines. */
#define HOUSE "+-++|||+=++|||+-+++-++"
#define BARE "                      "
#define TOP " -                    "
#define BOTTOM "                   -  "

#define TEN "abcdefghij"
#define TWENTY TEN TEN
#define DEGREE "\xC2\xB0"
#define FIVE_DEGREES DEGREE DEGREE DEGREE DEGREE DEGREE

/* Without a text the row ends before this column. */
struct column {
    const char *text;
    uint8_t left, right, delimiter, code;
    uint16_t first, second;
    bool percent;
};

/* A table of at most one row, what the widths call must give for it, and what this one must. */
struct reason {
    const char *name;
    uint8_t arrangement;
    uint16_t target;
    const char *style;
    bool no_row;
    size_t count;
    struct column columns[CAGWONI_MOST_COLUMNS];
    uint16_t content[CAGWONI_MOST_COLUMNS];
    uint8_t step[CAGWONI_MOST_COLUMNS];
    bool widened[CAGWONI_MOST_COLUMNS];
    int32_t difference;
};

#define DESK {{.text = "ab", .left = 1, .right = 1}, {.text = "the quick brown", .left = 1, .right = 1}}
#define EACH(x) {x, x, x, x, x, x, x, x, x, x, x, x}
#define WIDEST {.text = "a", .left = 20, .right = 20, .code = ABSOLUTE, .first = 400}

static const struct reason desks[] = {
    {.name = "desk", .arrangement = 1, .target = 20, .style = HOUSE, .count = 2, .columns = DESK,
     .content = {2, 11}, .step = {LONGEST, SHARE}},
    {.name = "desk, Disabled", .target = 20, .style = HOUSE, .count = 2, .columns = DESK,
     .content = {2, 15}, .step = {FREE, FREE}, .difference = -4},
    {.name = "desk, Disabled, room", .target = 25, .style = HOUSE, .count = 2, .columns = DESK,
     .content = {2, 15}, .step = {FREE, FREE}, .difference = 1},
    {.name = "desk, Disabled, no target", .style = HOUSE, .count = 2, .columns = DESK,
     .content = {2, 15}, .step = {FREE, FREE}},
    {.name = "desk, Dynamic, no target", .arrangement = 1, .style = HOUSE, .count = 2, .columns = DESK,
     .content = {2, 15}, .step = {FREE, FREE}},
    {.name = "desk, full width, no target", .arrangement = 2, .style = HOUSE, .count = 2, .columns = DESK,
     .content = {2, 15}, .step = {FREE, FREE}},
    {.name = "desk, full width, 20", .arrangement = 2, .target = 20, .style = HOUSE, .count = 2, .columns = DESK,
     .content = {2, 11}, .step = {LONGEST, SHARE}},
    {.name = "desk, full width, 23", .arrangement = 2, .target = 23, .style = HOUSE, .count = 2, .columns = DESK,
     .content = {5, 11}, .step = {LONGEST, PART}, .widened = {true, true}},
    {.name = "desk, full width, 24", .arrangement = 2, .target = 24, .style = HOUSE, .count = 2, .columns = DESK,
     .content = {2, 15}, .step = {LONGEST, LONGEST}},
    {.name = "desk, full width, 25", .arrangement = 2, .target = 25, .style = HOUSE, .count = 2, .columns = DESK,
     .content = {3, 15}, .step = {LONGEST, LONGEST}, .widened = {true, false}},
    {.name = "desk, full width, 26", .arrangement = 2, .target = 26, .style = HOUSE, .count = 2, .columns = DESK,
     .content = {3, 16}, .step = {LONGEST, LONGEST}, .widened = {true, true}},
    {.name = "desk, 21: the part is shorter by 3", .arrangement = 1, .target = 21, .style = HOUSE, .count = 2,
     .columns = DESK, .content = {2, 9}, .step = {LONGEST, PART}, .difference = 3},
    {.name = "desk, 23", .arrangement = 1, .target = 23, .style = HOUSE, .count = 2, .columns = DESK,
     .content = {2, 9}, .step = {LONGEST, PART}, .difference = 5},
    {.name = "desk, 24", .arrangement = 1, .target = 24, .style = HOUSE, .count = 2, .columns = DESK,
     .content = {2, 15}, .step = {LONGEST, LONGEST}},
    {.name = "desk, 25", .arrangement = 1, .target = 25, .style = HOUSE, .count = 2, .columns = DESK,
     .content = {2, 15}, .step = {LONGEST, LONGEST}, .difference = 1},
    {.name = "desk, 1", .arrangement = 1, .target = 1, .style = HOUSE, .count = 2, .columns = DESK,
     .content = {1, 1}, .step = {SHARE, SHARE}, .difference = -8},
};

static const struct reason first_steps[] = {
    {.name = "lower 4, longest 4", .arrangement = 1, .target = 10, .style = BARE, .count = 1,
     .columns = {{.text = "abcd", .code = AT_LEAST, .first = 4}},
     .content = {4}, .step = {FIRST}, .difference = 6},
    {.name = "lower 5, longest 4", .arrangement = 1, .target = 10, .style = BARE, .count = 1,
     .columns = {{.text = "abcd", .code = AT_LEAST, .first = 5}},
     .content = {5}, .step = {FIRST}, .difference = 5},
    {.name = "lower 3, longest 4", .arrangement = 1, .target = 10, .style = BARE, .count = 1,
     .columns = {{.text = "abcd", .code = AT_LEAST, .first = 3}},
     .content = {4}, .step = {LONGEST}, .difference = 6},
    {.name = "lower 6, longest 4, padded", .arrangement = 1, .target = 10, .style = BARE, .count = 1,
     .columns = {{.text = "abcd", .left = 1, .right = 1, .code = AT_LEAST, .first = 6}},
     .content = {4}, .step = {FIRST}, .difference = 4},
    {.name = "lower 5, longest 4, padded", .arrangement = 1, .target = 10, .style = BARE, .count = 1,
     .columns = {{.text = "abcd", .left = 1, .right = 1, .code = AT_LEAST, .first = 5}},
     .content = {4}, .step = {LONGEST}, .difference = 4},
    {.name = "lower 20, longest 4, target 10", .arrangement = 1, .target = 10, .style = BARE, .count = 1,
     .columns = {{.text = "abcd", .code = AT_LEAST, .first = 20}},
     .content = {20}, .step = {FIRST}, .difference = -10},
    {.name = "lower 6, no target", .arrangement = 1, .style = BARE, .count = 1,
     .columns = {{.text = "abcd", .code = AT_LEAST, .first = 6}}, .content = {6}, .step = {FIRST}},
    {.name = "lower 50 percent", .arrangement = 1, .target = 10, .style = BARE, .count = 1,
     .columns = {{.text = "abcd", .code = AT_LEAST, .first = 50, .percent = true}},
     .content = {5}, .step = {FIRST}, .difference = 5},
    {.name = "lower 0, no cell", .arrangement = 1, .target = 10, .style = BARE, .no_row = true, .count = 1,
     .columns = {{.code = AT_LEAST}}, .content = {1}, .step = {FIRST}, .difference = 10},
    {.name = "bounds 6 and 8, longest 4", .arrangement = 1, .target = 10, .style = BARE, .count = 1,
     .columns = {{.text = "abcd", .code = BETWEEN, .first = 6, .second = 8}},
     .content = {6}, .step = {FIRST}, .difference = 4},
    {.name = "content width", .arrangement = 1, .target = 10, .style = BARE, .count = 1,
     .columns = {{.text = TWENTY, .code = CONTENT}}, .content = {20}, .step = {FIRST}, .difference = -10},
    {.name = "content width, Disabled", .target = 10, .style = BARE, .count = 1,
     .columns = {{.text = TWENTY, .code = CONTENT}}, .content = {20}, .step = {FIRST}, .difference = -10},
    {.name = "content width, no cell", .arrangement = 1, .target = 10, .style = BARE, .no_row = true, .count = 1,
     .columns = {{.code = CONTENT}}, .content = {1}, .step = {FIRST}, .difference = 10},
    {.name = "absolute 6", .arrangement = 1, .target = 10, .style = BARE, .count = 1,
     .columns = {{.text = "abcd", .code = ABSOLUTE, .first = 6}},
     .content = {6}, .step = {FIRST}, .difference = 4},
    {.name = "absolute 0", .arrangement = 1, .target = 10, .style = BARE, .count = 1,
     .columns = {{.text = "abcd", .code = ABSOLUTE}}, .content = {1}, .step = {FIRST}, .difference = 9},
    {.name = "absolute 50 percent", .arrangement = 1, .target = 10, .style = BARE, .count = 1,
     .columns = {{.text = "abcd", .code = ABSOLUTE, .first = 50, .percent = true}},
     .content = {5}, .step = {FIRST}, .difference = 5},
    {.name = "absolute 50 percent, Disabled", .target = 10, .style = BARE, .count = 1,
     .columns = {{.text = "abcd", .code = ABSOLUTE, .first = 50, .percent = true}},
     .content = {5}, .step = {FIRST}, .difference = 5},
    {.name = "absolute 50 percent, no target", .style = BARE, .count = 1,
     .columns = {{.text = "abcd", .code = ABSOLUTE, .first = 50, .percent = true}},
     .content = {4}, .step = {FREE}},
};

static const struct reason bounds[] = {
    {.name = "lower 12, average 10", .arrangement = 1, .target = 20, .style = BARE, .count = 2,
     .columns = {{.text = TWENTY, .code = AT_LEAST, .first = 12}, {.text = TWENTY}},
     .content = {12, 8}, .step = {LOWER, SHARE}},
    {.name = "lower 10, average 10", .arrangement = 1, .target = 20, .style = BARE, .count = 2,
     .columns = {{.text = TWENTY, .code = AT_LEAST, .first = 10}, {.text = TWENTY}},
     .content = {10, 10}, .step = {SHARE, SHARE}},
    {.name = "lower 60 percent, average 10", .arrangement = 1, .target = 20, .style = BARE, .count = 2,
     .columns = {{.text = TWENTY, .code = AT_LEAST, .first = 60, .percent = true}, {.text = TWENTY}},
     .content = {12, 8}, .step = {LOWER, SHARE}},
    {.name = "lower 12, then lower 9 in another pass", .arrangement = 1, .target = 20, .style = BARE, .count = 2,
     .columns = {{.text = TWENTY, .code = AT_LEAST, .first = 9}, {.text = TWENTY, .code = AT_LEAST, .first = 12}},
     .content = {9, 12}, .step = {LOWER, LOWER}, .difference = -1},
    {.name = "lower 12 of bounds 12 and 15", .arrangement = 1, .target = 20, .style = BARE, .count = 2,
     .columns = {{.text = TWENTY, .code = BETWEEN, .first = 12, .second = 15}, {.text = TWENTY}},
     .content = {12, 8}, .step = {LOWER, SHARE}},
    {.name = "lower 15, target 12, full width", .arrangement = 2, .target = 12, .style = BARE, .count = 1,
     .columns = {{.text = TWENTY, .code = AT_LEAST, .first = 15}},
     .content = {15}, .step = {LOWER}, .difference = -3},
    {.name = "lower 1, average 0", .arrangement = 1, .target = 1, .style = HOUSE, .count = 1,
     .columns = {{.text = "abcde", .code = AT_LEAST, .first = 1}},
     .content = {1}, .step = {LOWER}, .difference = -2},
    {.name = "lower 0, average 0", .arrangement = 1, .target = 1, .style = HOUSE, .count = 1,
     .columns = {{.text = "abcde", .code = AT_LEAST}}, .content = {1}, .step = {SHARE}, .difference = -2},
    {.name = "lower 11, longest 10 and average 10, padded", .arrangement = 1, .target = 12, .style = BARE, .count = 1,
     .columns = {{.text = TEN, .left = 1, .right = 1, .code = AT_LEAST, .first = 11}},
     .content = {9}, .step = {LOWER}, .difference = 1},
    {.name = "upper 4, longest 4", .arrangement = 1, .target = 10, .style = BARE, .count = 1,
     .columns = {{.text = "abcd", .code = AT_MOST, .first = 4}},
     .content = {4}, .step = {UPPER}, .difference = 6},
    {.name = "upper 5, longest 4", .arrangement = 1, .target = 10, .style = BARE, .count = 1,
     .columns = {{.text = "abcd", .code = AT_MOST, .first = 5}},
     .content = {4}, .step = {LONGEST}, .difference = 6},
    {.name = "upper 3, longest 4", .arrangement = 1, .target = 10, .style = BARE, .count = 1,
     .columns = {{.text = "abcd", .code = AT_MOST, .first = 3}},
     .content = {3}, .step = {UPPER}, .difference = 7},
    {.name = "upper 0", .arrangement = 1, .target = 10, .style = BARE, .count = 1,
     .columns = {{.text = "abcd", .code = AT_MOST}}, .content = {1}, .step = {UPPER}, .difference = 9},
    {.name = "upper 6, longest 4, padded", .arrangement = 1, .target = 10, .style = BARE, .count = 1,
     .columns = {{.text = "abcd", .left = 1, .right = 1, .code = AT_MOST, .first = 6}},
     .content = {4}, .step = {UPPER}, .difference = 4},
    {.name = "upper 7, longest 4, padded", .arrangement = 1, .target = 10, .style = BARE, .count = 1,
     .columns = {{.text = "abcd", .left = 1, .right = 1, .code = AT_MOST, .first = 7}},
     .content = {4}, .step = {LONGEST}, .difference = 4},
    {.name = "upper 10, average 10", .arrangement = 1, .target = 10, .style = BARE, .count = 1,
     .columns = {{.text = TWENTY, .code = AT_MOST, .first = 10}}, .content = {10}, .step = {UPPER}},
    {.name = "upper 11, average 10", .arrangement = 1, .target = 10, .style = BARE, .count = 1,
     .columns = {{.text = TWENTY, .code = AT_MOST, .first = 11}}, .content = {10}, .step = {SHARE}},
    {.name = "upper 10, average 8, padded", .arrangement = 1, .target = 10, .style = BARE, .count = 1,
     .columns = {{.text = TWENTY, .left = 1, .right = 1, .code = AT_MOST, .first = 10}},
     .content = {8}, .step = {UPPER}},
    {.name = "upper 50 percent", .arrangement = 1, .target = 10, .style = BARE, .count = 1,
     .columns = {{.text = TWENTY, .code = AT_MOST, .first = 50, .percent = true}},
     .content = {5}, .step = {UPPER}, .difference = 5},
    {.name = "bounds 2 and 5", .arrangement = 1, .target = 20, .style = BARE, .count = 1,
     .columns = {{.text = TEN, .code = BETWEEN, .first = 2, .second = 5}},
     .content = {5}, .step = {UPPER}, .difference = 15},
    {.name = "bounds 10 and 3", .arrangement = 1, .target = 30, .style = BARE, .count = 1,
     .columns = {{.text = TWENTY, .code = BETWEEN, .first = 10, .second = 3}},
     .content = {3}, .step = {UPPER}, .difference = 27},
    {.name = "steps 2, 3, 5 and 6", .arrangement = 1, .target = 40, .style = BARE, .count = 4,
     .columns = {{.text = TWENTY TEN, .code = AT_LEAST, .first = 20}, {.text = TEN, .code = AT_MOST, .first = 3},
                 {.text = "abcde abcde abcde"}, {.text = TEN "klmnop"}},
     .content = {20, 3, 5, 12}, .step = {LOWER, UPPER, PART, SHARE}},
    {.name = "steps 2, 3 and 5", .arrangement = 1, .target = 31, .style = BARE, .count = 3,
     .columns = {{.text = TWENTY TEN, .code = AT_LEAST, .first = 20}, {.text = TEN, .code = AT_MOST, .first = 3},
                 {.text = "abcde abcde abcde"}},
     .content = {20, 3, 5}, .step = {LOWER, UPPER, PART}, .difference = 3},
    {.name = "steps 2, 3 and 6", .arrangement = 1, .target = 30, .style = BARE, .count = 3,
     .columns = {{.text = TWENTY TEN, .code = AT_LEAST, .first = 20}, {.text = TEN, .code = AT_MOST, .first = 3},
                 {.text = "abcde abcde abcde"}},
     .content = {20, 3, 7}, .step = {LOWER, UPPER, SHARE}},
};

static const struct reason texts[] = {
    {.name = "longest 11 in another pass", .arrangement = 1, .target = 20, .style = BARE, .count = 2,
     .columns = {{.text = TEN "k"}, {.text = "ab"}},
     .content = {11, 2}, .step = {LONGEST, LONGEST}, .difference = 7},
    {.name = "an empty cell", .arrangement = 1, .target = 10, .style = BARE, .count = 1, .columns = {{.text = ""}},
     .content = {1}, .step = {LONGEST}, .difference = 9},
    {.name = "a column without cells", .arrangement = 1, .target = 10, .style = BARE, .count = 2,
     .columns = {{.text = "ab"}}, .content = {2, 1}, .step = {LONGEST, LONGEST}, .difference = 7},
    {.name = "a column without cells, average 0", .arrangement = 1, .target = 1, .style = HOUSE, .no_row = true,
     .count = 2, .content = {1, 1}, .step = {SHARE, SHARE}, .difference = -4},
    {.name = "a part shorter by 3", .arrangement = 1, .target = 8, .style = BARE, .count = 1,
     .columns = {{.text = "abcde abcde"}}, .content = {5}, .step = {PART}, .difference = 3},
    {.name = "a part shorter by 2", .arrangement = 1, .target = 7, .style = BARE, .count = 1,
     .columns = {{.text = "abcde abcde"}}, .content = {7}, .step = {SHARE}},
    {.name = "another delimiter", .arrangement = 1, .target = 8, .style = BARE, .count = 1,
     .columns = {{.text = "abcde/abcde", .delimiter = '/'}}, .content = {5}, .step = {PART}, .difference = 3},
    {.name = "a delimiter that isn't the column's", .arrangement = 1, .target = 8, .style = BARE, .count = 1,
     .columns = {{.text = "abcde abcde", .delimiter = '/'}}, .content = {8}, .step = {SHARE}},
    {.name = "a part in another pass", .arrangement = 1, .target = 20, .style = BARE, .count = 2,
     .columns = {{.text = "abcdefghi abcdefghi"}, {.text = "abcde abcde abcde"}},
     .content = {9, 5}, .step = {PART, PART}, .difference = 6},
    {.name = "a part without a character, and no line", .arrangement = 1, .target = 3, .style = BARE, .count = 1,
     .columns = {{.text = "     "}}, .content = {1}, .step = {PART}, .difference = 3},
    {.name = "11 shared by 3", .arrangement = 1, .target = 11, .style = BARE, .count = 3,
     .columns = {{.text = TWENTY}, {.text = TWENTY}, {.text = TWENTY}},
     .content = {4, 4, 3}, .step = {SHARE, SHARE, SHARE}},
    {.name = "2 shared by 3", .arrangement = 1, .target = 2, .style = BARE, .count = 3,
     .columns = {{.text = TWENTY}, {.text = TWENTY}, {.text = TWENTY}},
     .content = {1, 1, 1}, .step = {SHARE, SHARE, SHARE}, .difference = -1},
    {.name = "degree signs within the average", .arrangement = 1, .target = 5, .style = BARE, .count = 1,
     .columns = {{.text = FIVE_DEGREES}}, .content = {5}, .step = {LONGEST}},
    {.name = "degree signs, widened", .arrangement = 2, .target = 6, .style = BARE, .count = 1,
     .columns = {{.text = FIVE_DEGREES}}, .content = {6}, .step = {LONGEST}, .widened = {true}},
    {.name = "degree signs, a part shorter by 3", .arrangement = 1, .target = 8, .style = BARE, .count = 1,
     .columns = {{.text = FIVE_DEGREES " " FIVE_DEGREES}}, .content = {5}, .step = {PART}, .difference = 3},
    {.name = "degree signs that overrun", .target = 4, .style = BARE, .count = 1,
     .columns = {{.text = FIVE_DEGREES}}, .content = {5}, .step = {FREE}, .difference = -1},
};

static const struct reason untargeted[] = {
    {.name = "upper 5, longest 5, padded", .style = BARE, .count = 1,
     .columns = {{.text = "abcde", .left = 1, .right = 1, .code = AT_MOST, .first = 5}},
     .content = {5}, .step = {FREE}},
    {.name = "upper 5, longest 6, padded", .style = BARE, .count = 1,
     .columns = {{.text = "abcdef", .left = 1, .right = 1, .code = AT_MOST, .first = 5}},
     .content = {3}, .step = {FREE_UPPER}},
    {.name = "upper 5, longest 6, padded, Disabled with a target", .target = 30, .style = BARE, .count = 1,
     .columns = {{.text = "abcdef", .left = 1, .right = 1, .code = AT_MOST, .first = 5}},
     .content = {3}, .step = {FREE_UPPER}, .difference = 25},
    {.name = "upper 3, longest 4, Dynamic without a target", .arrangement = 1, .style = BARE, .count = 1,
     .columns = {{.text = "abcd", .code = AT_MOST, .first = 3}}, .content = {3}, .step = {FREE_UPPER}},
    {.name = "upper 3, longest 4, full width without a target", .arrangement = 2, .style = BARE, .count = 1,
     .columns = {{.text = "abcd", .code = AT_MOST, .first = 3}}, .content = {3}, .step = {FREE_UPPER}},
    {.name = "upper 10 percent without a target", .style = BARE, .count = 1,
     .columns = {{.text = TEN, .code = AT_MOST, .first = 10, .percent = true}}, .content = {10}, .step = {FREE}},
    {.name = "upper 10 percent, Disabled with a target", .target = 30, .style = BARE, .count = 1,
     .columns = {{.text = TEN, .code = AT_MOST, .first = 10, .percent = true}},
     .content = {3}, .step = {FREE_UPPER}, .difference = 27},
    {.name = "bounds 2 and 5, longest 10", .style = BARE, .count = 1,
     .columns = {{.text = TEN, .code = BETWEEN, .first = 2, .second = 5}}, .content = {5}, .step = {FREE_UPPER}},
    {.name = "bounds 12 and 5, longest 10", .style = BARE, .count = 1,
     .columns = {{.text = TEN, .code = BETWEEN, .first = 12, .second = 5}}, .content = {12}, .step = {FIRST}},
    {.name = "lower 9, longest 10, Disabled with a target", .target = 5, .style = BARE, .count = 1,
     .columns = {{.text = TEN, .code = AT_LEAST, .first = 9}}, .content = {10}, .step = {FREE}, .difference = -5},
    {.name = "upper 0, no cell", .style = BARE, .no_row = true, .count = 1, .columns = {{.code = AT_MOST}},
     .content = {1}, .step = {FREE}},
};

static const struct reason widened[] = {
    {.name = "hidden between two, 7 left", .arrangement = 2, .target = 11, .style = BARE, .count = 3,
     .columns = {{.text = "ab"}, {.text = "xyz", .code = HIDE}, {.text = "cd"}},
     .content = {6, 3, 5}, .step = {LONGEST, 0, LONGEST}, .widened = {true, false, true}},
    {.name = "hidden between two, 1 left", .arrangement = 2, .target = 5, .style = BARE, .count = 3,
     .columns = {{.text = "ab"}, {.text = "xyz", .code = HIDE}, {.text = "cd"}},
     .content = {3, 3, 2}, .step = {LONGEST, 0, LONGEST}, .widened = {true, false, false}},
    {.name = "hidden first, 1 left", .arrangement = 2, .target = 5, .style = BARE, .count = 3,
     .columns = {{.text = "xyz", .code = HIDE}, {.text = "ab"}, {.text = "cd"}},
     .content = {3, 3, 2}, .step = {0, LONGEST, LONGEST}, .widened = {false, true, false}},
    {.name = "hidden last, Dynamic", .arrangement = 1, .target = 5, .style = BARE, .count = 3,
     .columns = {{.text = "ab"}, {.text = "cd"}, {.text = "xyz", .code = HIDE}},
     .content = {2, 2, 3}, .step = {LONGEST, LONGEST, 0}, .difference = 1},
    {.name = "fixed by their constraints, 2 left", .arrangement = 2, .target = 10, .style = BARE, .count = 2,
     .columns = {{.text = "a", .code = ABSOLUTE, .first = 4}, {.text = "b", .code = ABSOLUTE, .first = 4}},
     .content = {5, 5}, .step = {FIRST, FIRST}, .widened = {true, true}},
    {.name = "beyond its upper bound", .arrangement = 2, .target = 10, .style = BARE, .count = 1,
     .columns = {{.text = TEN, .code = AT_MOST, .first = 3}}, .content = {10}, .step = {UPPER}, .widened = {true}},
    {.name = "a share leaves nothing", .arrangement = 2, .target = 20, .style = BARE, .count = 2,
     .columns = {{.text = "ab"}, {.text = TWENTY}}, .content = {2, 18}, .step = {LONGEST, SHARE}},
    {.name = "steps 2, 3 and 5, all widened", .arrangement = 2, .target = 31, .style = BARE, .count = 3,
     .columns = {{.text = TWENTY TEN, .code = AT_LEAST, .first = 20}, {.text = TEN, .code = AT_MOST, .first = 3},
                 {.text = "abcde abcde abcde"}},
     .content = {21, 4, 6}, .step = {LOWER, UPPER, PART}, .widened = {true, true, true}},
    /* The column without cells was charged 0 and has 1, so that the page overruns. */
    {.name = "a column without cells", .arrangement = 2, .target = 10, .style = BARE, .count = 2,
     .columns = {{.text = "ab"}}, .content = {6, 5}, .step = {LONGEST, LONGEST}, .widened = {true, true},
     .difference = -1},
    {.name = "12 columns, 5 left", .arrangement = 2, .target = 17, .style = BARE, .count = 12,
     .columns = EACH({.text = "a"}), .content = {2, 2, 2, 2, 2, 1, 1, 1, 1, 1, 1, 1}, .step = EACH(LONGEST),
     .widened = {true, true, true, true, true}},
    {.name = "12 columns, 11 left", .arrangement = 2, .target = 23, .style = BARE, .count = 12,
     .columns = EACH({.text = "a"}), .content = {2, 2, 2, 2, 2, 2, 2, 2, 2, 2, 2, 1}, .step = EACH(LONGEST),
     .widened = {true, true, true, true, true, true, true, true, true, true, true}},
};

static const struct reason differences[] = {
    {.name = "a border longer than text lines", .arrangement = 1, .target = 10, .style = TOP, .count = 2,
     .columns = {{.text = "ab"}, {.text = "cd"}}, .content = {2, 2}, .step = {LONGEST, LONGEST}, .difference = 5},
    {.name = "a border longer than text lines, full width", .arrangement = 2, .target = 10, .style = TOP, .count = 2,
     .columns = {{.text = "ab"}, {.text = "cd"}}, .content = {5, 5}, .step = {LONGEST, LONGEST},
     .widened = {true, true}, .difference = -1},
    {.name = "a bottom border longer than text lines", .arrangement = 1, .target = 5, .style = BOTTOM, .count = 2,
     .columns = {{.text = "ab"}, {.text = "cd"}}, .content = {2, 2}, .step = {LONGEST, LONGEST}},
    {.name = "a border alone", .arrangement = 1, .target = 5, .style = TOP, .no_row = true, .count = 2,
     .content = {1, 1}, .step = {LONGEST, LONGEST}, .difference = 2},
    {.name = "no column, no line", .arrangement = 1, .target = 20, .style = BARE, .no_row = true, .difference = 20},
    {.name = "no column, no line, the greatest target", .arrangement = 2, .target = 400, .style = BARE, .no_row = true,
     .difference = 400},
    {.name = "no column, no line, Disabled", .target = 20, .style = BARE, .no_row = true, .difference = 20},
    {.name = "no column, no line, no target", .arrangement = 1, .style = BARE, .no_row = true},
    {.name = "no column, a row without cells", .arrangement = 2, .target = 20, .style = BARE, .difference = 20},
    {.name = "no column, borders", .arrangement = 2, .target = 20, .style = HOUSE, .no_row = true, .difference = 18},
    {.name = "no column, borders, no target", .style = HOUSE, .no_row = true},
    {.name = "no column, borders that overrun", .arrangement = 1, .target = 1, .style = HOUSE, .no_row = true,
     .difference = -1},
    {.name = "no line, no target", .arrangement = 1, .style = BARE, .no_row = true, .count = 2,
     .content = {1, 1}, .step = {FREE, FREE}},
    {.name = "no line, a target", .arrangement = 1, .target = 7, .style = BARE, .no_row = true, .count = 2,
     .content = {1, 1}, .step = {LONGEST, LONGEST}, .difference = 7},
    {.name = "no line, a target, full width", .arrangement = 2, .target = 7, .style = BARE, .no_row = true, .count = 2,
     .content = {5, 4}, .step = {LONGEST, LONGEST}, .widened = {true, true}, .difference = 7},
    {.name = "all hidden, borders", .arrangement = 2, .target = 40, .style = HOUSE, .count = 2,
     .columns = {{.text = "ab", .code = HIDE}, {.text = "c", .code = HIDE}}, .content = {2, 1}, .difference = 38},
    {.name = "all hidden, no line", .arrangement = 2, .target = 40, .style = BARE, .count = 2,
     .columns = {{.text = "ab", .code = HIDE}, {.text = "c", .code = HIDE}}, .content = {2, 1}, .difference = 40},
    {.name = "all hidden, no target", .style = HOUSE, .count = 1, .columns = {{.text = "ab", .code = HIDE}},
     .content = {2}},
    /* 12 times 400, 2 at the sides and 11 between: no line is longer than 4,813. */
    {.name = "the greatest overrun", .arrangement = 1, .target = 1, .style = HOUSE, .count = 12,
     .columns = EACH(WIDEST), .content = EACH(360), .step = EACH(FIRST), .difference = -4812},
    {.name = "the greatest overrun, Disabled, by borders alone", .target = 1, .style = HOUSE, .no_row = true,
     .count = 12, .columns = EACH(WIDEST), .content = EACH(360), .step = EACH(FIRST), .difference = -4812},
    {.name = "as wide, full width, the greatest target", .arrangement = 2, .target = 400, .style = HOUSE, .count = 12,
     .columns = EACH(WIDEST), .content = EACH(360), .step = EACH(FIRST), .difference = -4413},
    {.name = "as wide, no target", .arrangement = 2, .style = HOUSE, .count = 12, .columns = EACH(WIDEST),
     .content = EACH(360), .step = EACH(FIRST)},
    {.name = "as wide, bare", .arrangement = 1, .target = 1, .style = BARE, .count = 12, .columns = EACH(WIDEST),
     .content = EACH(360), .step = EACH(FIRST), .difference = -4799},
};

static uint8_t *put_word(uint8_t *to, uint16_t word) {
    *to++ = (uint8_t)word;
    *to++ = (uint8_t)(word >> 8);
    return to;
}

static uint8_t *put_column(uint8_t *to, const struct column *column) {
    *to++ = column->left;
    *to++ = column->right;
    *to++ = column->delimiter;
    *to++ = 0;
    *to++ = column->code;
    *to++ = column->percent;
    to = put_word(to, column->first);
    *to++ = 0;
    return put_word(to, column->second);
}

static uint8_t *put_cell(uint8_t *to, const char *text) {
    *to++ = 0;
    *to++ = 0;
    *to++ = 1;
    *to++ = (uint8_t)strlen(text);
    memcpy(to, text, strlen(text));
    return to + strlen(text);
}

static uint8_t *put_row(uint8_t *to, const struct reason *r) {
    uint8_t cells = 0;
    while (cells < r->count && r->columns[cells].text)
        cells++;
    *to++ = 0;
    *to++ = cells;
    for (size_t at = 0; at < cells; at++)
        to = put_cell(to, r->columns[at].text);
    return to;
}

static size_t sheet_of(const struct reason *r, uint8_t *sheet) {
    uint8_t *to = sheet;
    *to++ = 1;
    *to++ = r->arrangement;
    to = put_word(to, r->target);
    *to++ = 0;
    *to++ = 0;
    *to++ = 22;
    for (const char *style = r->style; *style; style++)
        *to++ = (uint8_t)(*style == ' ' ? 0 : *style);
    *to++ = (uint8_t)r->count;
    for (size_t at = 0; at < r->count; at++)
        to = put_column(to, &r->columns[at]);
    *to++ = 0;
    *to++ = !r->no_row;
    if (!r->no_row)
        to = put_row(to, r);
    return (size_t)(to - sheet);
}

static cagwoni_reasoned reasons_of(const uint8_t *bytes, size_t length, enum fence fence) {
    struct lent sheet = lend(length, fence);
    if (length > 0)
        memcpy(sheet.bytes, bytes, length);
    cagwoni_reasoned got = cagwoni_reasons(sheet.bytes, length);
    give_back(&sheet);
    return got;
}

static void as_worked_out(const struct reason *r, enum fence fence) {
    uint8_t sheet[1024];
    size_t length = sheet_of(r, sheet);
    about_sheet(r->name, 0);
    about_call("cagwoni_widths", 0);
    cagwoni_measured widths = cagwoni_widths(sheet, length);
    CHECK(widths.number == 0 && widths.columns == r->count);
    about_call("cagwoni_reasons", 0);
    cagwoni_reasoned got = reasons_of(sheet, length, fence);
    CHECK(got.number == 0 && got.place == 0 && got.columns == r->count);
    for (size_t at = 0; at < CAGWONI_MOST_COLUMNS; at++) {
        about_call("cagwoni_reasons, column", at);
        CHECK(widths.content[at] == r->content[at]);
        CHECK(got.step[at] == r->step[at]);
        CHECK(got.widened[at] == r->widened[at]);
    }
    CHECK(got.has_difference == (r->target != 0));
    CHECK(got.difference == r->difference);
    replay_unknown(sheet, length, fence);
}

static void all_worked_out(const struct reason *reasons, size_t count, enum fence fence) {
    for (size_t at = 0; at < count; at++)
        as_worked_out(&reasons[at], fence);
}

/* `replay` sees to it that every refused sheet answers nothing else; these go by way of no other call. */
static void refused(const uint8_t *sheet, size_t length, uint64_t number, uint64_t place, enum fence fence) {
    about_call("cagwoni_reasons", 0);
    cagwoni_reasoned got = reasons_of(sheet, length, fence);
    CHECK(got.number == number && got.place == place && got.columns == 0);
    for (size_t at = 0; at < CAGWONI_MOST_COLUMNS; at++)
        CHECK(got.step[at] == 0 && !got.widened[at]);
    CHECK(!got.has_difference && got.difference == 0);
}

static void refused_sheets(enum fence fence) {
    for (size_t length = 0; length < sizeof desk_sheet; length++) {
        about_sheet("desk, first bytes:", length);
        refused(desk_sheet, length, CAGWONI_ENDS_EARLY, length, fence);
    }
    uint8_t *longer = calloc(CAGWONI_LONGEST_SHEET + 1, 1);
    if (!longer)
        give_up("calloc");
    memcpy(longer, desk_sheet, sizeof desk_sheet);
    about_sheet("desk, zeros after it", 0);
    refused(longer, sizeof desk_sheet + 1, CAGWONI_BYTES_AFTER, sizeof desk_sheet, fence);
    refused(longer, CAGWONI_LONGEST_SHEET, CAGWONI_BYTES_AFTER, sizeof desk_sheet, fence);
    refused(longer, CAGWONI_LONGEST_SHEET + 1, CAGWONI_TOO_LONG, CAGWONI_LONGEST_SHEET, fence);
    longer[0] = 2;
    refused(longer, sizeof desk_sheet, CAGWONI_EDITION, 0, fence);
    free(longer);
    about_sheet("a null pointer", 0);
    refused(NULL, 0, CAGWONI_ENDS_EARLY, 0, FENCE_PLAIN);
}

#define ALL(reasons) all_worked_out(reasons, sizeof reasons / sizeof *reasons, fence)

void reason_cases(enum fence fence) {
    ALL(desks);
    ALL(first_steps);
    ALL(bounds);
    ALL(texts);
    ALL(untargeted);
    ALL(widened);
    ALL(differences);
    refused_sheets(fence);
}
