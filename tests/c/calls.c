/*
 * Calls every export of the static library from C: on document 01's 5 by 3 map, and with what the table
 * of refusals names. Each number that is given back, each entry of the used parts, each entry past them
 * and each canary past a lent buffer is held to document 01. Prints one line and ends with 0, or prints
 * what differed and ends with 1.
 */
#include <stdio.h>
#include <string.h>

#include "cerandool.h"

enum {
    WIDTH = 5,
    HEIGHT = 3,
    CELLS = WIDTH * HEIGHT,
    PADDED_WIDTH = WIDTH + 2,
    PADDED_ROWS = HEIGHT + 2,
    PADDED = PADDED_WIDTH * PADDED_ROWS,
    LANES = 8,
    RING = 8,         /* access cells of the resource */
    MOST = 2,         /* resources in a call */
    LENT_SPARE = 2,   /* entries that are lent past the used part */
    SPARE = 4,        /* those, and the canaries past the lent buffer */
    UNTOUCHED = 0xA5, /* every byte of a buffer before a call */
    BIAS = 15234,
    UNREACHABLE = 32767
};

static const uint8_t OPEN_MAP[CELLS] = {1, 1, 1, 1, 1, 1, 1, 1, 1, 1, 1, 1, 1, 1, 1};
static const uint8_t BYTE_2[CELLS] = {1, 1, 1, 1, 1, 1, 1, 1, 1, 1, 1, 1, 1, 1, 2};
static const int32_t TWICE[4 * MOST] = {16, 8, 24, 16, 16, 8, 24, 16};
static const int32_t SECOND_BAD[4 * MOST] = {16, 8, 24, 16, 16, 8, 41, 16};
static const uint32_t RING_CELLS[RING] = {1, 2, 3, 6, 8, 11, 12, 13};
static const int16_t HALF_COSTS[HEIGHT][WIDTH] = {
    {500, 0, 0, 0, 500},
    {500, 0, 500, 0, 500},
    {500, 0, 0, 0, 500},
};
static const uint8_t FLAGS[HEIGHT][WIDTH] = {
    {17, 25, 25, 25, 9},
    {21, 31, 31, 31, 11},
    {5, 7, 7, 7, 3},
};
static const int32_t MANY_NUMBERS[4 * 513];
static const uint32_t MANY_ENDS[513];

static unsigned compared;
static unsigned differences;

/* ---- comparing */

static unsigned long entry(const void *entries, size_t size, size_t index) {
    uint16_t two;
    uint32_t four;
    if (size == sizeof two) {
        memcpy(&two, (const uint16_t *)entries + index, size);
        return two;
    }
    if (size == sizeof four) {
        memcpy(&four, (const uint32_t *)entries + index, size);
        return four;
    }
    return ((const uint8_t *)entries)[index];
}

static void same_number(const char *call, const char *what, unsigned long got, unsigned long want) {
    compared++;
    if (got != want) {
        differences++;
        printf("%s: %s is %lu, not %lu\n", call, what, got, want);
    }
}

static void same_entries(const char *call, const char *what, const void *got, const void *want, size_t size, size_t count) {
    for (size_t i = 0; i < count; i++) {
        compared++;
        if (entry(got, size, i) != entry(want, size, i)) {
            differences++;
            printf("%s: %s[%lu] is %lu, not %lu\n", call, what, (unsigned long)i, entry(got, size, i), entry(want, size, i));
        }
    }
}

/* every entry of an array that is a member of two structs */
#define SAME(call, got, want, member) \
    same_entries(call, #member, (got)->member, (want)->member, sizeof(got)->member[0], sizeof(got)->member / sizeof(got)->member[0])

static void same_count(const char *call, struct cerandool_count_answer got, struct cerandool_count_answer want) {
    same_number(call, "number", got.number, want.number);
    same_number(call, "place", got.place, want.place);
    same_number(call, "count", got.count, want.count);
}

static struct cerandool_count_answer counted(uint32_t count) {
    struct cerandool_count_answer answer = {0, 0, 0};
    answer.count = count;
    return answer;
}

static struct cerandool_count_answer refused(uint32_t number, uint32_t place) {
    struct cerandool_count_answer answer = {0, 0, 0};
    answer.number = number;
    answer.place = place;
    return answer;
}

/* ---- the field call */

enum { LANE_VALUES, WALK, FLAG_BYTES, ROWS, VERSIONS, PULLED_DOWN, PULLED_UP, FIELD_BUFFERS };

struct field_buffers {
    int16_t lane_values[PADDED * LANES + SPARE];
    uint8_t walk[PADDED + SPARE];
    uint8_t flags[PADDED + SPARE];
    uint16_t rows[2 * HEIGHT + SPARE];
    uint32_t versions[PADDED_ROWS + SPARE];
    uint32_t pulled_down[PADDED_ROWS + SPARE];
    uint32_t pulled_up[PADDED_ROWS + SPARE];
};

static const size_t FIELD_NEEDS[FIELD_BUFFERS] = {PADDED * LANES, PADDED, PADDED, 2 * HEIGHT, PADDED_ROWS, PADDED_ROWS, PADDED_ROWS};

struct field_input {
    uint32_t width, height;
    const uint8_t *cells;
    size_t cells_length;
    uint32_t lanes;
    size_t blockers_length;
    const int32_t *resources;
    size_t resources_length;
    int32_t left, top, right, bottom;
    size_t lengths[FIELD_BUFFERS];
};

static struct field_input field_given(void) {
    struct field_input in = {WIDTH, HEIGHT, OPEN_MAP, CELLS, LANES, 0, TWICE, 4, 0, 0, 4, 0, {0}};
    for (int i = 0; i < FIELD_BUFFERS; i++) {
        in.lengths[i] = FIELD_NEEDS[i] + LENT_SPARE;
    }
    return in;
}

static void field_call(const char *call, struct field_input in, struct cerandool_field_answer want, const struct field_buffers *after) {
    struct field_buffers b;
    memset(&b, UNTOUCHED, sizeof b);
    struct cerandool_field_answer got = cerandool_field(
        in.width, in.height, in.cells, in.cells_length, in.lanes, MANY_NUMBERS, in.blockers_length, in.resources,
        in.resources_length, in.left, in.top, in.right, in.bottom, b.lane_values, in.lengths[LANE_VALUES], b.walk,
        in.lengths[WALK], b.flags, in.lengths[FLAG_BYTES], b.rows, in.lengths[ROWS], b.versions, in.lengths[VERSIONS],
        b.pulled_down, in.lengths[PULLED_DOWN], b.pulled_up, in.lengths[PULLED_UP]);
    same_number(call, "number", got.number, want.number);
    same_number(call, "place", got.place, want.place);
    same_number(call, "left", got.left, want.left);
    same_number(call, "top", got.top, want.top);
    same_number(call, "width", got.width, want.width);
    same_number(call, "height", got.height, want.height);
    same_number(call, "lanes", got.lanes, want.lanes);
    same_number(call, "sweeps", got.sweeps, want.sweeps);
    SAME(call, &b, after, lane_values);
    SAME(call, &b, after, walk);
    SAME(call, &b, after, flags);
    SAME(call, &b, after, rows);
    SAME(call, &b, after, versions);
    SAME(call, &b, after, pulled_down);
    SAME(call, &b, after, pulled_up);
}

static void field_refused(const char *call, struct field_input in, uint32_t number, uint32_t place) {
    struct cerandool_field_answer want = {0, 0, 0, 0, 0, 0, 0, 0};
    struct field_buffers untouched;
    want.number = number;
    want.place = place;
    memset(&untouched, UNTOUCHED, sizeof untouched);
    field_call(call, in, want, &untouched);
}

static void field_made(void) {
    const struct cerandool_field_answer want = {0, 0, 0, 0, WIDTH, HEIGHT, LANES, 2};
    struct field_buffers after;
    memset(&after, UNTOUCHED, sizeof after);
    for (int i = 0; i < PADDED * LANES; i++) {
        after.lane_values[i] = UNREACHABLE;
    }
    memset(after.walk, 0, PADDED);
    memset(after.flags, 0, PADDED);
    for (int y = 0; y < HEIGHT; y++) {
        for (int x = 0; x < WIDTH; x++) {
            int cell = (y + 1) * PADDED_WIDTH + x + 1;
            after.lane_values[cell * LANES] = (int16_t)(HALF_COSTS[y][x] - BIAS);
            after.walk[cell] = 1;
            after.flags[cell] = FLAGS[y][x];
        }
        after.rows[2 * y] = 1;
        after.rows[2 * y + 1] = WIDTH + 1;
    }
    memset(after.versions, 0, PADDED_ROWS * sizeof after.versions[0]);
    memset(after.pulled_down, 0, PADDED_ROWS * sizeof after.pulled_down[0]);
    memset(after.pulled_up, 0, PADDED_ROWS * sizeof after.pulled_up[0]);
    field_call("field", field_given(), want, &after);
}

static void field_nothing(void) {
    const struct cerandool_field_answer want = {0, 0, 0, 0, 0, 0, LANES, 0};
    struct field_input in = field_given();
    struct field_buffers untouched;
    in.resources_length = 0;
    memset(in.lengths, 0, sizeof in.lengths);
    memset(&untouched, UNTOUCHED, sizeof untouched);
    field_call("field of no resources", in, want, &untouched);
}

static void field_refusals(void) {
    struct field_input in = field_given();
    in.width = WIDTH + 1;
    field_refused("field, 6 columns of 15 bytes", in, 1, 0);
    in = field_given();
    in.cells = BYTE_2;
    field_refused("field, a byte 2", in, 1, 0);
    in = field_given();
    in.lanes = 9;
    field_refused("field, 9 lanes", in, 2, 0);
    in = field_given();
    in.resources_length = 3;
    field_refused("field, 3 resource numbers", in, 3, 0);
    in = field_given();
    in.resources = MANY_NUMBERS;
    in.resources_length = 4 * 9;
    field_refused("field, 9 resources", in, 3, 0);
    in = field_given();
    in.resources = SECOND_BAD;
    in.resources_length = 8;
    field_refused("field, bad second resource", in, 4, 1);
    in = field_given();
    in.blockers_length = 3;
    field_refused("field, 3 blocker numbers", in, 5, 0);
    in = field_given();
    in.right = WIDTH;
    field_refused("field, targets past the map", in, 6, 0);
    in = field_given();
    in.bottom = -1;
    field_refused("field, no targets", in, 6, 0);
    for (int i = 0; i < FIELD_BUFFERS; i++) {
        in = field_given();
        in.lengths[i] = FIELD_NEEDS[i] - 1;
        field_refused("field, a short buffer", in, 7, 0);
    }
}

/* ---- reading a cell */

static void read_cell(const char *call, uint32_t lanes, size_t lent, uint32_t x, uint32_t y, size_t start, size_t length) {
    static const int16_t lane_values[PADDED * LANES];
    struct cerandool_part part = cerandool_at(0, 0, WIDTH, HEIGHT, lanes, lane_values, lent, x, y);
    same_number(call, "start", (unsigned long)part.start, (unsigned long)start);
    same_number(call, "length", (unsigned long)part.length, (unsigned long)length);
}

static void reading(void) {
    for (uint32_t y = 0; y < HEIGHT; y++) {
        for (uint32_t x = 0; x < WIDTH; x++) {
            read_cell("at", LANES, PADDED * LANES, x, y, ((y + 1) * PADDED_WIDTH + x + 1) * LANES, LANES);
        }
    }
    read_cell("at, past the last column", LANES, PADDED * LANES, WIDTH, 0, 0, 0);
    read_cell("at, past the last row", LANES, PADDED * LANES, 0, HEIGHT, 0, 0);
    read_cell("at, fewer lanes than the record names", LANES, PADDED * LANES - 1, 0, 0, 0, 0);
    read_cell("at, 9 lanes", 9, PADDED * LANES, 0, 0, 0, 0);
}

/* ---- access of a rectangle */

struct access_buffer {
    uint32_t out[RING + SPARE];
};

struct access_input {
    uint32_t width, height;
    const uint8_t *cells;
    size_t cells_length;
    int32_t left, top, right, bottom;
    size_t out_length;
};

static struct access_input access_given(void) {
    struct access_input in = {WIDTH, HEIGHT, OPEN_MAP, CELLS, 16, 8, 24, 16, RING + LENT_SPARE};
    return in;
}

static void access_call(const char *call, struct access_input in, struct cerandool_count_answer want, const struct access_buffer *after) {
    struct access_buffer b;
    memset(&b, UNTOUCHED, sizeof b);
    same_count(
        call,
        cerandool_access(
            in.width, in.height, in.cells, in.cells_length, in.left, in.top, in.right, in.bottom, b.out, in.out_length),
        want);
    SAME(call, &b, after, out);
}

static void access_refused(const char *call, struct access_input in, uint32_t number) {
    struct access_buffer untouched;
    memset(&untouched, UNTOUCHED, sizeof untouched);
    access_call(call, in, refused(number, 0), &untouched);
}

static void access_of_one(void) {
    struct access_input in = access_given();
    struct access_buffer after;
    memset(&after, UNTOUCHED, sizeof after);
    memcpy(after.out, RING_CELLS, sizeof RING_CELLS);
    access_call("access", in, counted(RING), &after);
    in.cells_length = CELLS - 1;
    access_refused("access, 14 bytes", in, 1);
    in = access_given();
    in.right = 8 * WIDTH + 1;
    access_refused("access, past the map", in, 4);
    in = access_given();
    in.top = in.bottom;
    access_refused("access, an empty rectangle", in, 4);
    in = access_given();
    in.out_length = RING - 1;
    access_refused("access, a short buffer", in, 7);
}

/* ---- access of many rectangles */

struct lists_buffers {
    uint32_t indices[MOST * RING + SPARE];
    uint32_t ends[MOST + SPARE];
};

struct lists_input {
    uint32_t width, height;
    const uint8_t *cells;
    size_t cells_length;
    const int32_t *rectangles;
    size_t rectangles_length;
    size_t indices_length, ends_length;
};

static struct lists_input lists_given(size_t resources) {
    struct lists_input in = {WIDTH, HEIGHT, OPEN_MAP, CELLS, TWICE, 0, 0, 0};
    in.rectangles_length = 4 * resources;
    in.indices_length = RING * resources + LENT_SPARE;
    in.ends_length = resources + LENT_SPARE;
    return in;
}

/* the lists of the resource, taken so many times */
static void lists_made(struct lists_buffers *after, size_t resources) {
    memset(after, UNTOUCHED, sizeof *after);
    for (size_t r = 0; r < resources; r++) {
        memcpy(after->indices + RING * r, RING_CELLS, sizeof RING_CELLS);
        after->ends[r] = (uint32_t)(RING * (r + 1));
    }
}

static void lists_call(const char *call, struct lists_input in, struct cerandool_count_answer want, const struct lists_buffers *after) {
    struct lists_buffers b;
    memset(&b, UNTOUCHED, sizeof b);
    same_count(
        call,
        cerandool_access_lists(
            in.width, in.height, in.cells, in.cells_length, in.rectangles, in.rectangles_length, b.indices,
            in.indices_length, b.ends, in.ends_length),
        want);
    SAME(call, &b, after, indices);
    SAME(call, &b, after, ends);
}

static void lists_refused(const char *call, struct lists_input in, uint32_t number, uint32_t place) {
    struct lists_buffers untouched;
    memset(&untouched, UNTOUCHED, sizeof untouched);
    lists_call(call, in, refused(number, place), &untouched);
}

static void access_of_many(void) {
    struct lists_input in;
    struct lists_buffers after;
    for (size_t n = 0; n <= MOST; n++) {
        lists_made(&after, n);
        lists_call("access lists", lists_given(n), counted((uint32_t)(RING * n)), &after);
    }
    in = lists_given(MOST);
    in.height = HEIGHT + 1;
    lists_refused("access lists, 4 rows of 15 bytes", in, 1, 0);
    in = lists_given(MOST);
    in.rectangles_length = 7;
    lists_refused("access lists, 7 numbers", in, 3, 0);
    in = lists_given(MOST);
    in.rectangles = MANY_NUMBERS;
    in.rectangles_length = 4 * 513;
    lists_refused("access lists, 513 rectangles", in, 3, 0);
    in = lists_given(MOST);
    in.rectangles = SECOND_BAD;
    lists_refused("access lists, bad second rectangle", in, 4, 1);
    in = lists_given(MOST);
    in.indices_length = MOST * RING - 1;
    lists_refused("access lists, short indices", in, 7, 0);
    in = lists_given(MOST);
    in.ends_length = MOST - 1;
    lists_refused("access lists, short ends", in, 7, 0);
}

/* ---- the fields call */

enum { STATES, QUEUE, PARENTS, RANKS, ANSWERS, FIELDS_BUFFERS };

struct fields_buffers {
    uint16_t states[CELLS + SPARE];
    uint32_t queue[CELLS + SPARE];
    uint16_t parents[MOST + SPARE];
    uint8_t ranks[MOST + SPARE];
    uint16_t answers[MOST + SPARE];
};

struct fields_input {
    uint32_t width, height;
    const uint8_t *cells;
    size_t cells_length;
    struct lists_buffers lists;
    size_t indices_length;
    const uint32_t *ends; /* those of the lists, where null */
    size_t ends_length;
    size_t lengths[FIELDS_BUFFERS];
};

static size_t fields_need(int buffer, size_t resources) {
    return buffer <= QUEUE ? CELLS : resources;
}

static struct fields_input fields_given(size_t resources) {
    struct fields_input in;
    in.width = WIDTH;
    in.height = HEIGHT;
    in.cells = OPEN_MAP;
    in.cells_length = CELLS;
    lists_made(&in.lists, resources);
    in.indices_length = RING * resources;
    in.ends = NULL;
    in.ends_length = resources;
    for (int i = 0; i < FIELDS_BUFFERS; i++) {
        in.lengths[i] = fields_need(i, resources) + LENT_SPARE;
    }
    return in;
}

static void fields_call(const char *call, struct fields_input in, struct cerandool_count_answer want, const struct fields_buffers *after) {
    struct fields_buffers b;
    memset(&b, UNTOUCHED, sizeof b);
    same_count(
        call,
        cerandool_fields(
            in.width, in.height, in.cells, in.cells_length, in.lists.indices, in.indices_length,
            in.ends == NULL ? in.lists.ends : in.ends, in.ends_length, b.states, in.lengths[STATES], b.queue,
            in.lengths[QUEUE], b.parents, in.lengths[PARENTS], b.ranks, in.lengths[RANKS], b.answers,
            in.lengths[ANSWERS]),
        want);
    SAME(call, &b, after, states);
    SAME(call, &b, after, queue);
    SAME(call, &b, after, parents);
    SAME(call, &b, after, ranks);
    SAME(call, &b, after, answers);
}

static void fields_refused(const char *call, struct fields_input in, uint32_t number) {
    struct fields_buffers untouched;
    memset(&untouched, UNTOUCHED, sizeof untouched);
    fields_call(call, in, refused(number, 0), &untouched);
}

static void fields_joined(void) {
    for (size_t n = 0; n <= MOST; n++) {
        struct fields_buffers after;
        memset(&after, UNTOUCHED, sizeof after);
        memset(after.states, 0, CELLS * sizeof after.states[0]);
        memset(after.queue, 0, CELLS * sizeof after.queue[0]);
        memset(after.parents, 0, n * sizeof after.parents[0]);
        memset(after.ranks, 0, n * sizeof after.ranks[0]);
        memset(after.answers, 0, n * sizeof after.answers[0]);
        fields_call("fields", fields_given(n), counted(n == 0 ? 0 : 1), &after);
    }
}

static void fields_refusals(void) {
    struct fields_input in = fields_given(MOST);
    in.width = 0;
    fields_refused("fields, no columns", in, 1);
    in = fields_given(MOST);
    in.ends = MANY_ENDS;
    in.ends_length = 513;
    fields_refused("fields, 513 resources", in, 3);
    in = fields_given(MOST);
    in.lists.ends[0] = MOST * RING + 1;
    fields_refused("fields, ends that fall", in, 8);
    in = fields_given(MOST);
    in.indices_length = MOST * RING - 1;
    fields_refused("fields, an end past the indices", in, 8);
    in = fields_given(MOST);
    in.lists.indices[3] = CELLS;
    fields_refused("fields, an index past the cells", in, 8);
    in = fields_given(0);
    in.indices_length = 1;
    in.lists.indices[0] = 0;
    fields_refused("fields, an index of no resource", in, 8);
    for (int i = 0; i < FIELDS_BUFFERS; i++) {
        in = fields_given(MOST);
        in.lengths[i] = fields_need(i, MOST) - 1;
        fields_refused("fields, a short buffer", in, 7);
    }
}

/* document 01's room text, its sheet, and a buffer that is longer, just long enough, or too short */
static const char ROOM[] = "3\n.....\n.....\n.....\n0\n1\n16 8 24 16\n1\n0 0 4 0\n";
static const char SHEET[] = "window 0 0 5 3\nsweeps 2\ncells 5\n0 0 500\n1 0 0\n2 0 0\n3 0 0\n4 0 500\ngroups 1\n0\n";

static void sheet_call(const char *call, const char *text, const char *want, size_t lent) {
    uint8_t got[256], after[256];
    size_t length = strlen(want);
    size_t written = lent < length ? 0 : length;
    memset(got, 0xA5, sizeof got);
    memset(after, 0xA5, sizeof after);
    memcpy(after, want, written);
    same_number(call, "length", cerandool_sheet((const uint8_t *)text, strlen(text), got, lent), written);
    same_entries(call, "out", got, after, 1, sizeof got);
}

static void sheets(void) {
    size_t length = strlen(SHEET);
    sheet_call("sheet", ROOM, SHEET, 200);
    sheet_call("sheet, just long enough", ROOM, SHEET, length);
    sheet_call("sheet, too short", ROOM, SHEET, length - 1);
    sheet_call("sheet, nothing lent", ROOM, SHEET, 0);
    sheet_call("sheet, no text", "", "refused 9 1\n", 200);
    sheet_call("sheet, a bad resource", "1\n.\n0\n1\n0 0 9 8\n1\n0 0 0 0\n", "refused 4 0\n", 200);
    sheet_call("sheet, a bad target box", "1\n.\n0\n0\n1\n0 0 1 0\n", "refused 6 0\n", 200);
}

int main(void) {
    field_made();
    field_nothing();
    field_refusals();
    reading();
    access_of_one();
    access_of_many();
    fields_joined();
    fields_refusals();
    sheets();
    if (differences != 0) {
        printf("%u of %u numbers differ\n", differences, compared);
        return 1;
    }
    printf("%u numbers of the six exports are document 01's\n", compared);
    return 0;
}
