/*
 * The static library of crates/cerandool, for C: the field call, reading a cell, the access cells of
 * one rectangle or of many, and fields of resources.
 *
 * Nothing is required of the values: what the table below names is refused, and a made-up window
 * reads a part of the lent lanes or as outside. Of each pointer it is required that it is not null and
 * aligned, that it points at as many entries as the length after it says, and that what is written
 * overlaps nothing else that the call is given.
 *
 * The table of refusals:
 *
 *   1 BAD GRID      size off its limits (1 to 1,024), length not width x height, or a byte above 1
 *   2 LANES         lanes not 8 or 16
 *   3 COUNT         resource numbers not in fours, or more resources than lanes; with no lanes in the
 *                   call, more than 512 resources
 *   4 BAD RESOURCE  not 0 <= left < right <= 8 x width, or the same vertically
 *   5 BLOCKERS      numbers not in fours, or over 4,096 blockers
 *   6 TARGETS       box empty or not in the map
 *   7 SCRATCH       a lent buffer is shorter than needed
 *   8 ACCESS        ends fall, the last end is not the number of indices (with no ends, 0 is not), or an
 *                   index is not a cell's
 *
 * The first that holds decides, in the order that is given for each call. Its place is 0, but for 4 the
 * first such resource, from 0. A refusal writes nothing.
 */
#ifndef CERANDOOL_H
#define CERANDOOL_H

#include <stddef.h>
#include <stdint.h>

#ifdef __cplusplus
extern "C" {
#endif

/*
 * The answer to a field call. Accepted: number and place are 0, and the window, the lanes of a cell
 * and the sweep count follow. Refused: the table's number and place, and the rest is 0.
 */
struct cerandool_field_answer {
    uint32_t number;
    uint32_t place;
    uint32_t left;   /* the window's first column, a cell of the map */
    uint32_t top;    /* the window's first row */
    uint32_t width;  /* the window's columns; 0 with no resources */
    uint32_t height; /* the window's rows; 0 with no resources */
    uint32_t lanes;  /* the lanes of a cell, as in the call */
    uint32_t sweeps; /* the number of plain sweeps run, the quiet one included; 0 with no resources */
};

/* The part of the lent lanes that belongs to a cell. Both are 0 for a cell outside. */
struct cerandool_part {
    size_t start;  /* its first entry */
    size_t length; /* 8 or 16 entries */
};

/*
 * The answer to a call that counts. Accepted: number and place are 0, and the count follows. Refused:
 * the table's number and place, and the count is 0.
 */
struct cerandool_count_answer {
    uint32_t number;
    uint32_t place;
    uint32_t count;
};

/*
 * The field of resources around a target box, on a map of walk cells painted with blockers: each
 * window cell's lane is the least cost of a walk over inside, unblocked cells from an inside,
 * walkable ring cell of the lane's resource, or unreachable if that is above 48,000 or there is none.
 * Refused 1 to 7, in this order.
 *
 * A lane holds the half cost minus 15,234; 32,767 means unreachable. Lanes beyond the resource count
 * are unreachable everywhere.
 *
 * With window W by H and P = (W+2)(H+2), padding of one cell on each side, each buffer needs the
 * length that stands first beside it, and its used part ends as told there. A bit of a move into a
 * cell is set exactly when both side cells of that move are walkable in the window. Entries past the
 * used part stay. With no resources no length is needed of any buffer, and nothing is written.
 */
struct cerandool_field_answer cerandool_field(
    uint32_t width,           /* of the map, in cells */
    uint32_t height,
    const uint8_t *cells,     /* one byte a cell, row by row: 1 walkable and 0 not */
    size_t cells_length,
    uint32_t lanes,           /* of a cell: 8 or 16 */
    const int32_t *blockers,  /* in fours: left, top, right, bottom in pixels, right and bottom exclusive */
    size_t blockers_length,
    const int32_t *resources, /* in fours, as the blockers; the first has the first lane */
    size_t resources_length,
    int32_t left,             /* the target box: cells, inclusive */
    int32_t top,
    int32_t right,
    int32_t bottom,
    int16_t *lane_values,     /* P x lanes: the field, padding unreachable */
    size_t lane_values_length,
    uint8_t *walk,            /* P: the painted map with padding 0 */
    size_t walk_length,
    uint8_t *flags,           /* P: walkable 1, plus 2, 4, 8, 16 for a NW, NE, SW, SE move, padding 0 */
    size_t flags_length,
    uint16_t *rows,           /* 2H: first inside column and one past the last, counted with padding, */
    size_t rows_length,       /*     and both W+1 for an empty row */
    uint32_t *versions,       /* H+2: 0 */
    size_t versions_length,
    uint32_t *pulled_down,    /* H+2: 0 */
    size_t pulled_down_length,
    uint32_t *pulled_up,      /* H+2: 0 */
    size_t pulled_up_length
);

/*
 * Reading a cell: the part of the lent lanes that belongs to the map's cell (x, y), or "outside" for
 * a cell not in the window. A window that names more lanes than the lent buffer holds, or a lane
 * count other than 8 or 16, reads every cell as outside; so does one of over 1,024 columns or rows.
 */
struct cerandool_part cerandool_at(
    uint32_t left, /* the window and its lanes, as a field call gave them back */
    uint32_t top,
    uint32_t width,
    uint32_t height,
    uint32_t lanes,
    const int16_t *lane_values, /* the lanes that were lent to the field call */
    size_t lane_values_length,
    uint32_t x,
    uint32_t y
);

/*
 * Access of a rectangle: the walkable cells of the ring around it, one cell wide, on the map without
 * blockers. Their count is the answer's. Refused 1, 4 or 7, in this order. Entries past the access
 * cells stay.
 */
struct cerandool_count_answer cerandool_access(
    uint32_t width,       /* of the map, in cells */
    uint32_t height,
    const uint8_t *cells, /* one byte a cell, row by row: 1 walkable and 0 not */
    size_t cells_length,
    int32_t left,         /* the rectangle: pixels, right and bottom exclusive */
    int32_t top,
    int32_t right,
    int32_t bottom,
    uint32_t *out,        /* as many as there are access cells: the index of each, y x width + x, */
    size_t out_length     /*     by row, then column */
);

/*
 * Access of many rectangles: the access cells of the first, then of the next, as cerandool_fields takes
 * them. Their count is that of all together. Refused 1, 3, 4 or 7, in this order. Entries past the used
 * parts stay.
 */
struct cerandool_count_answer cerandool_access_lists(
    uint32_t width,            /* of the map, in cells */
    uint32_t height,
    const uint8_t *cells,      /* one byte a cell, row by row: 1 walkable and 0 not */
    size_t cells_length,
    const int32_t *rectangles, /* in fours: left, top, right, bottom in pixels, right and bottom exclusive */
    size_t rectangles_length,
    uint32_t *indices,         /* as many as there are access cells: as cerandool_access lists them */
    size_t indices_length,
    uint32_t *ends,            /* one a rectangle: how many indices there are up to its last one */
    size_t ends_length
);

/*
 * Fields of resources, on the map without blockers: two resources are linked if a walk of at most 32
 * steps, straight or diagonal, joins a walkable access cell of one to one of the other, and fields are
 * the classes under chains of links. The count is that of the fields. Refused 1, 3, 8 or 7, in this
 * order. Entries past the used parts stay.
 */
struct cerandool_count_answer cerandool_fields(
    uint32_t width,          /* of the map, in cells: C = width x height */
    uint32_t height,
    const uint8_t *cells,    /* one byte a cell, row by row: 1 walkable and 0 not */
    size_t cells_length,
    const uint32_t *indices, /* the access cells of the first resource, then of the next */
    size_t indices_length,
    const uint32_t *ends,    /* one a resource: how many indices there are up to its last one */
    size_t ends_length,
    uint16_t *states,        /* C: 0 */
    size_t states_length,
    uint32_t *queue,         /* C: 0 */
    size_t queue_length,
    uint16_t *parents,       /* as many as ends: 0 */
    size_t parents_length,
    uint8_t *ranks,          /* as many as ends: 0 */
    size_t ranks_length,
    uint16_t *answers,       /* as many as ends: the number of each resource's field, */
    size_t answers_length    /*     from 0 by smallest member */
);

/*
 * The sheet of a room text, or the one line of its refusal: the lines that program sheet prints. Gives
 * back how many bytes were written to the start of out; the rest of it stays. 0 where out is too short,
 * and then nothing is written: 200,000 bytes are enough for every text. It takes some 440 KiB of stack.
 */
size_t cerandool_sheet(
    const uint8_t *text,
    size_t text_length,
    uint8_t *out,
    size_t out_length
);

#ifdef __cplusplus
}
#endif

#endif
