/* The fills of a square that a line cuts, the line inside and outside of it, the two halves, the loops of a
   line that touches itself, texts that are read and run, written and moved, and refusals:
   cc -Ibindings/c bindings/c/example.c -Ltarget/staticlib -loverlay -o example */

#include "overlay.h"
#include <inttypes.h>
#include <stdio.h>
#include <string.h>

enum { SEGMENTS = 9, NUMBERS = OVERLAY_WIDTH * SEGMENTS, NON_ZERO = 1 };

/* The cut goes through flour of two lots, and at last through flour of none. */
static const int32_t drawing[NUMBERS] = {
    -5, 5,  0,  5,  0,  1, 12, /* the cut, left of the square */
    0,  0,  0,  5,  -1, 0, 0,  /* the square's left, lower half */
    0,  0,  10, 0,  1,  0, 0,  /* its bottom */
    0,  5,  0,  10, -1, 0, 0,  /* its left, upper half */
    0,  5,  10, 5,  0,  1, 7,  /* the cut, inside */
    0,  10, 10, 10, -1, 0, 0,  /* its top */
    10, 0,  10, 5,  1,  0, 0,  /* its right, lower half */
    10, 5,  10, 10, 1,  0, 0,  /* its right, upper half */
    10, 5,  15, 5,  0,  1, 0,  /* the cut, right of the square */
};

static int refused(uint64_t number, uint64_t place) {
    if (number != 0) {
        printf("refused %" PRIu64 " at %" PRIu64 "\n", number, place);
    }
    return number != 0;
}

static void print_fills(size_t numbers) {
    uint8_t fills[SEGMENTS];
    struct overlay_filled filled = overlay_fills(drawing, numbers, NON_ZERO, fills, SEGMENTS);
    if (refused(filled.number, filled.place)) {
        return;
    }
    for (uint64_t i = 0; i < filled.count; i++) {
        printf(i == 0 ? "%d" : " %d", fills[i]);
    }
    printf("\n");
}

/* The points of one path on a line, after which the next path begins. */
static const int32_t *print_path(const int32_t *point, uint32_t length) {
    for (uint32_t k = 0; k < length; k++, point += 2) {
        printf(k == 0 ? "(%" PRId32 ",%" PRId32 ")" : " (%" PRId32 ",%" PRId32 ")", point[0], point[1]);
    }
    printf("\n");
    return point;
}

/* Each path on a line of its own, then the totals. For up to SEGMENTS segments. */
static void print_clip_of(const int32_t *segments, size_t numbers, int32_t rule, int32_t invert,
                          int32_t boundary) {
    int32_t points[8 * SEGMENTS];
    uint32_t lengths[2 * SEGMENTS];
    struct overlay_clipped clipped = overlay_clip(segments, numbers, rule, invert, boundary, points,
                                                  8 * SEGMENTS, lengths, 2 * SEGMENTS);
    if (refused(clipped.number, clipped.place)) {
        return;
    }
    const int32_t *point = points;
    for (uint64_t i = 0; i < clipped.paths; i++) {
        point = print_path(point, lengths[i]);
    }
    printf("%" PRIu64 " paths, %" PRIu64 " points, %" PRIu64 " steps, travel %" PRIu64 "\n", clipped.paths,
           clipped.points, clipped.steps, clipped.travel);
}

static void print_clip(int32_t invert) {
    print_clip_of(drawing, NUMBERS, NON_ZERO, invert, 1);
}

/* The pieces of at least this area, each with its role. */
static void print_slice(int32_t direction, uint64_t min_area) {
    int32_t points[4 * SEGMENTS];
    uint32_t lengths[2 * SEGMENTS];
    uint8_t roles[2 * SEGMENTS];
    struct overlay_sliced sliced =
        overlay_slice(drawing, NUMBERS, NON_ZERO, direction, min_area, points, 4 * SEGMENTS, lengths,
                      2 * SEGMENTS, roles, 2 * SEGMENTS);
    if (refused(sliced.number, sliced.place)) {
        return;
    }
    const int32_t *point = points;
    for (uint64_t i = 0; i < sliced.contours; i++) {
        printf(roles[i] == 1 ? "hole " : "piece ");
        point = print_path(point, lengths[i]);
    }
    printf("%" PRIu64 " contours, %" PRIu64 " points\n", sliced.contours, sliced.points);
}

/* The loops of two triangles that touch at (0,0), with another x for the second point. */
static void print_split(int32_t x) {
    enum { POINTS = 6 };
    int32_t points[2 * POINTS] = {0, 0, x, 0, 4, 4, 0, 0, -4, 0, -4, -4};
    int32_t out[2 * POINTS];
    uint32_t lengths[POINTS];
    struct overlay_looped looped = overlay_split(points, 2 * POINTS, 0, out, 2 * POINTS, lengths, POINTS);
    if (refused(looped.number, looped.place)) {
        return;
    }
    const int32_t *point = out;
    for (uint64_t i = 0; i < looped.loops; i++) {
        point = print_path(point, lengths[i]);
    }
    printf("%" PRIu64 " loops, %" PRIu64 " points\n", looped.loops, looped.points);
}

/* What a text is refused with, in words. */
static const char *told(struct overlay_text read) {
    if (read.number == 11) {
        return "the text has too many segments for this program";
    }
    return read.place == 0 ? "the text has over 65,536 bytes" : "this line is malformed";
}

/* A text of up to SEGMENTS segments read, and the run that it asks for. */
static void print_text(const char *text) {
    int32_t numbers[NUMBERS];
    struct overlay_text read = overlay_read((const uint8_t *)text, strlen(text), numbers, NUMBERS);
    if (refused(read.number, read.place)) {
        printf("%s\n", told(read));
    } else {
        print_clip_of(numbers, read.count, read.rule, read.invert, read.boundary);
    }
}

/* A text written or moved, or why there is none. */
static void print_written(struct overlay_written written, const uint8_t *text) {
    if (!refused(written.number, written.place)) {
        printf("%.*s", (int)written.count, (const char *)text);
    }
}

static void print_old(const uint8_t *text, size_t length) {
    uint8_t old[OVERLAY_TEXT_MOST];
    print_written(overlay_new_to_old(text, length, old, OVERLAY_TEXT_MOST), old);
}

/* A text in the old form, without lots, moved to the new one and back. */
static void print_there_and_back(const char *old) {
    uint8_t text[OVERLAY_TEXT_MOST];
    struct overlay_written moved =
        overlay_old_to_new((const uint8_t *)old, strlen(old), text, OVERLAY_TEXT_MOST);
    print_written(moved, text);
    print_old(text, moved.count);
}

/* The drawing written as a text. In the old form its lots would be lost. */
static void print_drawing(void) {
    uint8_t text[OVERLAY_TEXT_MOST];
    struct overlay_written written =
        overlay_write(drawing, NUMBERS, NON_ZERO, 0, 1, text, OVERLAY_TEXT_MOST);
    print_written(written, text);
    print_old(text, written.count);
}

int main(void) {
    print_fills(NUMBERS);
    print_fills(NUMBERS - 1);
    print_clip(0);
    print_clip(1);
    print_clip(2);
    print_slice(0, 0);
    print_slice(1, 50);
    print_slice(0, 51);
    print_split(4);
    print_split(16777217);
    print_text("1,0,1\n0,0,4,0,1,1,12\n0,0,4,4,-1,2,9999\n4,0,4,4,1,0,0\n");
    print_text("1,0,1\n0,0,4,0,1,1,0\n0,0,4,4,-1;2,0\n");
    print_text("1,0,1\n0,0,4,0,1,1\n");
    print_text("1,0,1\n0,0,2,0,0,1,0\n1,0,1,1,0,1,0\n");
    print_text("1,0,1\n0,0,2,0,0,1,0\n2,0,3,0,0,1,10000\n");
    print_text("7,0,1\n");
    print_text("1,0,1\n0,0,1,0,0,1,0\n1,0,2,0,0,1,0\n2,0,3,0,0,1,0\n3,0,4,0,0,1,0\n4,0,5,0,0,1,0\n"
               "5,0,6,0,0,1,0\n6,0,7,0,0,1,0\n7,0,8,0,0,1,0\n8,0,9,0,0,1,0\n9,0,10,0,0,1,0\n");
    print_there_and_back("1,0,1\n0,0,4,0,1,1\n0,0,4,4,-1,2\n4,0,4,4,1,0\n");
    print_drawing();
    return 0;
}
