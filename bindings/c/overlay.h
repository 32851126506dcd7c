/* The string overlay for C, C++ and whatever reads C headers. Link with liboverlay.a, which
   `tools/build overlay` puts into target/staticlib.

   A drawing is a list of segments, seven numbers each: ax, ay, bx, by, winding, line bits, lot. Point a
   is less than b, by x and then y, and the segments come in order of their a. The winding is positive
   where the outline runs from a to b. Line bit 1 is a line drawn from a to b, bit 2 one from b to a.
   The lot is that of the flour, 0 for none; no answer depends on it.

   Any numbers may be passed. What is refused, tried in this order; a place is that of a segment,
   from 0, and 0 where none is named:
      2  the length is no multiple of seven, or there are over 1,024 segments
     10  an unknown choice
     11  a lent list is too short
      3  a coordinate is not from -16,777,216 to 16,777,216 (place)
      4  a is not less than b (place)
      5  the winding is not from -1,000 to 1,000 (place)
      6  the line bits are not from 0 to 3 (place)
     13  the lot is not from 0 to 9,999 (place)
      7  a is less than the previous segment's a (place)
      8  two segments meet wrongly (place: the lower one's)
      9  the drawing does not balance (place: the lowest segment touching an unbalanced point)
     14  a lot is not 0, and would be lost on the way to the old form (place: the lowest such segment's)
     12  a slice walk finds no move
   3 to 7 and 13 are tried segment by segment, within one in the order above. overlay_split takes points
   instead of a drawing, and refuses by 2, 11 and 3 only; overlay_read takes a text, and refuses by 1
   and 11 only; where a text is written or moved 11 comes last, after 9 and 14, and where it is moved 1
   comes first: as said there.

   A list is passed as a pointer and its number of entries. No pointer may be NULL, not even for a list
   of no entries: pass the address of anything. Lists of one call must not overlap. Entries past the
   answer keep their values, and after a refusal all do. In what is returned, number and place are 0 on
   success; on a refusal they say which and where, and all counts are 0.

   The rule is 0 even-odd, 1 nonzero, 2 positive or 3 negative.

   Nothing is allocated. A call with up to 128 segments needs up to 26 KB of stack for fills, 29 KB for a
   clip, 73 KB for a slice, 24 KB to write a text and 76 KB to move one; with more, 54 KB, 57 KB, 78 KB,
   52 KB and 104 KB. A split needs up to 45 KB, a reading up to 1 KB. (A KB is 1,024 bytes.) Calls share
   nothing but what they are passed, so any number of threads may call at once, each with lists of its
   own. */

#ifndef OVERLAY_H
#define OVERLAY_H

#include <stddef.h>
#include <stdint.h>

#ifdef __cplusplus
extern "C" {
#endif

/* How many numbers a segment has. */
#define OVERLAY_WIDTH 7

/* How many bytes a text has at most: a list of so many is long enough for any that is written. */
#define OVERLAY_TEXT_MOST 65536

struct overlay_filled {
    uint64_t number; /* the refusal's, 0 on success */
    uint64_t place;  /* the refusal's, 0 on success */
    uint64_t count;  /* of fills written */
};

/* The fill of each of the n segments: 1 if its top is filled, plus 2 if its bottom is, plus 4 times its
   line bits. The bottom is right of a to b, the top left. The list `fills` needs n entries. The count
   is n. */
struct overlay_filled overlay_fills(const int32_t *segments, size_t segments_len, int32_t rule,
                                    uint8_t *fills, size_t fills_len);

/* A step is two neighbouring points of one path; travel is the sum of |dx| + |dy| over the steps. */
struct overlay_clipped {
    uint64_t number; /* the refusal's, 0 on success */
    uint64_t place;  /* the refusal's, 0 on success */
    uint64_t paths;  /* how many */
    uint64_t points; /* of all paths together */
    uint64_t steps;  /* of all paths together */
    uint64_t travel; /* of all paths together */
};

/* The lines inside (invert 0) or outside (invert 1), joined into paths that run as the lines were drawn.
   A line with dough on one side only counts as inside if boundary is 1, as outside if it is 0.
   `points` gets x and y of each point, path by path, and `lengths` how many points each path has. For n
   segments they need 8n and 2n entries. */
struct overlay_clipped overlay_clip(const int32_t *segments, size_t segments_len, int32_t rule,
                                    int32_t invert, int32_t boundary, int32_t *points,
                                    size_t points_len, uint32_t *lengths, size_t lengths_len);

struct overlay_sliced {
    uint64_t number;   /* the refusal's, 0 on success */
    uint64_t place;    /* the refusal's, 0 on success */
    uint64_t contours; /* how many */
    uint64_t points;   /* of all contours together */
};

/* The pieces that all segments, lines too, cut the dough into, as contours in order of making. Outer
   contours run counter-clockwise if direction is 0, clockwise if it is 1; holes run the other way. A
   min_area of 0 takes all contours, any other those whose area, halves left off, is no less.
   `points` gets x and y of each point, contour by contour, `lengths` how many points each contour has
   and `roles` 1 for a hole, 0 otherwise. For n segments they need 4n, 2n and 2n entries. */
struct overlay_sliced overlay_slice(const int32_t *segments, size_t segments_len, int32_t rule,
                                    int32_t direction, uint64_t min_area, int32_t *points,
                                    size_t points_len, uint32_t *lengths, size_t lengths_len,
                                    uint8_t *roles, size_t roles_len);

struct overlay_looped {
    uint64_t number; /* the refusal's, 0 on success */
    uint64_t place;  /* of the point, 0 on success */
    uint64_t loops;  /* how many */
    uint64_t points; /* of all loops together */
};

/* The loops of a closed line of up to 2,048 points, x and y of each: where it comes back to a point, what
   lies between is a loop of its own. Loops of one or two points are dropped, and by min_area as above.
   `out` gets x and y of each point, loop by loop, and `lengths` how many points each loop has. They need
   as many entries as `points`, and one for each point. What is refused, tried in this order:
      2  the length is odd, or there are over 2,048 points
     11  a lent list is too short
      3  a coordinate is not from -16,777,216 to 16,777,216 (place: the point's, from 0) */
struct overlay_looped overlay_split(const int32_t *points, size_t points_len, uint64_t min_area,
                                    int32_t *out, size_t out_len, uint32_t *lengths,
                                    size_t lengths_len);

struct overlay_text {
    uint64_t number;  /* the refusal's, 0 on success */
    uint64_t place;   /* the first bad line, from 1; 0 if none is meant, and on success */
    uint64_t count;   /* of numbers written: OVERLAY_WIDTH for each segment */
    int32_t rule;     /* the first line's numbers, as they stand there: */
    int32_t invert;   /* overlay_clip refuses */
    int32_t boundary; /* an unknown one */
};

/* A comma text read: lines that end in LF, the first with the choices rule, invert and boundary, every
   other one with the seven numbers of a segment, commas between. `numbers` gets the segments' numbers.
   Half as many entries as the text has bytes are always enough. What is refused, tried in this order:
      1  the text has a malformed line (place), or over 65,536 bytes (place 0)
     11  the list is too short for all its numbers */
struct overlay_text overlay_read(const uint8_t *text, size_t text_len, int32_t *numbers,
                                 size_t numbers_len);

struct overlay_written {
    uint64_t number; /* the refusal's, 0 on success */
    uint64_t place;  /* the refusal's (of 1: the first bad line, from 1), 0 on success */
    uint64_t count;  /* of bytes written */
};

/* A drawing and its choices written as a text, the only one that they have: overlay_read yields them
   again. For n segments 53(n + 1) entries of `text` are always enough. What is refused, tried in this
   order:
      2, 10, 3 to 9 with 13, as above
     11  the list is shorter than the text */
struct overlay_written overlay_write(const int32_t *segments, size_t segments_len, int32_t rule,
                                     int32_t invert, int32_t boundary, uint8_t *text, size_t text_len);

/* A text in the old form, where a segment has six numbers and no lot, moved to the new form, that of
   overlay_read, with lot 0 for every segment. `moved` gets the moved text, which has two bytes more for
   each segment. What is refused, tried in this order:
      1  the text has a line malformed in the old form (place), or over 65,536 bytes (place 0)
      2, 10, 3 to 9 with 13, as above
     11  the list is shorter than the moved text */
struct overlay_written overlay_old_to_new(const uint8_t *text, size_t text_len, uint8_t *moved,
                                          size_t moved_len);

/* The way back, to two bytes fewer for each segment. A text that is moved there and back, whichever way
   first, has the bytes that it had. What is refused, tried in this order:
      1  the text has a line malformed in the new form (place), or over 65,536 bytes (place 0)
      2, 10, 3 to 9 with 13, as above
     14  a lot is not 0 (place: the lowest such segment's)
     11  the list is shorter than the moved text */
struct overlay_written overlay_new_to_old(const uint8_t *text, size_t text_len, uint8_t *moved,
                                          size_t moved_len);

#ifdef __cplusplus
}
#endif

#endif
