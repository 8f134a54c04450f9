/* The MPEG-1 video decoder of crates/mpeg1 for C; `hosts/archive mpeg1` writes the library, target/staticlib/libmpeg1.a.

   No call keeps anything. The host owns all memory: the stream, the store and the record. Between the calls for one stream the host leaves
   these as they are. A program that has its record in a struct mpeg1_record passes its address to the functions of the second part of this
   file; those of the first part are the library's own, and take each part of a record by itself. */
#ifndef MPEG1_H
#define MPEG1_H
#include <stddef.h>
#include <stdint.h>

#ifdef __cplusplus
extern "C" {
#endif

/* The calls of the library. Each part of memory is a pointer, which is not null, and a count of elements. Parts that a call may write overlap
   no other part of the call. A record is four parts: numbers, integers, matrices and clock. Elements behind a record are not touched. */

/* The version that this file declares, and that of the library. A library of a later version may have a longer record, tell more of a picture
   and have more calls; what this file declares of it holds. */
#define MPEG1_VERSION 1
uint32_t mpeg1_version(void);

/* Elements of the four parts. */
size_t mpeg1_record_numbers(void);
size_t mpeg1_record_integers(void);
size_t mpeg1_record_matrices(void);
size_t mpeg1_record_floats(void);

/* How many numbers a hand-out tells of a picture, and their places: the number of its store. A later library may tell more. */
size_t mpeg1_picture_numbers(void);
enum { MPEG1_STORE };

/* Bytes that the store needs for pictures of this size; 0 where a size is 0 or above 4095, the largest that a stream can name. */
size_t mpeg1_store_bytes(size_t width, size_t height);

/* Opens a stream and writes its record, in every case but 2.
   0: ready, and the store is cleared. Else: 1 the stream has more than 16777216 bytes; 2 a part of the record is too short, and nothing is
   written; 3 no sequence header; 4 fewer than 136 bytes are left behind its start code; 5 width or height is 0; 6 the store is too short. */
uint32_t mpeg1_open(const uint8_t *stream, size_t stream_bytes, uint8_t *store, size_t store_bytes,
                    size_t *numbers, size_t numbers_count, int32_t *integers, size_t integers_count,
                    uint8_t *matrices, size_t matrices_count, double *clock, size_t clock_count);

/* Hands out the next picture.
   0: a picture. picture[MPEG1_STORE] is the number of its store, for mpeg1_plane_start and mpeg1_write_rgb_scaled, and *time its time in
   seconds; both hold until the next call. Else picture and *time are left as they are: 1 the stream has more than 16777216 bytes; 2 a part of
   the record or picture is too short, or they hold no record; 3 to 6 as in mpeg1_open, while no header is accepted; 7 no further picture; 8 a
   DC value outside -256..255, with which the Rust goes on, and 9 a prediction that reaches out of its plane: the record is stopped for good.
   1, 2, 6, and 8 or 9 of a record that was stopped before change nothing. 3 to 5 leave the store as it is. Where the memory holds numbers that are no possible
   record (2), the store is too short (6) or the record is stopped, the record is written again with the values that it has: a float of the clock that is
   a NaN, which only a record made by hand has, is a NaN then, and nothing is promised of its bits. */
uint32_t mpeg1_decode(const uint8_t *stream, size_t stream_bytes, uint8_t *store, size_t store_bytes,
                      size_t *numbers, size_t numbers_count, int32_t *integers, size_t integers_count,
                      uint8_t *matrices, size_t matrices_count, double *clock, size_t clock_count,
                      size_t *picture, size_t picture_count, double *time);

/* Opens a stream and hands out all its pictures, with no record: how many are there, and by which number does it end? This one is in a library of its own,
   target/staticlib/libcount.a, which `hosts/archive count` writes.
   *pictures is how many were handed out, in every case. The answer is the first number that opening or a hand-out gives: 7 where all pictures
   were handed out; 1 and 3 to 6 as in mpeg1_open, with no picture; 8 and 9 as in mpeg1_decode. The store is left as those calls leave it. */
uint32_t mpeg1_count(const uint8_t *stream, size_t stream_bytes, uint8_t *store, size_t store_bytes, size_t *pictures);

/* Writes the picture in store `index`, scaled, as width x height pixels 0xFFRRGGBB, row by row. The clock is not asked for.
   0: written. Else nothing is: 2 a part of the record is too short, or they hold no record; 6 the store is too short; 10 no header is
   accepted, or index is above 2; 11 a size is above 4096, or the area has fewer than width x height elements. */
uint32_t mpeg1_write_rgb_scaled(const uint8_t *store, size_t store_bytes, const size_t *numbers, size_t numbers_count,
                                const int32_t *integers, size_t integers_count, const uint8_t *matrices, size_t matrices_count,
                                size_t index, uint32_t *area, size_t area_count, size_t width, size_t height);

/* What a host reads of a record; 0 where numbers is too short, or holds no possible value of what is read. */

/* Size of the pictures; 0 where none is read yet. */
size_t mpeg1_width(const size_t *numbers, size_t numbers_count);
size_t mpeg1_height(const size_t *numbers, size_t numbers_count);

/* The type read last: 1 I, 2 P, 3 B. */
uint32_t mpeg1_picture_type(const size_t *numbers, size_t numbers_count);

/* Whole bytes of the stream that are read, for the progress of a long run. */
size_t mpeg1_position(const size_t *numbers, size_t numbers_count);

/* Plane 0 is Y, 1 Cr, 2 Cb: the bytes of a row, the bytes of the plane, and where the plane of store `index` begins in the store.
   0 for another plane or index. */
size_t mpeg1_row_bytes(const size_t *numbers, size_t numbers_count, size_t plane);
size_t mpeg1_plane_bytes(const size_t *numbers, size_t numbers_count, size_t plane);
size_t mpeg1_plane_start(const size_t *numbers, size_t numbers_count, size_t index, size_t plane);

/* Pictures a second, and height of a pixel over its width; 0 where clock is too short, no header is accepted or the stream gives none. */
double mpeg1_frame_rate(const double *clock, size_t clock_count);
double mpeg1_pixel_aspect_ratio(const double *clock, size_t clock_count);

/* A record in one piece. It is plain data: a copy of it and of the store is a decoder that goes on from the same place. With a library whose
   record is longer in one of the parts, opening answers 2 and touches nothing. */
typedef struct mpeg1_record {
    size_t numbers[21];
    int32_t integers[73];
    uint8_t matrices[128];
    double clock[4];
} mpeg1_record;

/* What is told of a picture, in one piece: numbers, with the places above, and its time in seconds. */
typedef struct mpeg1_picture {
    size_t numbers[1];
    double time;
} mpeg1_picture;

#define MPEG1_COUNT(part) (sizeof(part) / sizeof *(part))

/* The same calls on such a record; what each answers is said above. */

static inline uint32_t mpeg1_record_open(mpeg1_record *r, const uint8_t *stream, size_t stream_bytes, uint8_t *store, size_t store_bytes)
{
    return mpeg1_open(stream, stream_bytes, store, store_bytes, r->numbers, MPEG1_COUNT(r->numbers), r->integers, MPEG1_COUNT(r->integers),
                      r->matrices, MPEG1_COUNT(r->matrices), r->clock, MPEG1_COUNT(r->clock));
}

static inline uint32_t mpeg1_record_decode(mpeg1_record *r, const uint8_t *stream, size_t stream_bytes, uint8_t *store, size_t store_bytes,
                                           mpeg1_picture *p)
{
    return mpeg1_decode(stream, stream_bytes, store, store_bytes, r->numbers, MPEG1_COUNT(r->numbers), r->integers, MPEG1_COUNT(r->integers),
                        r->matrices, MPEG1_COUNT(r->matrices), r->clock, MPEG1_COUNT(r->clock), p->numbers, MPEG1_COUNT(p->numbers), &p->time);
}

static inline uint32_t mpeg1_record_write_rgb_scaled(const mpeg1_record *r, const uint8_t *store, size_t store_bytes, size_t index,
                                                     uint32_t *area, size_t area_count, size_t width, size_t height)
{
    return mpeg1_write_rgb_scaled(store, store_bytes, r->numbers, MPEG1_COUNT(r->numbers), r->integers, MPEG1_COUNT(r->integers),
                                  r->matrices, MPEG1_COUNT(r->matrices), index, area, area_count, width, height);
}

static inline size_t mpeg1_record_width(const mpeg1_record *r) { return mpeg1_width(r->numbers, MPEG1_COUNT(r->numbers)); }
static inline size_t mpeg1_record_height(const mpeg1_record *r) { return mpeg1_height(r->numbers, MPEG1_COUNT(r->numbers)); }
static inline uint32_t mpeg1_record_picture_type(const mpeg1_record *r) { return mpeg1_picture_type(r->numbers, MPEG1_COUNT(r->numbers)); }
static inline size_t mpeg1_record_position(const mpeg1_record *r) { return mpeg1_position(r->numbers, MPEG1_COUNT(r->numbers)); }
static inline double mpeg1_record_frame_rate(const mpeg1_record *r) { return mpeg1_frame_rate(r->clock, MPEG1_COUNT(r->clock)); }
static inline double mpeg1_record_pixel_aspect_ratio(const mpeg1_record *r) { return mpeg1_pixel_aspect_ratio(r->clock, MPEG1_COUNT(r->clock)); }

static inline size_t mpeg1_record_row_bytes(const mpeg1_record *r, size_t plane)
{
    return mpeg1_row_bytes(r->numbers, MPEG1_COUNT(r->numbers), plane);
}

static inline size_t mpeg1_record_plane_bytes(const mpeg1_record *r, size_t plane)
{
    return mpeg1_plane_bytes(r->numbers, MPEG1_COUNT(r->numbers), plane);
}

static inline size_t mpeg1_record_plane_start(const mpeg1_record *r, size_t index, size_t plane)
{
    return mpeg1_plane_start(r->numbers, MPEG1_COUNT(r->numbers), index, plane);
}

#ifdef __cplusplus
}
#endif
#endif
