/* A test: lists the pictures of streams as tests/streams/pictures.txt does, by the calls on parts of memory and by those on a struct, and puts
   calls that are refused: pictures FILE.. */
#include "mpeg1.h"
#include <inttypes.h>
#include <stdio.h>
#include <stdlib.h>
#include <string.h>

enum { NUMBERS, INTEGERS, MATRICES, CLOCK, PICTURE, PARTS, MORE = 5, AREA = 37 * 29, MOST = 1 << 24 };

/* The record's memory and that for a picture's numbers, with elements behind them in each part. */
static struct memory {
    size_t numbers[21 + MORE];
    int32_t integers[73 + MORE];
    uint8_t matrices[128 + MORE];
    double clock[4 + MORE];
    size_t picture[1 + MORE];
} m, before;
static size_t count[PARTS];

static mpeg1_record record;
static mpeg1_picture picture;
static uint8_t *stream, *store, *other_store;
static size_t bytes, room;
static uint32_t area[AREA], other_area[AREA];

static void expect(int right, const char *what)
{
    if (!right) {
        printf("wrong: %s\n", what);
        exit(1);
    }
}

/* FNV-1a, 64 bits */
static uint64_t checksum(const uint8_t *data, size_t length, uint64_t sum)
{
    for (size_t i = 0; i < length; i++)
        sum = (sum ^ data[i]) * UINT64_C(0x100000001b3);
    return sum;
}

/* The calls on parts of so many elements. */
static uint32_t open_in(const size_t *n)
{
    return mpeg1_open(stream, bytes, store, room, m.numbers, n[NUMBERS], m.integers, n[INTEGERS], m.matrices, n[MATRICES], m.clock, n[CLOCK]);
}

static uint32_t decode_in(const size_t *n, double *time)
{
    return mpeg1_decode(stream, bytes, store, room, m.numbers, n[NUMBERS], m.integers, n[INTEGERS], m.matrices, n[MATRICES], m.clock, n[CLOCK],
                        m.picture, n[PICTURE], time);
}

static uint32_t convert_in(const size_t *n, size_t index, size_t pixels)
{
    return mpeg1_write_rgb_scaled(store, room, m.numbers, n[NUMBERS], m.integers, n[INTEGERS], m.matrices, n[MATRICES], index, area, pixels, 37, 29);
}

static int kept(void)
{
    return !memcmp(&m, &before, sizeof m);
}

/* Each part with an element less: 2, and nothing is written. Opening tells of no picture, and a conversion has no clock. */
static void short_parts(double *time)
{
    memcpy(&before, &m, sizeof m);
    for (size_t part = 0; part < PARTS; part++) {
        size_t n[PARTS];
        memcpy(n, count, sizeof n);
        n[part]--;
        if (part != PICTURE)
            expect(open_in(n) == 2 && kept(), "open, a part is short");
        expect(decode_in(n, time) == 2 && kept(), "decode, a part is short");
        if (part < CLOCK)
            expect(convert_in(n, 0, AREA) == 2, "conversion, a part is short");
    }
    expect(mpeg1_width(m.numbers, count[NUMBERS] - 1) == 0 && mpeg1_position(m.numbers, count[NUMBERS] - 1) == 0, "numbers are short");
    expect(mpeg1_frame_rate(m.clock, count[CLOCK] - 1) == 0, "the clock is short");
}

/* Memory that holds no record, or none that is possible: 2, and nothing is written. */
static void spoilt(double *time)
{
    static const struct { size_t place, value; } numbers[] = {{1, 2}, {2, 4096}, {6, 0}, {7, 8}, {8, 3}, {11, 32}, {12, 2}, {14, 7}, {18, SIZE_MAX},
        {19, SIZE_MAX}, {20, 7}, {7, UINT64_C(1) << 32}, {20, UINT64_C(1) << 32}};
    static const struct { size_t place; int32_t value; } integers[] = {{0, -2}, {1, -2}, {2, 1024}, {5, -1025}, {6, 256}, {9, INT32_MIN}, {72, INT32_MAX}};
    for (size_t i = 0; i < sizeof numbers / sizeof *numbers; i++) {
        size_t was = m.numbers[numbers[i].place];
        m.numbers[numbers[i].place] = numbers[i].value;
        memcpy(&before, &m, sizeof m);
        expect(decode_in(count, time) == 2 && kept() && convert_in(count, 0, AREA) == 2, "a number that no record has");
        expect((mpeg1_width(m.numbers, count[NUMBERS]) == 0) == (numbers[i].place <= 6), "width where a number is not possible");
        m.numbers[numbers[i].place] = was;
    }
    for (size_t i = 0; i < sizeof integers / sizeof *integers; i++) {
        int32_t was = m.integers[integers[i].place];
        m.integers[integers[i].place] = integers[i].value;
        memcpy(&before, &m, sizeof m);
        expect(decode_in(count, time) == 2 && kept() && convert_in(count, 0, AREA) == 2, "an integer that no record has");
        m.integers[integers[i].place] = was;
    }
}

static void refusals(double *time)
{
    short_parts(time);
    spoilt(time);
    expect(convert_in(count, 3, AREA) == 10, "store 3");
    expect(convert_in(count, 0, AREA - 1) == 11, "a small area");
    expect(mpeg1_plane_start(m.numbers, count[NUMBERS], 3, 0) == 0 && mpeg1_row_bytes(m.numbers, count[NUMBERS], 3) == 0, "planes");
}

/* The struct has what the memory has, and its functions give what the calls on parts give. */
static void same(size_t index)
{
    const size_t *n = m.numbers, c = count[NUMBERS];
    const mpeg1_record *r = &record;
    expect(!memcmp(r->numbers, n, sizeof r->numbers) && !memcmp(r->integers, m.integers, sizeof r->integers), "the struct's numbers");
    expect(!memcmp(r->matrices, m.matrices, sizeof r->matrices) && !memcmp(r->clock, m.clock, sizeof r->clock), "the struct's matrices and clock");
    expect(!memcmp(store, other_store, mpeg1_store_bytes(mpeg1_width(n, c), mpeg1_height(n, c))), "the store beside the struct");
    expect(mpeg1_record_width(r) == mpeg1_width(n, c) && mpeg1_record_height(r) == mpeg1_height(n, c), "the struct's sizes");
    expect(mpeg1_record_picture_type(r) == mpeg1_picture_type(n, c) && mpeg1_record_position(r) == mpeg1_position(n, c), "the struct's type and place");
    expect(mpeg1_record_frame_rate(r) == mpeg1_frame_rate(m.clock, 4) && mpeg1_record_pixel_aspect_ratio(r) == mpeg1_pixel_aspect_ratio(m.clock, 4),
           "the struct's rate and aspect");
    for (size_t p = 0; p < 3; p++)
        expect(mpeg1_record_row_bytes(r, p) == mpeg1_row_bytes(n, c, p) && mpeg1_record_plane_bytes(r, p) == mpeg1_plane_bytes(n, c, p)
                   && mpeg1_record_plane_start(r, index, p) == mpeg1_plane_start(n, c, index, p), "the struct's planes");
    expect(convert_in(count, index, AREA) == 0, "conversion");
    expect(mpeg1_record_write_rgb_scaled(r, other_store, room, index, other_area, AREA, 37, 29) == 0, "conversion beside the struct");
    expect(!memcmp(area, other_area, sizeof area), "the area beside the struct");
}

static void print_picture(const char *name, size_t handed, size_t shown, double time)
{
    uint64_t bits, sum = UINT64_C(0xcbf29ce484222325);
    const size_t *n = m.numbers, c = count[NUMBERS];
    memcpy(&bits, &time, sizeof bits);
    for (size_t p = 0; p < 3; p++)
        sum = checksum(store + mpeg1_plane_start(n, c, shown, p), mpeg1_plane_bytes(n, c, p), sum);
    printf("%s %zu %zu %u 0 %016" PRIx64 " %016" PRIx64 "\n", name, handed, shown, mpeg1_picture_type(n, c), bits, sum);
}

static void read_stream(const char *path)
{
    FILE *f = fopen(path, "rb");
    bytes = f ? fread(stream, 1, MOST, f) : 0;
    expect(f && bytes > 0 && fclose(f) == 0, path);
}

static void list(const char *path)
{
    static const size_t longer[PARTS] = {21 + MORE, 73 + MORE, 128 + MORE, 4 + MORE, 1 + MORE};
    const char *name = strrchr(path, '/') ? strrchr(path, '/') + 1 : path;
    size_t handed = 0, counted;
    double time = -1;
    read_stream(path);
    memset(&m, 0x5a, sizeof m);
    uint32_t answer = open_in(longer);
    expect(mpeg1_record_open(&record, stream, bytes, other_store, room) == answer, "the struct's opening");
    same(0);
    refusals(&time);
    while (answer == 0 && (answer = decode_in(longer, &time)) == 0) {
        size_t shown = m.picture[MPEG1_STORE];
        expect(mpeg1_record_decode(&record, stream, bytes, other_store, room, &picture) == 0, "the struct's hand-out");
        expect(shown == picture.numbers[MPEG1_STORE] && time == picture.time, "the struct's store and time");
        print_picture(name, ++handed, shown, time);
        same(shown);
        refusals(&time);
    }
    printf("%s %zu 0 0 %u - -\n", name, handed, answer);
    expect(mpeg1_record_decode(&record, stream, bytes, other_store, room, &picture) == answer, "the struct's last answer");
    expect(mpeg1_count(stream, bytes, other_store, room, &counted) == answer && counted == handed, "the count");
    expect(!memcmp(store, other_store, mpeg1_store_bytes(mpeg1_record_width(&record), mpeg1_record_height(&record))), "the store of the count");
    memset(&before, 0x5a, sizeof before);
    expect(!memcmp(m.numbers + 21, before.numbers + 21, sizeof(size_t) * MORE) && !memcmp(m.integers + 73, before.integers + 73, sizeof(int32_t) * MORE)
               && !memcmp(m.matrices + 128, before.matrices + 128, MORE) && !memcmp(m.clock + 4, before.clock + 4, sizeof(double) * MORE)
               && !memcmp(m.picture + 1, before.picture + 1, sizeof(size_t) * MORE),
           "elements behind the record");
}

int main(int argc, char **argv)
{
    const size_t record_counts[PARTS] = {MPEG1_COUNT(record.numbers), MPEG1_COUNT(record.integers), MPEG1_COUNT(record.matrices), MPEG1_COUNT(record.clock),
                                           MPEG1_COUNT(picture.numbers)};
    count[NUMBERS] = mpeg1_record_numbers(), count[INTEGERS] = mpeg1_record_integers();
    count[MATRICES] = mpeg1_record_matrices(), count[CLOCK] = mpeg1_record_floats();
    count[PICTURE] = mpeg1_picture_numbers();
    expect(mpeg1_version() == MPEG1_VERSION, "the version");
    expect(!memcmp(count, record_counts, sizeof count), "the structs are as long as a record and a picture's numbers");
    room = mpeg1_store_bytes(4095, 4095);
    stream = calloc(MOST, 1), store = calloc(room, 1), other_store = calloc(room, 1);
    expect(stream && store && other_store, "memory");
    expect(mpeg1_store_bytes(0, 16) == 0 && mpeg1_store_bytes(4096, 16) == 0 && mpeg1_store_bytes(17, 16) == 2 * 1152, "sizes of stores");
    printf("stream handed store type answer time planes\n");
    for (int i = 1; i < argc; i++)
        list(argv[i]);
    free(stream), free(store), free(other_store);
    return 0;
}
