/* Decodes an MPEG-1 video stream to YUV4MPEG2 on standard output: y4m FILE
   In this folder, after `../archive mpeg1`:
   cc -O2 -Wall -Wextra -o y4m y4m.c ../../target/staticlib/libmpeg1.a */
#include "mpeg1.h"
#include <stdio.h>
#include <stdlib.h>

static void *room(size_t count, size_t size)
{
    void *p = calloc(count, size); /* pages that are never touched cost nothing */
    if (!p) {
        fprintf(stderr, "y4m: out of memory\n");
        exit(2);
    }
    return p;
}

static unsigned char *read_file(const char *name, size_t *bytes)
{
    FILE *f = fopen(name, "rb");
    size_t most = 65536, got;
    unsigned char *data = room(most, 1), *more;
    if (!f) {
        perror(name);
        exit(2);
    }
    *bytes = 0;
    while ((got = fread(data + *bytes, 1, most - *bytes, f)) > 0) {
        *bytes += got;
        if (*bytes == most) {
            more = realloc(data, most *= 2);
            if (!more) {
                fprintf(stderr, "y4m: out of memory\n");
                exit(2);
            }
            data = more;
        }
    }
    if (ferror(f)) {
        perror(name);
        exit(2);
    }
    fclose(f);
    return data;
}

/* 23.976 is 24000:1001; 0:0 is a rate that is not known. */
static void write_head(size_t width, size_t height, double rate)
{
    unsigned whole = (unsigned)rate, near = (unsigned)(rate * 1.001 + 0.5);
    printf("YUV4MPEG2 W%zu H%zu ", width, height);
    if (rate == whole)
        printf("F%u:%u", whole, whole ? 1u : 0u);
    else
        printf("F%u000:1001", near);
    printf(" Ip C420jpeg\n");
}

static void write_plane(const unsigned char *plane, size_t row_bytes, size_t width, size_t height)
{
    for (size_t y = 0; y < height; y++)
        fwrite(plane + y * row_bytes, 1, width, stdout);
}

int main(int argc, char **argv)
{
    static const size_t order[3] = {0, 2, 1}; /* Y4M has Y, Cb, Cr */
    size_t store_bytes = mpeg1_store_bytes(4095, 4095), bytes;
    mpeg1_record record;
    mpeg1_picture picture;
    if (argc != 2) {
        fprintf(stderr, "usage: y4m FILE\n");
        return 2;
    }
    unsigned char *stream = read_file(argv[1], &bytes), *store = room(store_bytes, 1);
    uint32_t answer = mpeg1_record_open(&record, stream, bytes, store, store_bytes);
    if (answer == 0) {
        size_t width = mpeg1_record_width(&record), height = mpeg1_record_height(&record);
        write_head(width, height, mpeg1_record_frame_rate(&record));
        while ((answer = mpeg1_record_decode(&record, stream, bytes, store, store_bytes, &picture)) == 0) {
            printf("FRAME\n");
            for (int i = 0; i < 3; i++) {
                size_t plane = order[i], half = plane != 0;
                write_plane(store + mpeg1_record_plane_start(&record, picture.numbers[MPEG1_STORE], plane), mpeg1_record_row_bytes(&record, plane),
                            (width + half) >> half, (height + half) >> half);
            }
        }
    }
    free(stream), free(store);
    if (answer != 7)
        fprintf(stderr, "y4m: %s: answer %u\n", argv[1], (unsigned)answer);
    return answer != 7 || fflush(stdout) != 0;
}
