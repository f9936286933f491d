/*
 * Replays recorded answers through the C boundary, on any machine that there is an archive for: each call is made with
 * its parameters, and its reply, what it hands back or writes, and what it only reads are compared. oracle/README.md,
 * Recorded answers, has the records. FOLDER is crates/replay/data, whose files `values`, `buffers` and `sets` have 1
 * for every refusal. With - the records come on standard input, under a NAME, and have the reply itself: the answers
 * of the rules alone (oracle/model.rs). Where a name begins with `wrong_`, every record has to differ. Prints what
 * differs and the counts; the exit status is 1 if anything differs that should not.
 * usage: replay FOLDER
 *        replay - NAME
 */
#include <stdio.h>
#include <stdlib.h>
#include <string.h>

#ifdef _WIN32
#include <fcntl.h>
#include <io.h>
#endif

#include "wentuqis.h"

enum { VALUE = 64, BUFFERS = 512, AREA = 72 };

static uint64_t number(const uint8_t *bytes, size_t length)
{
    uint64_t found = 0;

    while (length--) {
        found = found << 8 | bytes[length];
    }
    return found;
}

static void store(uint8_t *bytes, uint64_t value, size_t length)
{
    for (size_t i = 0; i < length; i++) {
        bytes[i] = (uint8_t)(value >> 8 * i);
    }
}

static void store_layout(uint8_t *answer, uint64_t a, uint64_t b, uint64_t c, uint64_t d)
{
    const uint64_t numbers[4] = {a, b, c, d};

    for (size_t i = 0; i < 4; i++) {
        store(answer + 8 * i, numbers[i], 8);
    }
}

static void store_set(uint8_t *answer, const WentuqisYuvSet *set)
{
    const uint32_t numbers[7] = {set->luma_gain,  set->luma_offset, set->v_to_red,     set->u_to_green,
                                 set->v_to_green, set->u_to_blue,   set->chroma_centre};

    for (size_t i = 0; i < 7; i++) {
        store(answer + 4 * i, numbers[i], 4);
    }
}

/* Whether a record has the reply itself, and not 1 for every refusal. */
static bool has_reply;

/* Whether a record's second word is for this reply. */
static bool answers(const uint8_t *record, uint32_t reply)
{
    return number(record + 4, 4) == (has_reply ? reply : reply != 0);
}

/* Whether the call of a record of 64 bytes gives its answer. */
static bool value(const uint8_t *record)
{
    const uint32_t call = (uint32_t)number(record, 4);
    const uint64_t wide = number(record + 16, 8), last = number(record + 24, 8);
    const uint32_t a = (uint32_t)number(record + 8, 8), b = (uint32_t)wide, c = (uint32_t)last;
    WentuqisPlanarYuvLayout planar = {9, 9, 9, 9};
    WentuqisPlaneLayout plane = {9, 9, 9, 9};
    WentuqisFillPixel fill;
    WentuqisYuvSet set = {9, 9, 9, 9, 9, 9, 9};
    uint8_t answer[32] = {0}, rgb[3] = {9, 9, 9};
    float rgba[4] = {9, 9, 9, 9};
    uint32_t reply = 0;

    memset(&fill, 9, sizeof fill);
    switch (call) {
    case 16:
        reply = !wentuqis_can_convert(a, b);
        break;
    case 17:
        reply = !wentuqis_can_convert_update(a, b);
        break;
    case 18:
    case 31:
        if (call == 18) {
            wentuqis_yuv_to_rgb8((uint8_t)a, (uint8_t)b, (uint8_t)c, rgb);
        } else {
            wentuqis_yuv_to_rgb8_by_tables((uint8_t)a, (uint8_t)b, (uint8_t)c, rgb);
        }
        memcpy(answer, rgb, 3);
        break;
    case 19:
    case 20:
        reply = call == 19 ? wentuqis_planar_yuv_layout(a, b, c, &planar)
                           : wentuqis_planar_yuv_layout_from_pitch(a, (size_t)wide, (size_t)last, &planar);
        store_layout(answer, planar.pitch, planar.luma_rows, planar.chroma_rows, planar.total_bytes);
        break;
    case 21:
        reply = wentuqis_plane_layout(a, b, c, &plane);
        store_layout(answer, plane.width, plane.height, plane.depth_pitch, plane.stencil_pitch);
        break;
    case 22:
        reply = wentuqis_d3dcolor_fill_pixel_bytes(a, b, &fill);
        memcpy(answer, fill.bytes, 16);
        store(answer + 16, fill.length, 4);
        break;
    case 23:
        store(answer, wentuqis_f32_to_f16_bits(a), 2);
        break;
    case 24:
        wentuqis_d3dcolor_to_rgba_f32(a, rgba);
        memcpy(answer, rgba, sizeof rgba);
        break;
    case 33:
    case 34:
        if (call == 33) {
            wentuqis_bt601(&set);
        } else {
            wentuqis_bt709(&set);
        }
        store_set(answer, &set);
        break;
    default:
        return false;
    }
    return answers(record, reply) && memcmp(answer, record + 32, sizeof answer) == 0;
}

/* A heap block of its own with the first bytes of an area, no byte longer. */
static uint8_t *lent(const uint8_t *area, uint64_t length)
{
    uint8_t *bytes = malloc(length ? (size_t)length : 1);

    if (bytes == NULL || length > AREA) {
        printf("replay: a record lends more than an area, or there is no memory\n");
        exit(1);
    }
    memcpy(bytes, area, (size_t)length);
    return bytes;
}

/* Whether an area holds these bytes and then what it had before; frees the bytes. */
static bool holds(uint8_t *bytes, uint64_t length, const uint8_t *before, const uint8_t *after)
{
    const bool same = memcmp(bytes, after, (size_t)length) == 0
                      && memcmp(before + length, after + length, (size_t)(AREA - length)) == 0;

    free(bytes);
    return same;
}

/* Whether the call of a record of 512 bytes gives its answer. */
static bool buffers(const uint8_t *record)
{
    const uint32_t call = (uint32_t)number(record, 4);
    const uint8_t *const areas[5] = {record + 144, record + 216, record + 288, record + 360, record + 432};
    uint64_t p[17];
    uint8_t *first, *second, *third;
    uint32_t reply = 0;
    bool kept;

    for (size_t i = 0; i < 17; i++) {
        p[i] = number(record + 8 + 8 * i, 8);
    }
    if (call == 25 || call == 30) {
        const WentuqisRegion region = {{p[4], (int64_t)p[5], (size_t)p[6], (uint32_t)p[7], (uint32_t)p[8]},
                                       {p[9], (int64_t)p[10], (size_t)p[11], (uint32_t)p[12], (uint32_t)p[13]},
                                       (size_t)p[14], (uint32_t)p[15], (uint32_t)p[16]};
        const uint32_t dst_format = (uint32_t)p[2], src_format = (uint32_t)p[3];
        uint32_t n[7];
        WentuqisYuvSet set;

        for (size_t i = 0; i < 7; i++) {
            n[i] = (uint32_t)number(areas[2] + 4 * i, 4);
        }
        set = (WentuqisYuvSet){n[0], n[1], n[2], n[3], n[4], n[5], n[6]};
        first = lent(areas[0], p[0]);
        second = lent(areas[1], p[1]);
        reply = call == 25 ? wentuqis_convert_region(second, (size_t)p[1], dst_format, first, (size_t)p[0], src_format,
                                                     &region)
                           : wentuqis_convert_region_with_set(second, (size_t)p[1], dst_format, first, (size_t)p[0],
                                                              src_format, &region, &set);
        kept = holds(first, p[0], areas[0], areas[0]);
        return holds(second, p[1], areas[1], areas[3]) && kept && answers(record, reply);
    }
    if (call == 28) {
        first = lent(areas[0], p[0]);
        second = lent(areas[1], p[1]);
        wentuqis_splat_pixel_pattern(second, (size_t)p[1], first, (size_t)p[0]);
        kept = holds(first, p[0], areas[0], areas[0]);
        return holds(second, p[1], areas[1], areas[3]) && kept && answers(record, reply);
    }
    if (call == 26 || call == 27) {
        const WentuqisPlaneLayout layout = {p[4], p[5], p[6], p[7]};
        const uint32_t format = (uint32_t)p[3];

        first = lent(areas[0], p[0]);
        second = lent(areas[1], p[1]);
        third = lent(areas[2], p[2]);
        if (call == 26) {
            reply = wentuqis_unpack(second, (size_t)p[1], third, (size_t)p[2], first, (size_t)p[0], (size_t)p[8],
                                    format, &layout);
            kept = holds(first, p[0], areas[0], areas[0]);
            kept = holds(third, p[2], areas[2], areas[4]) && kept;
            return holds(second, p[1], areas[1], areas[3]) && kept && answers(record, reply);
        }
        reply = wentuqis_pack(first, (size_t)p[0], (size_t)p[8], second, (size_t)p[1], third, (size_t)p[2], format,
                              &layout);
        kept = holds(second, p[1], areas[1], areas[1]);
        kept = holds(third, p[2], areas[2], areas[2]) && kept;
        return holds(first, p[0], areas[0], areas[3]) && kept && answers(record, reply);
    }
    return false;
}

/* How long a call's records are. */
static size_t size_of(uint32_t call)
{
    return (call >= 25 && call <= 28) || call == 30 ? BUFFERS : VALUE;
}

/*
 * Replays the records of a file, which have one size or, if that is 0, each its call's; the number of those that are
 * not as they should be.
 */
static size_t replay(FILE *file, const char *name, size_t size)
{
    const bool wrong = strncmp(name, "wrong_", 6) == 0;
    uint8_t record[BUFFERS];
    size_t count = 0, refused = 0, bad = 0, got, whole = 0;

    while ((got = fread(record, 1, size ? size : VALUE, file)) >= VALUE) {
        const uint32_t call = (uint32_t)number(record, 4);

        whole = size ? size : size_of(call);
        if (whole > got) {
            got += fread(record + got, 1, whole - got, file);
        }
        if (got < whole) {
            break;
        }
        if ((whole == VALUE ? value(record) : buffers(record)) == wrong) {
            if (bad++ < 5) {
                printf("replay: %s, record %zu, call %u\n", name, count, (unsigned)call);
            }
        }
        refused += number(record + 4, 4) != 0;
        count++;
    }
    if (got != 0 || count == 0) {
        printf("replay: %s ends within a record, or has none\n", name);
        return 1;
    }
    printf("replay: %s: %zu records, %zu of them refused, %zu not as they should be\n", name, count, refused, bad);
    return bad;
}

/* The same of a file of a folder. */
static size_t replay_file(const char *folder, const char *name, size_t size)
{
    char path[4096];
    FILE *file;
    size_t bad;

    snprintf(path, sizeof path, "%s/%s", folder, name);
    file = fopen(path, "rb");
    if (file == NULL) {
        printf("replay: %s cannot be opened\n", path);
        return 1;
    }
    bad = replay(file, name, size);
    fclose(file);
    return bad;
}

int main(int count, char **words)
{
    size_t bad;

    if (count == 3 && strcmp(words[1], "-") == 0) {
#ifdef _WIN32
        _setmode(_fileno(stdin), _O_BINARY);
#endif
        has_reply = true;
        return replay(stdin, words[2], 0) != 0;
    }
    if (count != 2) {
        printf("replay: usage: replay FOLDER, or replay - NAME\n");
        return 2;
    }
    bad = replay_file(words[1], "values", VALUE);
    bad += replay_file(words[1], "buffers", BUFFERS);
    bad += replay_file(words[1], "sets", BUFFERS);
    bad += replay_file(words[1], "wrong_values", VALUE);
    bad += replay_file(words[1], "wrong_buffers", BUFFERS);
    return bad != 0;
}
