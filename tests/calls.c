/*
 * Makes random calls through the C boundary: fitting ones, of which some have up to three lengths, pitches, codes or
 * sizes changed. Every lent buffer has guard bytes on both sides. Of each call is checked: guard bytes and what is
 * lent for reading stay; refused, every lent byte stays and a struct that is handed back is zeros; the reply is one of
 * the call's; packing what was unpacked restores it. A digest of all replies and bytes is printed after each
 * sixteenth, so that two machines can be compared: the same COUNT and SEED give the same lines wherever the calls give
 * the same bytes. The exit status is 1 if a check fails.
 * usage: calls COUNT SEED
 */
#include <stdio.h>
#include <stdlib.h>
#include <string.h>

#include "wentuqis.h"

enum { GUARD = 32, GUARD_BYTE = 0xa7, MANY = 1 << 14 };

static uint64_t state, digest = 0xcbf29ce484222325u, accepted, refused, failures;

static uint64_t next(void)
{
    state ^= state >> 12;
    state ^= state << 25;
    state ^= state >> 27;
    return state * 0x2545f4914f6cdd1du;
}

static uint32_t next32(void)
{
    return (uint32_t)(next() >> 32);
}

/* A number of any size, small ones as often as large ones. */
static uint32_t any32(void)
{
    const uint32_t number = next32();

    return number >> (next() >> 59);
}

/* A number below a limit. */
static uint32_t below(uint32_t limit)
{
    return (uint32_t)((next() >> 32) * limit >> 32);
}

static void check(bool holds, const char *what)
{
    if (!holds && failures++ < 20) {
        printf("calls: after %llu calls: %s\n", (unsigned long long)(accepted + refused), what);
    }
}

static void add(const void *bytes, size_t length)
{
    const uint8_t *at = bytes;

    for (size_t i = 0; i < length; i++) {
        digest = (digest ^ at[i]) * 0x100000001b3u;
    }
}

static void add_numbers(uint64_t a, uint64_t b, uint64_t c, uint64_t d)
{
    const uint64_t numbers[4] = {a, b, c, d};

    for (size_t i = 0; i < 4; i++) {
        for (unsigned shift = 0; shift < 64; shift += 8) {
            const uint8_t byte = (uint8_t)(numbers[i] >> shift);

            add(&byte, 1);
        }
    }
}

/* Adds a reply, which is 0 or one of the bits of `replies`; whether the call was refused. */
static bool answered(uint32_t reply, uint32_t replies)
{
    check(reply == 0 || (reply < 32 && (replies >> reply & 1)), "a reply that the call has not");
    add_numbers(reply, 0, 0, 0);
    if (reply) {
        refused++;
    } else {
        accepted++;
    }
    return reply != 0;
}

/* A lent buffer: random bytes between guard bytes, and a copy of them. */
typedef struct Lent {
    uint8_t *block, *bytes, *copy;
    size_t length;
} Lent;

static Lent lend(size_t length)
{
    Lent lent = {malloc(length + 2 * GUARD), NULL, malloc(length + 1), length};

    if (lent.block == NULL || lent.copy == NULL) {
        printf("calls: there is no memory\n");
        exit(1);
    }
    memset(lent.block, GUARD_BYTE, length + 2 * GUARD);
    lent.bytes = lent.block + GUARD;
    for (size_t i = 0; i < length; i++) {
        lent.bytes[i] = lent.copy[i] = (uint8_t)(next() >> 56);
    }
    return lent;
}

/* What was lent comes back: its guard bytes stand, and all of its bytes do if none was to be written. */
static void give_back(Lent *lent, bool keeps)
{
    for (size_t i = 0; i < GUARD; i++) {
        check(lent->block[i] == GUARD_BYTE && lent->bytes[lent->length + i] == GUARD_BYTE, "a guard byte is changed");
    }
    check(!keeps || memcmp(lent->bytes, lent->copy, lent->length) == 0, "a byte is changed that had to stay");
    add(lent->bytes, lent->length);
    free(lent->block);
    free(lent->copy);
}

/* A number near another, at an end, or any. */
static uint64_t change(uint64_t number, unsigned bits)
{
    static const uint64_t ends[] = {0, 1, 2, 3, 4, 255, 256, 16383, 16384, 16385, 0x7fffffff, 0x80000000, 0xffffffff,
                                    0x100000000, 0x7fffffffffffffff, 0x8000000000000000, 0xffffffffffffffff};
    uint64_t changed;

    switch (below(4)) {
    case 0:
        changed = number + 1;
        break;
    case 1:
        changed = number - 1;
        break;
    case 2:
        changed = ends[below(sizeof ends / sizeof *ends)];
        break;
    default:
        changed = next();
        changed >>= below(64);
    }
    return bits < 64 ? changed & 0xffffffff : changed;
}

/* A buffer's length, or one a little off. */
static size_t length_near(size_t length)
{
    switch (below(3)) {
    case 0:
        return length + 1;
    case 1:
        return length ? length - 1 : 0;
    default:
        return below((uint32_t)length + 1);
    }
}

static const uint32_t sources[][2] = {
    {WENTUQIS_FMT_R8G8B8, 3},      {WENTUQIS_FMT_A8R8G8B8, 4},      {WENTUQIS_FMT_X8R8G8B8, 4},
    {WENTUQIS_FMT_R5G6B5, 2},      {WENTUQIS_FMT_X1R5G5B5, 2},      {WENTUQIS_FMT_A1R5G5B5, 2},
    {WENTUQIS_FMT_A4R4G4B4, 2},    {WENTUQIS_FMT_A8, 1},            {WENTUQIS_FMT_A8B8G8R8, 4},
    {WENTUQIS_FMT_X8B8G8R8, 4},    {WENTUQIS_FMT_L8, 1},            {WENTUQIS_FMT_A8L8, 2},
    {WENTUQIS_FMT_A16B16G16R16, 8}, {WENTUQIS_FMT_A32B32G32R32F, 16}, {WENTUQIS_FMT_A2B10G10R10, 4},
    {WENTUQIS_FMT_G16R16, 4},      {WENTUQIS_FMT_A2R10G10B10, 4},   {WENTUQIS_FMT_V8U8, 2},
    {WENTUQIS_FMT_Q8W8V8U8, 4},    {WENTUQIS_FMT_L16, 2},           {WENTUQIS_FMT_YUY2, 2},
    {WENTUQIS_FMT_UYVY, 2},        {WENTUQIS_FMT_YV12, 1},          {WENTUQIS_FMT_NV12, 1},
};

enum { RGB = 12, WIDE = 20, PLANAR = 22, SOURCES = 24 };

static uint32_t any_code(void)
{
    static const uint32_t others[] = {75, 77, 80, 64, 110, 111, 112, 113, 114, 115, 0, 0x31545844};

    switch (below(3)) {
    case 0:
        return others[below(sizeof others / sizeof *others)];
    case 1:
        return sources[below(SOURCES)][0];
    default:
        return any32();
    }
}

static WentuqisYuvSet any_set(void)
{
    WentuqisYuvSet set;
    uint32_t *const numbers[7] = {&set.luma_gain,  &set.luma_offset, &set.v_to_red,      &set.u_to_green,
                                  &set.v_to_green, &set.u_to_blue,   &set.chroma_centre};

    for (size_t i = 0; i < 6; i++) {
        *numbers[i] = below(i == 1 ? 4194304 : 262144);
    }
    set.chroma_centre = 255 + below(2);
    if (below(8) == 0) {
        uint32_t *const number = numbers[below(7)];

        *number = (uint32_t)change(*number, 32);
    }
    return set;
}

/* Keeps a region from many texels, unless it lies outside every buffer lent here: none has 65536 bytes. */
static void bound(WentuqisRegion *region)
{
    const uint64_t limit = 1 << 16, rows = region->height, depth = region->depth;
    const bool outside = region->width > limit || (region->destination.pitch && rows > limit)
                         || (region->destination.slice_pitch && depth > limit);

    if (outside || (region->width <= MANY && rows <= MANY && depth <= MANY && region->width * rows * depth <= MANY)) {
        return;
    }
    region->width = 3;
    region->height = 2;
    region->depth = 1;
}

/* Gives a side of so many rows a start, and stores it bottom row first once in two times if it may be; the start's
 * bytes. */
static size_t turn(WentuqisSide *side, size_t rows, bool may_turn)
{
    const size_t room = below(3) ? 0 : below(8);

    side->start = room;
    if (may_turn && below(2)) {
        side->start += (rows ? rows - 1 : 0) * (uint64_t)side->pitch;
        side->pitch = -side->pitch;
    }
    return room;
}

/* A conversion: a region that fits its buffers, of which some have parameters or lengths changed. */
static void convert(bool with_set)
{
    const uint32_t from = below(with_set && below(2) ? SOURCES - WIDE : SOURCES);
    const uint32_t *const source = sources[with_set && from < SOURCES - WIDE ? from + WIDE : from];
    const bool planar = source >= sources[PLANAR], into_any = source < sources[RGB] || source >= sources[WIDE];
    const uint32_t *const destination = sources[into_any ? below(RGB) : 1];
    uint32_t src_format = source[0], dst_format = destination[0], reply;
    WentuqisRegion region;
    WentuqisYuvSet set = any_set();
    size_t src_len, dst_len, columns, rows;
    Lent src, dst;
    bool stays;

    memset(&region, 0, sizeof region);
    region.width = below(16) ? below(20) : below(200);
    region.height = below(7);
    region.depth = planar ? 1 : below(3);
    region.source.x = below(5);
    region.source.y = below(4);
    region.destination.x = below(5);
    region.destination.y = below(4);
    columns = (size_t)region.source.x + region.width;
    rows = (size_t)region.source.y + region.height;
    if (planar) {
        const size_t pitch = (columns + 1) / 2 * 2 + 2 * (size_t)below(4);

        rows = (rows + 1) / 2 * 2;
        region.source.pitch = (int64_t)pitch;
        region.source.slice_pitch = pitch * rows;
        src_len = pitch * (rows + rows / 2);
    } else {
        const size_t pitch = (columns + 1) / 2 * 2 * source[1] + below(6);

        region.source.pitch = (int64_t)pitch;
        region.source.slice_pitch = pitch * rows + below(6);
        src_len = region.source.slice_pitch * region.depth;
    }
    src_len += turn(&region.source, rows, !planar);
    columns = (size_t)region.destination.x + region.width;
    rows = (size_t)region.destination.y + region.height;
    region.destination.pitch = (int64_t)(columns * destination[1] + below(6));
    region.destination.slice_pitch = (size_t)region.destination.pitch * rows + below(6);
    dst_len = region.destination.slice_pitch * region.depth + turn(&region.destination, rows, true);

    for (uint32_t changes = below(2) ? 0 : 1 + below(3); changes; changes--) {
        switch (below(17)) {
        case 0: src_format = any_code(); break;
        case 1: dst_format = any_code(); break;
        case 2: src_len = length_near(src_len); break;
        case 3: dst_len = length_near(dst_len); break;
        case 4: region.source.pitch = (int64_t)change((uint64_t)region.source.pitch, 64); break;
        case 5: region.source.slice_pitch = (size_t)change(region.source.slice_pitch, 64); break;
        case 6: region.destination.pitch = (int64_t)change((uint64_t)region.destination.pitch, 64); break;
        case 7: region.destination.slice_pitch = (size_t)change(region.destination.slice_pitch, 64); break;
        case 8: region.depth = (size_t)change(region.depth, 64); break;
        case 9: region.source.x = (uint32_t)change(region.source.x, 32); break;
        case 10: region.source.y = (uint32_t)change(region.source.y, 32); break;
        case 11: region.destination.x = (uint32_t)change(region.destination.x, 32); break;
        case 12: region.destination.y = (uint32_t)change(region.destination.y, 32); break;
        case 13: region.source.start = change(region.source.start, 64); break;
        case 14: region.destination.start = change(region.destination.start, 64); break;
        case 15: region.width = (uint32_t)change(region.width, 32); break;
        default: region.height = (uint32_t)change(region.height, 32); break;
        }
    }
    bound(&region);

    src = lend(src_len);
    dst = lend(dst_len);
    if (with_set) {
        reply = wentuqis_convert_region_with_set(dst.bytes, dst_len, dst_format, src.bytes, src_len, src_format,
                                                 &region, &set);
        stays = answered(reply, 0x801e);
    } else {
        reply = wentuqis_convert_region(dst.bytes, dst_len, dst_format, src.bytes, src_len, src_format, &region);
        stays = answered(reply, 0x1e);
    }
    check((reply == WENTUQIS_UNSUPPORTED_PAIR) == !wentuqis_can_convert(src_format, dst_format), "can_convert");
    give_back(&src, true);
    give_back(&dst, stays);
}

/* Unpacks, and packs what was unpacked; or packs any planes. */
static void transfer(void)
{
    static const uint32_t formats[3] = {WENTUQIS_FMT_D24S8, WENTUQIS_FMT_D24X8, WENTUQIS_FMT_D16};
    uint32_t format = formats[below(3)];
    const size_t bytes = format == WENTUQIS_FMT_D16 ? 2 : 4, width = 1 + below(20), height = 1 + below(6);
    WentuqisPlaneLayout layout = {width, height, 4 * width + below(5), width + below(5)};
    size_t pitch = bytes * width + below(5), packed_len = pitch * height;
    size_t depth_len = (size_t)layout.depth_pitch * height, stencil_len = (size_t)layout.stencil_pitch * height;
    Lent packed, depth, stencil;

    for (uint32_t changes = below(2) ? 0 : 1 + below(2); changes; changes--) {
        switch (below(9)) {
        case 0: format = any_code(); break;
        case 1: packed_len = length_near(packed_len); break;
        case 2: depth_len = length_near(depth_len); break;
        case 3: stencil_len = length_near(stencil_len); break;
        case 4: pitch = (size_t)change(pitch, 64); break;
        case 5: layout.width = change(layout.width, 64); break;
        case 6: layout.height = change(layout.height, 64); break;
        case 7: layout.depth_pitch = change(layout.depth_pitch, 64); break;
        default: layout.stencil_pitch = change(layout.stencil_pitch, 64); break;
        }
    }
    packed = lend(packed_len);
    depth = lend(depth_len);
    stencil = lend(stencil_len);
    if (below(2)) {
        const uint32_t reply = wentuqis_pack(packed.bytes, packed_len, pitch, depth.bytes, depth_len, stencil.bytes,
                                             stencil_len, format, &layout);

        give_back(&packed, answered(reply, 0x3e00));
        give_back(&depth, true);
        give_back(&stencil, true);
        return;
    }
    if (answered(wentuqis_unpack(depth.bytes, depth_len, stencil.bytes, stencil_len, packed.bytes, packed_len, pitch,
                                 format, &layout),
                 0x3e00)) {
        give_back(&depth, true);
        give_back(&stencil, true);
        give_back(&packed, true);
        return;
    }
    check(memcmp(packed.bytes, packed.copy, packed_len) == 0, "unpack: packed is changed");
    check(wentuqis_pack(packed.bytes, packed_len, pitch, depth.bytes, depth_len, stencil.bytes, stencil_len, format,
                        &layout)
              == WENTUQIS_ACCEPTED,
          "pack: refuses what was unpacked");
    give_back(&packed, format != WENTUQIS_FMT_D24X8);
    give_back(&depth, false);
    give_back(&stencil, false);
}

static void splat(void)
{
    Lent dst = lend(below(8) ? below(70) : below(3000)), pixel = lend(below(8) ? below(18) : below(80));

    wentuqis_splat_pixel_pattern(dst.bytes, dst.length, pixel.bytes, pixel.length);
    for (size_t i = 0; i < dst.length; i++) {
        check(dst.bytes[i] == (pixel.length ? pixel.bytes[i % pixel.length] : dst.copy[i]), "splat_pixel_pattern");
    }
    accepted++;
    give_back(&pixel, true);
    give_back(&dst, pixel.length == 0);
}

static void numbers(void)
{
    const uint32_t color = next32();
    const uint8_t luma = (uint8_t)next32(), cb = (uint8_t)next32(), cr = (uint8_t)next32();
    const uint32_t src_format = any_code(), dst_format = any_code();
    uint8_t rgb[3], by_tables[3];
    float rgba[4] = {9, 9, 9, 9};
    WentuqisYuvSet set = {0, 0, 0, 0, 0, 0, 0};

    wentuqis_yuv_to_rgb8(luma, cb, cr, rgb);
    wentuqis_yuv_to_rgb8_by_tables(luma, cb, cr, by_tables);
    check(memcmp(rgb, by_tables, 3) == 0, "yuv_to_rgb8_by_tables");
    add(rgb, 3);
    wentuqis_d3dcolor_to_rgba_f32(color, rgba);
    for (unsigned i = 0; i < 4; i++) {
        static const unsigned shifts[4] = {16, 8, 0, 24};

        check(rgba[i] == (float)(color >> shifts[i] & 255) / 255.0f, "d3dcolor_to_rgba_f32");
    }
    add(rgba, sizeof rgba);
    add_numbers(wentuqis_f32_to_f16_bits(color), wentuqis_f32_to_f16_bits((color & 0x87ffffff) + 0x38000000), 0, 0);
    add_numbers(wentuqis_can_convert(src_format, dst_format), wentuqis_can_convert_update(src_format, dst_format), 0,
                0);
    if (below(2)) {
        wentuqis_bt601(&set);
    } else {
        wentuqis_bt709(&set);
    }
    add_numbers(set.luma_gain, set.luma_offset, set.v_to_red, set.u_to_green);
    add_numbers(set.v_to_green, set.u_to_blue, set.chroma_centre, 0);
    accepted += 8;
}

static void layouts(void)
{
    const uint32_t format = below(4) ? sources[PLANAR + below(2)][0] : any_code();
    const uint32_t width = below(2) ? below(20000) : (uint32_t)change(16384, 32);
    const uint32_t height = below(2) ? below(12000) : (uint32_t)change(8192, 32);
    const size_t pitch = (size_t)change(width, 64), rows = (size_t)change(height, 64);
    const uint32_t plane_width = any32(), plane_height = any32(), alignment = below(4) ? 1u << below(32) : any32();
    const uint32_t color = next32(), fill_format = any_code();
    WentuqisPlanarYuvLayout planar = {9, 9, 9, 9};
    WentuqisPlaneLayout plane = {9, 9, 9, 9};
    WentuqisFillPixel fill;

    if (answered(wentuqis_planar_yuv_layout(format, width, height, &planar), 0x4000)) {
        check(!(planar.pitch | planar.luma_rows | planar.chroma_rows | planar.total_bytes), "planar layout: no zeros");
    }
    add_numbers(planar.pitch, planar.luma_rows, planar.chroma_rows, planar.total_bytes);
    planar = (WentuqisPlanarYuvLayout){9, 9, 9, 9};
    if (answered(wentuqis_planar_yuv_layout_from_pitch(format, pitch, rows, &planar), 0x4000)) {
        check(!(planar.pitch | planar.luma_rows | planar.chroma_rows | planar.total_bytes), "planar layout: no zeros");
    }
    add_numbers(planar.pitch, planar.luma_rows, planar.chroma_rows, planar.total_bytes);
    if (answered(wentuqis_plane_layout(plane_width, plane_height, alignment, &plane), 0x1c0)) {
        check(!(plane.width | plane.height | plane.depth_pitch | plane.stencil_pitch), "plane layout: no zeros");
    }
    add_numbers(plane.width, plane.height, plane.depth_pitch, plane.stencil_pitch);
    memset(&fill, 9, sizeof fill);
    (void)answered(wentuqis_d3dcolor_fill_pixel_bytes(color, fill_format, &fill), 0x20);
    for (uint32_t i = 0; i < 16; i++) {
        check(i < fill.length || fill.bytes[i] == 0, "fill: no zeros after its length");
    }
    add(fill.bytes, sizeof fill.bytes);
    add_numbers(fill.length, 0, 0, 0);
}

int main(int count, char **words)
{
    unsigned long long calls, seed;

    if (count != 3) {
        printf("calls: usage: calls COUNT SEED\n");
        return 2;
    }
    calls = strtoull(words[1], NULL, 0);
    seed = strtoull(words[2], NULL, 0);
    state = seed ? seed : 1;
    for (unsigned part = 1; part <= 16; part++) {
        while (accepted + refused < calls * part / 16) {
            switch (below(8)) {
            case 0:
            case 1:
            case 2: convert(false); break;
            case 3:
            case 4: convert(true); break;
            case 5: transfer(); break;
            case 6: splat(); break;
            default:
                if (below(2)) {
                    numbers();
                } else {
                    layouts();
                }
                break;
            }
        }
        printf("calls: %llu accepted, %llu refused, digest %016llx\n", (unsigned long long)accepted,
               (unsigned long long)refused, (unsigned long long)digest);
        fflush(stdout);
    }
    printf("calls: %llu checks failed\n", (unsigned long long)failures);
    return failures != 0;
}
