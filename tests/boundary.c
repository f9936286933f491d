/*
 * Calls each function of include/wentuqis.h from C: one case that is accepted, with its bytes, and one that is refused,
 * where the call can refuse, with its number and the bytes that it must leave or make zero. Prints what fails and the
 * counts; the exit status is 1 if anything failed.
 */
#include <stdio.h>
#include <string.h>

#include "wentuqis.h"

static int passed, failed;

static void check(bool holds, const char *what)
{
    if (holds) {
        passed++;
    } else {
        failed++;
        printf("boundary: %s\n", what);
    }
}

static bool all(const uint8_t *bytes, size_t length, uint8_t value)
{
    for (size_t i = 0; i < length; i++) {
        if (bytes[i] != value) {
            return false;
        }
    }
    return true;
}

static bool planes(const WentuqisPlaneLayout *found, uint64_t width, uint64_t height, uint64_t depth_pitch,
                   uint64_t stencil_pitch)
{
    return found->width == width && found->height == height && found->depth_pitch == depth_pitch
           && found->stencil_pitch == stencil_pitch;
}

static bool planar(const WentuqisPlanarYuvLayout *found, uint64_t pitch, uint64_t luma_rows, uint64_t chroma_rows,
                   uint64_t total_bytes)
{
    return found->pitch == pitch && found->luma_rows == luma_rows && found->chroma_rows == chroma_rows
           && found->total_bytes == total_bytes;
}

/* Two texels of a row of four bytes into a row of eight; the source slice pitch suits no planar frame. */
static const WentuqisRegion row = {{0, 4, 3, 0, 0}, {0, 8, 0, 0, 0}, 1, 2, 1};

static void test_pairs(void)
{
    check(wentuqis_can_convert(WENTUQIS_FMT_NV12, WENTUQIS_FMT_R5G6B5), "can_convert: NV12 to R5G6B5");
    check(!wentuqis_can_convert(WENTUQIS_FMT_R5G6B5, WENTUQIS_FMT_NV12), "can_convert: R5G6B5 to NV12");
    check(wentuqis_can_convert_update(WENTUQIS_FMT_YUY2, WENTUQIS_FMT_R5G6B5), "can_convert_update: YUY2 to R5G6B5");
    check(!wentuqis_can_convert_update(WENTUQIS_FMT_NV12, WENTUQIS_FMT_R5G6B5), "can_convert_update: NV12 to R5G6B5");
    check(wentuqis_can_convert(WENTUQIS_FMT_L16, WENTUQIS_FMT_A8R8G8B8), "can_convert: L16 to A8R8G8B8");
    check(!wentuqis_can_convert(WENTUQIS_FMT_L16, WENTUQIS_FMT_R5G6B5), "can_convert: L16 to R5G6B5");
    check(!wentuqis_can_convert_update(WENTUQIS_FMT_L16, WENTUQIS_FMT_A8R8G8B8), "can_convert_update: L16 to A8R8G8B8");
}

/* Converts two texels of a row into A8R8G8B8. */
static uint32_t convert(uint8_t *dst, size_t dst_len, const uint8_t *src, size_t src_len, uint32_t src_format)
{
    return wentuqis_convert_region(dst, dst_len, WENTUQIS_FMT_A8R8G8B8, src, src_len, src_format, &row);
}

/* A frame of two texels, its last byte missing, a screen one byte short, and then both whole. */
static void test_frame(const uint8_t *frame, uint32_t src_format, const uint8_t *screen)
{
    uint8_t dst[8];

    memset(dst, 9, sizeof dst);
    check(convert(dst, 8, frame, 3, src_format) == WENTUQIS_SOURCE_OUTSIDE, "convert_region: source");
    check(convert(dst, 7, frame, 4, src_format) == WENTUQIS_DESTINATION_OUTSIDE, "convert_region: destination");
    check(all(dst, sizeof dst, 9), "convert_region: refused, dst is kept");
    check(convert(dst, 8, frame, 4, src_format) == WENTUQIS_ACCEPTED, "convert_region: accepted");
    check(memcmp(dst, screen, sizeof dst) == 0, "convert_region: bytes");
}

static void test_convert(void)
{
    static const uint8_t frame[4] = {16, 128, 235, 128};
    static const uint8_t screen[8] = {1, 0, 1, 255, 255, 254, 255, 255};
    static const uint8_t map[4] = {0x7f, 0x01, 0x80, 0x40};
    static const uint8_t map_screen[8] = {255, 2, 255, 255, 255, 129, 0, 255};
    static const WentuqisRegion empty = {{0, 0, 0, 0, 0}, {0, 0, 0, 0, 0}, 0, 0, 0};
    uint8_t dst[8];

    memset(dst, 9, sizeof dst);
    check(convert(dst, 8, frame, 4, WENTUQIS_FMT_D16) == WENTUQIS_UNSUPPORTED_PAIR, "convert_region: pair");
    check(convert(dst, 8, frame, 4, WENTUQIS_FMT_NV12) == WENTUQIS_PLANAR_SHAPE, "convert_region: planar shape");
    check(all(dst, sizeof dst, 9), "convert_region: refused before a texel, dst is kept");
    test_frame(frame, WENTUQIS_FMT_YUY2, screen);
    test_frame(map, WENTUQIS_FMT_V8U8, map_screen);
    check(wentuqis_convert_region(dst, 0, WENTUQIS_FMT_A8R8G8B8, frame, 0, WENTUQIS_FMT_YUY2, &empty)
              == WENTUQIS_ACCEPTED,
          "convert_region: empty region, lengths 0");
}

/* Every field of a region has a value of its own: a texel of the second slice from column 2 of row 3 of a source that
 * starts at byte 4 to column 1 of row 2 of a destination that starts at byte 7. */
static void test_fields_of_a_region(void)
{
    WentuqisRegion region = {{4, 5, 40, 2, 3}, {7, 6, 50, 1, 2}, 2, 3, 1};
    uint8_t src[64], dst[73];

    for (size_t i = 0; i < sizeof src; i++) {
        src[i] = (uint8_t)(i + 1);
    }
    memset(dst, 0, sizeof dst);
    check(wentuqis_convert_region(dst, sizeof dst, WENTUQIS_FMT_L8, src, 63, WENTUQIS_FMT_L8, &region)
              == WENTUQIS_SOURCE_OUTSIDE,
          "region: source one byte short");
    check(wentuqis_convert_region(dst, 72, WENTUQIS_FMT_L8, src, sizeof src, WENTUQIS_FMT_L8, &region)
              == WENTUQIS_DESTINATION_OUTSIDE,
          "region: destination one byte short");
    check(all(dst, sizeof dst, 0), "region: refused, dst is kept");
    check(wentuqis_convert_region(dst, sizeof dst, WENTUQIS_FMT_L8, src, sizeof src, WENTUQIS_FMT_L8, &region)
              == WENTUQIS_ACCEPTED,
          "region: accepted");
    /* slice z, column x of the region: from 4 + 40 z + 5 * 3 + 2 + x to 7 + 50 z + 6 * 2 + 1 + x */
    for (size_t i = 0; i < sizeof dst; i++) {
        bool first = i >= 20 && i < 23, second = i >= 70;
        check(dst[i] == (first ? i + 2 : second ? i - 8 : 0), "region: bytes");
    }
}

/* Pictures of two rows of two texels of L8, a byte of padding each, stored bottom row first on one side or on both. */
static void test_bottom_up(void)
{
    static const uint8_t grab[6] = {3, 4, 9, 1, 2, 9}, upright[6] = {1, 2, 0, 3, 4, 0}, over[6] = {3, 4, 0, 1, 2, 0};
    const WentuqisSide up = wentuqis_bottom_up(3, 2), none = wentuqis_bottom_up(7, 0);
    const WentuqisSide most = wentuqis_bottom_up(UINT32_MAX, UINT32_MAX), flat = {0, 3, 0, 0, 0};
    WentuqisRegion region = {{0, 0, 0, 0, 0}, {0, 0, 0, 0, 0}, 1, 2, 2};
    uint8_t dst[6];

    check(up.start == 3 && up.pitch == -3, "bottom_up: start and pitch");
    check(up.slice_pitch == 0 && up.x == 0 && up.y == 0, "bottom_up: zeros");
    check(none.start == 0 && none.pitch == -7, "bottom_up: no rows");
    check(most.start == UINT64_C(0xfffffffd00000002) && most.pitch == -INT64_C(0xffffffff), "bottom_up: the greatest");

    region.source = up;
    region.destination = flat;
    memset(dst, 0, sizeof dst);
    check(wentuqis_convert_region(dst, 5, WENTUQIS_FMT_L8, grab, 5, WENTUQIS_FMT_L8, &region) == WENTUQIS_ACCEPTED,
          "bottom up: accepted, of the least lengths");
    check(memcmp(dst, upright, sizeof dst) == 0, "bottom up: source");
    check(wentuqis_convert_region(dst, 5, WENTUQIS_FMT_L8, grab, 4, WENTUQIS_FMT_L8, &region)
              == WENTUQIS_SOURCE_OUTSIDE,
          "bottom up: source one byte short");
    region.source.start = 2;
    check(wentuqis_convert_region(dst, 5, WENTUQIS_FMT_L8, grab, 6, WENTUQIS_FMT_L8, &region)
              == WENTUQIS_SOURCE_OUTSIDE,
          "bottom up: a source byte below 0");
    check(memcmp(dst, upright, sizeof dst) == 0, "bottom up: refused, dst is kept");

    region.source = flat;
    region.destination = up;
    memset(dst, 0, sizeof dst);
    check(wentuqis_convert_region(dst, 5, WENTUQIS_FMT_L8, upright, 5, WENTUQIS_FMT_L8, &region) == WENTUQIS_ACCEPTED,
          "bottom up: accepted");
    check(memcmp(dst, over, sizeof dst) == 0, "bottom up: destination");
    region.destination.start = 2;
    check(wentuqis_convert_region(dst, 6, WENTUQIS_FMT_L8, upright, 6, WENTUQIS_FMT_L8, &region)
              == WENTUQIS_DESTINATION_OUTSIDE,
          "bottom up: a destination byte below 0");
    check(memcmp(dst, over, sizeof dst) == 0, "bottom up: refused, dst is kept");

    /* 2^64 - 1 + 1 - 2^24 * 2^40 is 0 */
    region.source = (WentuqisSide){UINT64_MAX, -(INT64_C(1) << 40), 0, 1, UINT32_C(1) << 24};
    region.destination = flat;
    region.width = region.height = 1;
    check(wentuqis_convert_region(dst, 1, WENTUQIS_FMT_L8, grab, 1, WENTUQIS_FMT_L8, &region) == WENTUQIS_ACCEPTED
              && dst[0] == 3,
          "bottom up: parts of a place that cancel");
}

/* Planar frames of two by two texels behind a byte; the last V is the last byte. */
static void test_planar_start(void)
{
    static const uint8_t frame[7] = {9, 16, 16, 235, 235, 128, 128};
    static const uint8_t screen[8] = {1, 0, 1, 255, 1, 0, 1, 255};
    WentuqisRegion region = {{1, 2, 4, 0, 0}, {0, 8, 0, 0, 0}, 1, 2, 2};
    uint8_t dst[16];

    memset(dst, 9, sizeof dst);
    check(wentuqis_convert_region(dst, 16, WENTUQIS_FMT_A8R8G8B8, frame, 6, WENTUQIS_FMT_NV12, &region)
              == WENTUQIS_SOURCE_OUTSIDE,
          "planar start: source one byte short");
    check(wentuqis_convert_region(dst, 16, WENTUQIS_FMT_A8R8G8B8, frame, 7, WENTUQIS_FMT_NV12, &region)
              == WENTUQIS_ACCEPTED,
          "planar start: accepted");
    check(memcmp(dst, screen, sizeof screen) == 0, "planar start: bytes");
    region.source.pitch = -2;
    check(wentuqis_convert_region(dst, 16, WENTUQIS_FMT_A8R8G8B8, frame, 7, WENTUQIS_FMT_NV12, &region)
              == WENTUQIS_PLANAR_SHAPE,
          "planar start: a negative pitch");
}

/* The same conversion with YUV by a set. */
static uint32_t convert_with_set(uint8_t *dst, size_t dst_len, const uint8_t *src, size_t src_len, uint32_t src_format,
                                 WentuqisYuvSet set)
{
    return wentuqis_convert_region_with_set(dst, dst_len, WENTUQIS_FMT_A8R8G8B8, src, src_len, src_format, &row, &set);
}

/* Whether a set has these thousandths as the nearest 65536ths, and this centre. */
static bool nearest(const WentuqisYuvSet *set, const uint64_t thousandths[6], uint32_t centre)
{
    const uint32_t numbers[6] = {set->luma_gain,  set->luma_offset, set->v_to_red,
                                 set->u_to_green, set->v_to_green,  set->u_to_blue};

    for (size_t i = 0; i < 6; i++) {
        if (numbers[i] != (thousandths[i] * 65536 + 500) / 1000) {
            return false;
        }
    }
    return set->chroma_centre == centre;
}

static void test_named_sets(void)
{
    static const WentuqisYuvSet bt601 = WENTUQIS_BT601;
    static const WentuqisYuvSet bt709 = WENTUQIS_BT709;
    static const uint64_t decimals601[6] = {1164, 16065, 1596, 392, 813, 2017};
    static const uint64_t decimals709[6] = {1164, 16000, 1793, 213, 533, 2112};

    WentuqisYuvSet handed_back = {9, 9, 9, 9, 9, 9, 9};

    check(nearest(&bt601, decimals601, 255), "BT601: the nearest numbers");
    check(nearest(&bt709, decimals709, 256), "BT709: the nearest numbers");
    wentuqis_bt601(&handed_back);
    check(nearest(&handed_back, decimals601, 255), "bt601: the nearest numbers");
    wentuqis_bt709(&handed_back);
    check(nearest(&handed_back, decimals709, 256), "bt709: the nearest numbers");
}

static void test_convert_with_set(void)
{
    static const uint8_t frame[4] = {120, 100, 235, 150};
    /* L is 104 x 76284 and 219 x 76284, U lies 28 below the centre and V 22 above it; in 65536ths the first texel is
     * 10518668 red, 7555906 green, 4058000 blue, the second 19291328, 16328566, 12830660 */
    static const uint8_t screen[8] = {62, 115, 161, 255, 196, 249, 255, 255};
    static const uint8_t rgb[4] = {0x00, 0xf8, 0x1f, 0x00};
    static const uint8_t rgb_screen[8] = {0, 0, 255, 255, 255, 0, 0, 255};
    static const WentuqisYuvSet bt601 = WENTUQIS_BT601;
    static const WentuqisYuvSet bt709 = WENTUQIS_BT709;
    static const WentuqisYuvSet steep = {262144, 0, 0, 0, 0, 0, 256};
    static const WentuqisYuvSet bright = {0, 4194304, 0, 0, 0, 0, 256};
    static const WentuqisYuvSet off_centre = {0, 0, 0, 0, 0, 0, 257};
    static const WentuqisYuvSet all_illegal = {262144, 4194304, 262144, 262144, 262144, 262144, 257};
    uint8_t dst[8], plain[8];

    memset(dst, 9, sizeof dst);
    check(convert_with_set(dst, 8, frame, 4, WENTUQIS_FMT_YUY2, steep) == WENTUQIS_ILLEGAL_SET,
          "convert_region_with_set: gain");
    check(convert_with_set(dst, 8, frame, 4, WENTUQIS_FMT_YUY2, bright) == WENTUQIS_ILLEGAL_SET,
          "convert_region_with_set: offset");
    check(convert_with_set(dst, 8, frame, 4, WENTUQIS_FMT_YUY2, off_centre) == WENTUQIS_ILLEGAL_SET,
          "convert_region_with_set: centre");
    check(convert_with_set(dst, 8, frame, 4, WENTUQIS_FMT_NV12, off_centre) == WENTUQIS_PLANAR_SHAPE,
          "convert_region_with_set: planar shape before the set");
    check(convert_with_set(dst, 8, frame, 3, WENTUQIS_FMT_YUY2, off_centre) == WENTUQIS_ILLEGAL_SET,
          "convert_region_with_set: the set before the source");
    check(convert_with_set(dst, 8, frame, 3, WENTUQIS_FMT_YUY2, bt709) == WENTUQIS_SOURCE_OUTSIDE,
          "convert_region_with_set: source");
    check(convert_with_set(dst, 7, frame, 4, WENTUQIS_FMT_YUY2, bt709) == WENTUQIS_DESTINATION_OUTSIDE,
          "convert_region_with_set: destination");
    check(all(dst, sizeof dst, 9), "convert_region_with_set: refused, dst is kept");

    check(convert_with_set(dst, 8, frame, 4, WENTUQIS_FMT_YUY2, bt709) == WENTUQIS_ACCEPTED,
          "convert_region_with_set: BT709");
    check(memcmp(dst, screen, sizeof dst) == 0, "convert_region_with_set: bytes by BT709");

    memset(plain, 9, sizeof plain);
    check(convert(plain, 8, frame, 4, WENTUQIS_FMT_YUY2) == WENTUQIS_ACCEPTED, "convert_region: accepted");
    check(memcmp(dst, plain, sizeof dst) != 0, "convert_region_with_set: BT709 is not convert_region");
    check(convert_with_set(dst, 8, frame, 4, WENTUQIS_FMT_YUY2, bt601) == WENTUQIS_ACCEPTED,
          "convert_region_with_set: BT601");
    check(memcmp(dst, plain, sizeof dst) == 0, "convert_region_with_set: BT601 is convert_region");

    check(convert_with_set(dst, 8, rgb, 4, WENTUQIS_FMT_R5G6B5, all_illegal)
              == WENTUQIS_ACCEPTED,
          "convert_region_with_set: any set where the source is RGB");
    check(memcmp(dst, rgb_screen, sizeof dst) == 0, "convert_region_with_set: bytes where the source is RGB");
}

static void test_fill(void)
{
    WentuqisFillPixel fill;

    memset(&fill, 9, sizeof fill);
    check(wentuqis_d3dcolor_fill_pixel_bytes(0xdeadbeef, WENTUQIS_FMT_R5G6B5, &fill) == WENTUQIS_ACCEPTED,
          "fill: accepted");
    check(fill.length == 2 && fill.bytes[0] == 0xfd && fill.bytes[1] == 0xad && all(fill.bytes + 2, 14, 0),
          "fill: bytes");

    memset(&fill, 9, sizeof fill);
    check(wentuqis_d3dcolor_fill_pixel_bytes(0xdeadbeef, WENTUQIS_FMT_D16, &fill) == WENTUQIS_NO_FILL,
          "fill: refused");
    check(fill.length == 0 && all(fill.bytes, 16, 0), "fill: refused, zeros");
}

static void test_splat(void)
{
    static const uint8_t pixel[2] = {0xfd, 0xad};
    static const uint8_t filled[5] = {0xfd, 0xad, 0xfd, 0xad, 0xfd};
    uint8_t dst[5] = {0};

    wentuqis_splat_pixel_pattern(dst, sizeof dst, pixel, sizeof pixel);
    check(memcmp(dst, filled, sizeof dst) == 0, "splat_pixel_pattern: bytes");
    wentuqis_splat_pixel_pattern(dst, sizeof dst, pixel, 0);
    check(memcmp(dst, filled, sizeof dst) == 0, "splat_pixel_pattern: empty pixel");
}

static void test_numbers(void)
{
    float rgba[4] = {9, 9, 9, 9};
    uint8_t rgb[3] = {9, 9, 9};

    check(wentuqis_f32_to_f16_bits(0x3f800000) == 0x3c00, "f32_to_f16_bits: one");
    check(wentuqis_f32_to_f16_bits(0xffc00000) == 0xfe00, "f32_to_f16_bits: NaN");
    check(wentuqis_f32_to_f16_bits(0x33000000) == 0x0000, "f32_to_f16_bits: 2^-25");
    check(wentuqis_f32_to_f16_bits(0xb3000000) == 0x8000, "f32_to_f16_bits: -2^-25");
    check(wentuqis_f32_to_f16_bits(0x33000001) == 0x0001, "f32_to_f16_bits: above 2^-25");
    check(wentuqis_f32_to_f16_bits(0xb37fffff) == 0x8001, "f32_to_f16_bits: above -2^-24");
    wentuqis_d3dcolor_to_rgba_f32(0xff003300, rgba);
    check(rgba[0] == 0.0f && rgba[1] == 0.2f && rgba[2] == 0.0f && rgba[3] == 1.0f, "d3dcolor_to_rgba_f32");
    wentuqis_yuv_to_rgb8(16, 128, 128, rgb);
    check(rgb[0] == 1 && rgb[1] == 0 && rgb[2] == 1, "yuv_to_rgb8");
    wentuqis_yuv_to_rgb8_by_tables(235, 128, 128, rgb);
    check(rgb[0] == 255 && rgb[1] == 254 && rgb[2] == 255, "yuv_to_rgb8_by_tables");
}

static void test_plane_layout(void)
{
    WentuqisPlaneLayout layout = {9, 9, 9, 9};

    check(wentuqis_plane_layout(5, 3, 16, &layout) == WENTUQIS_ACCEPTED, "plane_layout: accepted");
    check(planes(&layout, 5, 3, 32, 16), "plane_layout: numbers");
    check(wentuqis_plane_layout(0, 3, 16, &layout) == WENTUQIS_ZERO_SIZE, "plane_layout: zero size");
    check(planes(&layout, 0, 0, 0, 0), "plane_layout: refused, zeros");
    check(wentuqis_plane_layout(5, 3, 6, &layout) == WENTUQIS_NO_POWER_OF_TWO, "plane_layout: alignment");
    check(wentuqis_plane_layout(UINT32_MAX, UINT32_MAX, 4, &layout) == WENTUQIS_OVER_64_BITS, "plane_layout: 64 bits");
}

/* Unpacks two pixels of one row. */
static uint32_t unpack(uint32_t format, uint64_t depth_pitch, const uint8_t *packed, size_t packed_len,
                       uint8_t *depth, size_t depth_len, uint8_t *stencil)
{
    const WentuqisPlaneLayout layout = {2, 1, depth_pitch, 4};

    return wentuqis_unpack(depth, depth_len, stencil, 4, packed, packed_len, 8, format, &layout);
}

static void test_depth(void)
{
    static const uint8_t picture[8] = {7, 0xff, 0xff, 0xff, 8, 0x00, 0x00, 0x80};
    static const uint8_t one[4] = {0x00, 0x00, 0x80, 0x3f};
    static const WentuqisPlaneLayout layout = {2, 1, 8, 4};
    uint8_t depth[8], stencil[4], packed[9];

    memset(depth, 9, sizeof depth);
    memset(stencil, 9, sizeof stencil);
    memset(packed, 9, sizeof packed);
    check(unpack(WENTUQIS_FMT_R5G6B5, 8, picture, 8, depth, 8, stencil) == WENTUQIS_NOT_PACKED_DEPTH, "unpack: format");
    check(unpack(WENTUQIS_FMT_D24S8, 7, picture, 8, depth, 8, stencil) == WENTUQIS_BAD_LAYOUT, "unpack: layout");
    check(unpack(WENTUQIS_FMT_D24S8, 8, picture, 7, depth, 8, stencil) == WENTUQIS_SHORT_PACKED, "unpack: packed");
    check(unpack(WENTUQIS_FMT_D24S8, 8, picture, 8, depth, 7, stencil) == WENTUQIS_SHORT_DEPTH, "unpack: depth");
    check(all(depth, 8, 9) && all(stencil, 4, 9), "unpack: refused, planes are kept");

    check(unpack(WENTUQIS_FMT_D24S8, 8, picture, 8, depth, 8, stencil) == WENTUQIS_ACCEPTED, "unpack: accepted");
    check(memcmp(depth, one, sizeof one) == 0, "unpack: depth plane");
    check(stencil[0] == 7 && stencil[1] == 8 && stencil[2] == 9, "unpack: stencil plane");

    check(wentuqis_pack(packed, 9, 9, depth, 8, stencil, 3, WENTUQIS_FMT_D24S8, &layout) == WENTUQIS_SHORT_STENCIL,
          "pack: stencil");
    check(all(packed, 9, 9), "pack: refused, packed is kept");
    check(wentuqis_pack(packed, 9, 9, depth, 8, stencil, 4, WENTUQIS_FMT_D24S8, &layout) == WENTUQIS_ACCEPTED,
          "pack: accepted");
    check(memcmp(packed, picture, 8) == 0 && packed[8] == 9, "pack: restored at another pitch");
}

static void test_planar_layouts(void)
{
    WentuqisPlanarYuvLayout layout = {9, 9, 9, 9};

    check(wentuqis_planar_yuv_layout(WENTUQIS_FMT_NV12, 6, 3, &layout) == WENTUQIS_ACCEPTED,
          "planar_yuv_layout: accepted");
    check(planar(&layout, 8, 3, 2, 40), "planar_yuv_layout: numbers");
    check(wentuqis_planar_yuv_layout(WENTUQIS_FMT_YV12, 6, 3, &layout) == WENTUQIS_NO_PLANAR_LAYOUT,
          "planar_yuv_layout: refused");
    check(planar(&layout, 0, 0, 0, 0), "planar_yuv_layout: refused, zeros");

    check(wentuqis_planar_yuv_layout_from_pitch(WENTUQIS_FMT_NV12, 10, 3, &layout) == WENTUQIS_ACCEPTED,
          "planar_yuv_layout_from_pitch: accepted");
    check(planar(&layout, 10, 3, 2, 50), "planar_yuv_layout_from_pitch: numbers");
    check(wentuqis_planar_yuv_layout_from_pitch(WENTUQIS_FMT_NV12, 9, 3, &layout) == WENTUQIS_NO_PLANAR_LAYOUT,
          "planar_yuv_layout_from_pitch: refused");
    check(planar(&layout, 0, 0, 0, 0), "planar_yuv_layout_from_pitch: refused, zeros");
}

/* Every reply has a text of its own, and so has a number that is none. */
static void test_refusal_texts(void)
{
    for (uint32_t reply = 0; reply <= WENTUQIS_ILLEGAL_SET + 1; reply++) {
        for (uint32_t other = 0; other < reply; other++) {
            check(strcmp(wentuqis_refusal_text(reply), wentuqis_refusal_text(other)) != 0, "refusal_text");
        }
    }
    check(strcmp(wentuqis_refusal_text(WENTUQIS_ACCEPTED), "accepted") == 0, "refusal_text: accepted");
    check(strncmp(wentuqis_refusal_text(WENTUQIS_SOURCE_OUTSIDE), "source outside", 14) == 0, "refusal_text: source");
    check(strcmp(wentuqis_refusal_text(16), wentuqis_refusal_text(UINT32_MAX)) == 0, "refusal_text: no reply");
}

static void test_version(void)
{
    char text[32];

    snprintf(text, sizeof text, "%d.%d.%d", WENTUQIS_VERSION_MAJOR, WENTUQIS_VERSION_MINOR, WENTUQIS_VERSION_PATCH);
    check(strcmp(text, WENTUQIS_VERSION) == 0, "version");
}

int main(void)
{
    test_pairs();
    test_convert();
    test_fields_of_a_region();
    test_bottom_up();
    test_planar_start();
    test_named_sets();
    test_convert_with_set();
    test_fill();
    test_splat();
    test_numbers();
    test_plane_layout();
    test_depth();
    test_planar_layouts();
    test_refusal_texts();
    test_version();
    printf("boundary: %d passed, %d failed\n", passed, failed);
    return failed != 0;
}
