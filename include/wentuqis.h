/*
 * libwentuqis.a for C99 and C++: pixel conversion, planar YUV layouts, colour fills and depth planes of Direct3D 9.
 * An altered version of parts of mtld3d (https://github.com/athei/mtld3d), see NOTICE. docs/RULES.md has the rules of
 * every call, docs/TARGETS.md the machines that there are archives for. Those for x86-64 are built for x86-64-v2 or
 * x86-64-v3: a machine without SSE4.2, or for v3 without AVX2, gets an illegal instruction.
 *
 * A uint32_t reply is 0 where the call was accepted, else the number of the refusal; where several apply, the lowest,
 * but that 15 comes between 2 and 3. Refused, a call leaves every lent byte (of dst, depth, stencil, packed) as it was;
 * a struct that it hands back (fill, layout) it fills with zeros. No call keeps a pointer, or reads or writes outside
 * what it was lent.
 *
 * What the caller owes, since no contract of the library can cover it:
 *   - No pointer is null, not even with length 0. A pointer that comes with length 0 is neither read nor written
 *     through: it may be the address of any object.
 *   - A pointer and its length stand for that many initialised bytes of one object. A pointer to a struct or an array
 *     stands for all of it, initialised and aligned for its type, also where the call only writes it. Every number may
 *     stand in every field.
 *   - Nothing that a call may write (a pointer that is not const) overlaps anything else that it is lent: a picture is
 *     not converted in place, and a struct that is handed back overlaps nothing.
 *   - Until a call returns, nothing else writes what it was lent, or reads what it may write.
 * A conversion takes time that grows with width * height * depth, whatever the lengths of the buffers: a pitch may be
 * 0, and all rows then lie in one place.
 *
 * Where things lie. Lengths, pitches and offsets are in bytes, numbers are little-endian, divisions round down, and
 * sums and products are true whole numbers: none wraps.
 *   - Texel of a side at slice z, row y, column x, where y and x count from the side's own: start + z * slice_pitch +
 *     (side.y + y) * pitch + (side.x + x) * (bytes of a texel). A packed YUV texel needs its whole macropixel of four
 *     bytes, at start + z * slice_pitch + (side.y + y) * pitch + (side.x + x) / 2 * 4: Y U Y V in YUY2, U Y V Y in UYVY,
 *     the first Y for the even column. A texel with a byte below 0 is outside, as one with a byte past the end.
 *   - A picture stored bottom row first has a negative pitch, and its start is the first byte of its top row, which is
 *     stored last: wentuqis_bottom_up makes such a side.
 *   - Texel of a planar frame, all of which counts from the side's start: Y at y * pitch + x. With
 *     B = pitch * luma_rows, NV12 has U at
 *     B + y / 2 * pitch + x / 2 * 2 and V next; YV12 has V at B + y / 2 * (pitch / 2) + x / 2 and U later by
 *     chroma_rows * (pitch / 2). The pitch is above 0, even, at most 16384; chroma rows are half the luma rows, rounded up, and
 *     both together at most 16384; YV12 has an even number of luma rows. In a conversion there are
 *     source.slice_pitch / source.pitch luma rows (the chroma rows are not counted), and a row has as many texels as
 *     the pitch has bytes.
 *   - Pixel of the two planes: depth at y * depth_pitch + 4 * x, a binary32 number in little-endian bytes; stencil at
 *     y * stencil_pitch + x, a byte.
 *   - Packed depth pixel: D16 at y * packed_pitch + 2 * x, a 16-bit code; D24S8 and D24X8 at y * packed_pitch + 4 * x.
 *     D24S8 has the stencil byte, then a 24-bit code; D24X8 the code, then X: the code lies below X, against the name.
 *     A code k stands for k / 65535 in D16, else for k / 16777215.
 */
#ifndef WENTUQIS_H
#define WENTUQIS_H

#include <stdbool.h>
#include <stddef.h>
#include <stdint.h>

#define WENTUQIS_VERSION_MAJOR 0
#define WENTUQIS_VERSION_MINOR 1
#define WENTUQIS_VERSION_PATCH 0
#define WENTUQIS_VERSION "0.1.0"

#if defined(SIZE_MAX) && defined(UINT64_MAX)
#if SIZE_MAX != UINT64_MAX
#error "libwentuqis.a is built for machines on which size_t has 64 bits"
#endif
#endif

/* What a compiler can be told of a call: WENTUQIS_NONNULL that no pointer is null, WENTUQIS_MUST_USE that what is
 * returned is to be looked at, WENTUQIS_READS and WENTUQIS_WRITES that one parameter is a pointer to so many bytes and
 * another their number (their places, from 1), WENTUQIS_READS_ONE and WENTUQIS_WRITES_ONE that a parameter points to
 * one object. Memory that is written must be initialised too. */
#if defined(__has_attribute)
#if __has_attribute(nonnull)
#define WENTUQIS_NONNULL __attribute__((nonnull))
#endif
#if __has_attribute(warn_unused_result)
#define WENTUQIS_MUST_USE __attribute__((warn_unused_result))
#endif
#if __has_attribute(access)
#define WENTUQIS_READS(pointer, length) __attribute__((access(read_only, pointer, length)))
#define WENTUQIS_WRITES(pointer, length) __attribute__((access(read_write, pointer, length)))
#define WENTUQIS_READS_ONE(pointer) __attribute__((access(read_only, pointer)))
#define WENTUQIS_WRITES_ONE(pointer) __attribute__((access(read_write, pointer)))
#endif
#endif
#ifndef WENTUQIS_NONNULL
#define WENTUQIS_NONNULL
#endif
#ifndef WENTUQIS_MUST_USE
#define WENTUQIS_MUST_USE
#endif
#ifndef WENTUQIS_READS
#define WENTUQIS_READS(pointer, length)
#define WENTUQIS_WRITES(pointer, length)
#define WENTUQIS_READS_ONE(pointer)
#define WENTUQIS_WRITES_ONE(pointer)
#endif

/* The calling convention: on x86-64 System V's on every system, Windows too, where the compiler has to be told. */
#if defined(_WIN32) && (defined(__GNUC__) || defined(__clang__))
#define WENTUQIS_CALL __attribute__((sysv_abi))
#elif defined(_WIN32)
#error "the calls have the System V convention, which this compiler cannot make: use gcc or clang"
#else
#define WENTUQIS_CALL
#endif

#ifdef __cplusplus
extern "C" {
#endif

/* The format codes that the calls take, as in D3DFORMAT: a number, or four ASCII letters, the first one lowest.
 * A name lists lanes from the top bit of a little-endian word down, but for D24X8: A8R8G8B8 is B, G, R, A in memory.
 * Any other number may be passed too: it has no conversion, no fill, no planar layout and no packed depth. */
enum {
    /* the twelve RGB formats, which convert into each other; all but R8G8B8 and A8L8 can be filled */
    WENTUQIS_FMT_R8G8B8 = 20,
    WENTUQIS_FMT_A8R8G8B8 = 21,
    WENTUQIS_FMT_X8R8G8B8 = 22,
    WENTUQIS_FMT_R5G6B5 = 23,
    WENTUQIS_FMT_X1R5G5B5 = 24,
    WENTUQIS_FMT_A1R5G5B5 = 25,
    WENTUQIS_FMT_A4R4G4B4 = 26,
    WENTUQIS_FMT_A8 = 28,
    WENTUQIS_FMT_A8B8G8R8 = 32,
    WENTUQIS_FMT_X8B8G8R8 = 33,
    WENTUQIS_FMT_L8 = 50,
    WENTUQIS_FMT_A8L8 = 51,
    /* the two wide sources, which convert into A8R8G8B8 only; both can be filled */
    WENTUQIS_FMT_A16B16G16R16 = 36,
    WENTUQIS_FMT_A32B32G32R32F = 116,
    /* six more sources, which convert into A8R8G8B8 only; all but L16 can be filled; U, V, W, Q are signed red, green,
     * blue, alpha, here and below */
    WENTUQIS_FMT_A2B10G10R10 = 31,
    WENTUQIS_FMT_G16R16 = 34,
    WENTUQIS_FMT_A2R10G10B10 = 35,
    WENTUQIS_FMT_V8U8 = 60,
    WENTUQIS_FMT_Q8W8V8U8 = 63,
    WENTUQIS_FMT_L16 = 81,
    /* seven more that can be filled, which makes 24 with the above */
    WENTUQIS_FMT_V16U16 = 64,
    WENTUQIS_FMT_Q16W16V16U16 = 110,
    WENTUQIS_FMT_R16F = 111,
    WENTUQIS_FMT_G16R16F = 112,
    WENTUQIS_FMT_A16B16G16R16F = 113,
    WENTUQIS_FMT_R32F = 114,
    WENTUQIS_FMT_G32R32F = 115,
    /* the YUV sources, which convert into the RGB formats: two packed, two planar; the planar ones have layouts */
    WENTUQIS_FMT_YUY2 = 0x32595559, /* 'Y', 'U', 'Y', '2' */
    WENTUQIS_FMT_UYVY = 0x59565955, /* 'U', 'Y', 'V', 'Y' */
    WENTUQIS_FMT_YV12 = 0x32315659, /* 'Y', 'V', '1', '2' */
    WENTUQIS_FMT_NV12 = 0x3231564e, /* 'N', 'V', '1', '2' */
    /* the three depth formats, which are unpacked and packed */
    WENTUQIS_FMT_D24S8 = 75,
    WENTUQIS_FMT_D24X8 = 77,
    WENTUQIS_FMT_D16 = 80
};

/* The replies. */
enum {
    WENTUQIS_ACCEPTED = 0,
    /* wentuqis_convert_region, wentuqis_convert_region_with_set */
    WENTUQIS_UNSUPPORTED_PAIR = 1,    /* wentuqis_can_convert is false for the two formats */
    WENTUQIS_PLANAR_SHAPE = 2,        /* planar source: depth not 1, pitch not above 0, slice pitch no multiple of it */
    WENTUQIS_SOURCE_OUTSIDE = 3,      /* a texel outside src or its planar layout, or a column or row past 32 bits */
    WENTUQIS_DESTINATION_OUTSIDE = 4, /* a texel outside dst, or a column or row past 32 bits */
    /* wentuqis_d3dcolor_fill_pixel_bytes */
    WENTUQIS_NO_FILL = 5, /* this format has no fill */
    /* wentuqis_plane_layout */
    WENTUQIS_ZERO_SIZE = 6,       /* width or height 0 */
    WENTUQIS_NO_POWER_OF_TWO = 7, /* the alignment, raised to at least 4, is no power of two */
    WENTUQIS_OVER_64_BITS = 8,    /* pitch times height of a plane exceeds 64 bits */
    /* wentuqis_unpack, wentuqis_pack */
    WENTUQIS_NOT_PACKED_DEPTH = 9, /* a format other than D16, D24X8 and D24S8 */
    WENTUQIS_BAD_LAYOUT = 10,      /* a zero size, a pitch below a row of its plane, or a plane over 64 bits */
    WENTUQIS_SHORT_PACKED = 11,    /* packed pitch below a row, or packed shorter than (height - 1) x pitch + row */
    WENTUQIS_SHORT_DEPTH = 12,     /* depth shorter than depth pitch x height */
    WENTUQIS_SHORT_STENCIL = 13,   /* stencil shorter than stencil pitch x height; D24S8 only */
    /* wentuqis_planar_yuv_layout, wentuqis_planar_yuv_layout_from_pitch */
    WENTUQIS_NO_PLANAR_LAYOUT = 14, /* neither YV12 nor NV12, or sizes that no layout has */
    /* wentuqis_convert_region_with_set */
    WENTUQIS_ILLEGAL_SET = 15 /* YUV source: a gain above 262143, an offset above 4194303, a centre not 255 or 256 */
};

/* A reply in words; a text of its own for a number that is no reply. */
static inline const char *wentuqis_refusal_text(uint32_t reply)
{
    switch (reply) {
    case WENTUQIS_ACCEPTED:
        return "accepted";
    case WENTUQIS_UNSUPPORTED_PAIR:
        return "unsupported pair: the two formats do not convert";
    case WENTUQIS_PLANAR_SHAPE:
        return "planar shape: depth must be 1, the source pitch above 0 (a frame is not stored bottom row first), "
               "its slice pitch pitch times luma rows";
    case WENTUQIS_SOURCE_OUTSIDE:
        return "source outside: a texel of the region lies past the source's end, below its byte 0, or outside its "
               "planar layout";
    case WENTUQIS_DESTINATION_OUTSIDE:
        return "destination outside: a texel of the region lies past the destination's end or below its byte 0";
    case WENTUQIS_NO_FILL:
        return "no fill: the format has none";
    case WENTUQIS_ZERO_SIZE:
        return "zero size: width and height must be at least 1";
    case WENTUQIS_NO_POWER_OF_TWO:
        return "no power of two: the alignment must be one";
    case WENTUQIS_OVER_64_BITS:
        return "over 64 bits: a plane would have more bytes than 64 bits count";
    case WENTUQIS_NOT_PACKED_DEPTH:
        return "not packed depth: the format must be D16, D24X8 or D24S8";
    case WENTUQIS_BAD_LAYOUT:
        return "bad layout: a size is 0, a pitch is below a row, or a plane is over 64 bits";
    case WENTUQIS_SHORT_PACKED:
        return "short packed rows: the packed pitch is below a row, or packed is too short";
    case WENTUQIS_SHORT_DEPTH:
        return "short depth plane: depth must have depth pitch times height bytes";
    case WENTUQIS_SHORT_STENCIL:
        return "short stencil plane: stencil must have stencil pitch times height bytes";
    case WENTUQIS_NO_PLANAR_LAYOUT:
        return "no planar layout: the format must be YV12 or NV12, and a frame have these sizes";
    case WENTUQIS_ILLEGAL_SET:
        return "illegal set: a number lies outside its range";
    default:
        return "no reply of this version";
    }
}

/* Where the texels of a region lie in one of the two buffers: the first byte of row 0 of the picture, bytes from a row to
 * the next, negative where rows are stored bottom row first, and from a slice to the next, and the column and row of
 * the first texel. Of a planar source the slice pitch is pitch * luma rows. */
typedef struct WentuqisSide {
    uint64_t start;
    int64_t pitch;
    size_t slice_pitch;
    uint32_t x;
    uint32_t y;
} WentuqisSide;

/* A region to convert: depth slices of height rows of width texels. Depth is 1 for a picture or a frame, and the number
 * of slices for a volume: with depth 0 a conversion is accepted and writes nothing. */
typedef struct WentuqisRegion {
    WentuqisSide source;
    WentuqisSide destination;
    size_t depth;
    uint32_t width;
    uint32_t height;
} WentuqisRegion;

/* The side of a picture of so many rows of row_bytes bytes each, padding included, that is stored bottom row first from
 * the buffer's first byte on. */
static inline WentuqisSide wentuqis_bottom_up(uint32_t row_bytes, uint32_t rows)
{
    const uint64_t last = rows == 0 ? 0 : rows - 1;
    const int64_t pitch = row_bytes;
    const WentuqisSide side = {row_bytes * last, -pitch, 0, 0, 0};

    return side;
}

/* The numbers of a conversion from YUV: luma_gain and the four from v_to_red to u_to_blue are 0 to 262143, luma_offset
 * is 0 to 4194303, all in 65536ths; chroma_centre is 255 or 256, in halves. */
typedef struct WentuqisYuvSet {
    uint32_t luma_gain;
    uint32_t luma_offset;
    uint32_t v_to_red;
    uint32_t u_to_green;
    uint32_t v_to_green;
    uint32_t u_to_blue;
    uint32_t chroma_centre;
} WentuqisYuvSet;

/* Width and height of a picture, and the bytes from a row to the next of its depth plane and of its stencil plane. */
typedef struct WentuqisPlaneLayout {
    uint64_t width;
    uint64_t height;
    uint64_t depth_pitch;
    uint64_t stencil_pitch;
} WentuqisPlaneLayout;

/* A planar frame: bytes of a luma row, luma rows, chroma rows, and bytes of all of it. */
typedef struct WentuqisPlanarYuvLayout {
    uint64_t pitch;
    uint64_t luma_rows;
    uint64_t chroma_rows;
    uint64_t total_bytes;
} WentuqisPlanarYuvLayout;

/* One texel of a fill: the first length of bytes, then zeros. */
typedef struct WentuqisFillPixel {
    uint8_t bytes[16];
    uint32_t length;
} WentuqisFillPixel;

/* The named sets of YUV numbers as initialisers: WentuqisYuvSet set = WENTUQIS_BT709; wentuqis_bt601 and wentuqis_bt709
 * hand the same numbers back.
 * BT.601 as wentuqis_convert_region and wentuqis_yuv_to_rgb8 have it: 1.164, 16.065, 1.596, 0.392, 0.813, 2.017 as the
 * nearest 65536ths, centre 127.5. BT.709: 1.164, 16, 1.793, 0.213, 0.533, 2.112, centre 128. */
#define WENTUQIS_BT601 {76284, 1052836, 104595, 25690, 53281, 132186, 255}
#define WENTUQIS_BT709 {76284, 1048576, 117506, 13959, 34931, 138412, 256}

/* Whether a conversion, by whatever set, takes this pair: the twelve RGB formats into each other, the four YUV
 * formats into these, the two wide formats and the six from A2B10G10R10 to L16 into A8R8G8B8. */
WENTUQIS_CALL WENTUQIS_MUST_USE
bool wentuqis_can_convert(uint32_t src_format, uint32_t dst_format);

/* The pairs that UpdateSurface and UpdateTexture take:
 * those of wentuqis_can_convert without planar sources and without those that convert into A8R8G8B8 only. */
WENTUQIS_CALL WENTUQIS_MUST_USE
bool wentuqis_can_convert_update(uint32_t src_format, uint32_t dst_format);

/* Converts the texels of a region of src into dst by slice, row, column; the last of overlapping texels stands, X is
 * written as ones. In the six sources from A2B10G10R10 to L16 an unsigned code gives the nearest byte, a signed n the
 * nearest to 255n/127, and 0 if at or below zero; L16 fills red, green and blue; a channel that is lacking is 255.
 * YUV goes by WENTUQIS_BT601.
 * Refusals 1 to 4; with width, height or depth 0 neither 3 nor 4, and nothing is written. */
WENTUQIS_CALL WENTUQIS_MUST_USE WENTUQIS_NONNULL WENTUQIS_WRITES(1, 2) WENTUQIS_READS(4, 5) WENTUQIS_READS_ONE(7)
uint32_t wentuqis_convert_region(uint8_t *dst, size_t dst_len, uint32_t dst_format,
                                 const uint8_t *src, size_t src_len, uint32_t src_format,
                                 const WentuqisRegion *region);

/* The same with YUV by the numbers of a set. With L = luma_gain * (Y - luma_offset), and u and v for U and V less the
 * centre, red is L + v_to_red * v, green L - u_to_green * u - v_to_green * v, blue L + u_to_blue * u. Each product is
 * rounded down to a 65536th and each sum to the nearest whole number, halves up, and clamped to 0..255: the byte lies
 * within 1/2 + 1/16384 of the exact value, clamped.
 * Refusals 1, 2, 15, 3 and 4, in this order; with width, height or depth 0 neither 3 nor 4, and nothing is written.
 * With a source that is not YUV the set is not looked at: its numbers may be any, and there is no 15. */
WENTUQIS_CALL WENTUQIS_MUST_USE WENTUQIS_NONNULL
WENTUQIS_WRITES(1, 2) WENTUQIS_READS(4, 5) WENTUQIS_READS_ONE(7) WENTUQIS_READS_ONE(8)
uint32_t wentuqis_convert_region_with_set(uint8_t *dst, size_t dst_len, uint32_t dst_format,
                                          const uint8_t *src, size_t src_len, uint32_t src_format,
                                          const WentuqisRegion *region, const WentuqisYuvSet *set);

/* Hands back WENTUQIS_BT601: each number is proved to be the nearest to its decimal. Never refuses. */
WENTUQIS_CALL WENTUQIS_NONNULL WENTUQIS_WRITES_ONE(1)
void wentuqis_bt601(WentuqisYuvSet *set);

/* Hands back WENTUQIS_BT709, likewise. Never refuses. */
WENTUQIS_CALL WENTUQIS_NONNULL WENTUQIS_WRITES_ONE(1)
void wentuqis_bt709(WentuqisYuvSet *set);

/* Red, green and blue of a BT.601 sample of reduced range; luma starts at 16.065, cb (U) and cr (V) centre on 127.5.
 * Never refuses. */
WENTUQIS_CALL WENTUQIS_NONNULL WENTUQIS_WRITES_ONE(4)
void wentuqis_yuv_to_rgb8(uint8_t luma, uint8_t cb, uint8_t cr, uint8_t rgb[3]);

/* The same colour as wentuqis_yuv_to_rgb8, for every sample, by five tables of 256 numbers, which are looked up and
 * added. docs/BENCHMARKS.md has what a call of either takes. Never refuses. */
WENTUQIS_CALL WENTUQIS_NONNULL WENTUQIS_WRITES_ONE(4)
void wentuqis_yuv_to_rgb8_by_tables(uint8_t luma, uint8_t cb, uint8_t cr, uint8_t rgb[3]);

/* The layout of a planar frame: pitch is width raised to a multiple of 4, luma rows are the height.
 * Refusal 14, with a layout of zeros. */
WENTUQIS_CALL WENTUQIS_MUST_USE WENTUQIS_NONNULL WENTUQIS_WRITES_ONE(4)
uint32_t wentuqis_planar_yuv_layout(uint32_t format, uint32_t width, uint32_t height, WentuqisPlanarYuvLayout *layout);

/* The same for a frame known by its pitch and luma rows. Refusal 14, with a layout of zeros. */
WENTUQIS_CALL WENTUQIS_MUST_USE WENTUQIS_NONNULL WENTUQIS_WRITES_ONE(4)
uint32_t wentuqis_planar_yuv_layout_from_pitch(uint32_t format, size_t pitch, size_t luma_rows,
                                               WentuqisPlanarYuvLayout *layout);

/* One texel of a D3DCOLOR (0xAARRGGBB). X keeps the colour's alpha bits. Refusal 5, with a fill of zeros. */
WENTUQIS_CALL WENTUQIS_MUST_USE WENTUQIS_NONNULL WENTUQIS_WRITES_ONE(3)
uint32_t wentuqis_d3dcolor_fill_pixel_bytes(uint32_t color, uint32_t format, WentuqisFillPixel *fill);

/* Repeats pixel over all of dst: byte i becomes pixel[i % pixel_len].
 * Never refuses; an empty pixel changes no byte. */
WENTUQIS_CALL WENTUQIS_NONNULL WENTUQIS_WRITES(1, 2) WENTUQIS_READS(3, 4)
void wentuqis_splat_pixel_pattern(uint8_t *dst, size_t dst_len, const uint8_t *pixel, size_t pixel_len);

/* The binary16 number nearest to a binary32 one, ties to even, both as their bits. Never refuses.
 * The sign stays: magnitudes up to 2^-25 give zero, from 65520 on infinity, a NaN gives 0x7e00. */
WENTUQIS_CALL WENTUQIS_MUST_USE
uint16_t wentuqis_f32_to_f16_bits(uint32_t bits);

/* Red, green, blue and alpha of a D3DCOLOR (0xAARRGGBB), each divided by 255. Never refuses. */
WENTUQIS_CALL WENTUQIS_NONNULL WENTUQIS_WRITES_ONE(2)
void wentuqis_d3dcolor_to_rgba_f32(uint32_t color, float rgba[4]);

/* The layout of the two planes of a picture: depth pitch and stencil pitch are 4 x width and width, raised to a
 * multiple of alignment, which counts as 4 if below. Refusals 6 to 8, with a layout of zeros. */
WENTUQIS_CALL WENTUQIS_MUST_USE WENTUQIS_NONNULL WENTUQIS_WRITES_ONE(4)
uint32_t wentuqis_plane_layout(uint32_t width, uint32_t height, uint32_t alignment, WentuqisPlaneLayout *layout);

/* Unpacks each pixel: what its code stands for, rounded once, into depth, the stencil byte of D24S8 into stencil. A
 * layout of any numbers may be lent. Refusals 9 to 13. Row padding is kept. Without a stencil its plane is neither read
 * nor written. */
WENTUQIS_CALL WENTUQIS_MUST_USE WENTUQIS_NONNULL
WENTUQIS_WRITES(1, 2) WENTUQIS_WRITES(3, 4) WENTUQIS_READS(5, 6) WENTUQIS_READS_ONE(9)
uint32_t wentuqis_unpack(uint8_t *depth, size_t depth_len, uint8_t *stencil, size_t stencil_len,
                         const uint8_t *packed, size_t packed_len, size_t packed_pitch, uint32_t format,
                         const WentuqisPlaneLayout *layout);

/* Packs each pixel: its depth, clamped to 0..1, NaN as 0, as the nearest code, ties to even; X as 0. Padding is kept.
 * Refusals 9 to 13. Packing the untouched planes of an unpacked D16 or D24S8 picture restores every pixel. */
WENTUQIS_CALL WENTUQIS_MUST_USE WENTUQIS_NONNULL
WENTUQIS_WRITES(1, 2) WENTUQIS_READS(4, 5) WENTUQIS_READS(6, 7) WENTUQIS_READS_ONE(9)
uint32_t wentuqis_pack(uint8_t *packed, size_t packed_len, size_t packed_pitch,
                       const uint8_t *depth, size_t depth_len, const uint8_t *stencil, size_t stencil_len,
                       uint32_t format, const WentuqisPlaneLayout *layout);

#ifdef __cplusplus
}
#endif

#endif
