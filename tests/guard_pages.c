/*
 * Makes random calls of include/wentuqis.h for so many seconds. Each lent buffer stands between pages that may not be
 * touched, flush with the one before it and then, in a second call with the same arguments, flush with the one after it;
 * what is only read stands in a page that may not be written. Held are
 * - that no call touches a byte that it was not lent: it would end the program;
 * - the reply, where a buffer has the least length, and where it is one byte shorter; else that it is one of the call's;
 * - that both calls give the same reply and the same bytes;
 * - that a refusal leaves every lent byte, and makes what is handed back zeros.
 * usage: guard_pages SECONDS [SEED]   The exit status is 1 if anything differs, and 9 if a call touched such a byte.
 */
#define _DEFAULT_SOURCE
#define _POSIX_C_SOURCE 200809L

#include <setjmp.h>
#include <signal.h>
#include <stdio.h>
#include <stdlib.h>
#include <string.h>
#include <time.h>

#include "wentuqis.h"

/* Bytes between two guards, and of each guard: a page of any system, and room for every call here. */
#define ROOM ((size_t)65536)

#ifdef _WIN32
#include <windows.h>

static uint8_t *between_guards(void)
{
    uint8_t *guard = VirtualAlloc(NULL, 3 * ROOM, MEM_RESERVE, PAGE_NOACCESS);

    return guard != NULL ? VirtualAlloc(guard + ROOM, ROOM, MEM_COMMIT, PAGE_READWRITE) : NULL;
}

static bool protect(uint8_t *room, bool writable)
{
    DWORD before;

    return VirtualProtect(room, ROOM, writable ? PAGE_READWRITE : PAGE_READONLY, &before) != 0;
}

static bool may_read(uint8_t *at)
{
    MEMORY_BASIC_INFORMATION page;

    return VirtualQuery(at, &page, sizeof page) != 0 && page.State == MEM_COMMIT && page.Protect != PAGE_NOACCESS;
}

static bool may_write(uint8_t *at)
{
    MEMORY_BASIC_INFORMATION page;

    return VirtualQuery(at, &page, sizeof page) != 0 && page.State == MEM_COMMIT && page.Protect == PAGE_READWRITE;
}
#else
#include <sys/mman.h>
#include <unistd.h>

static uint8_t *between_guards(void)
{
    void *guard = mmap(NULL, 3 * ROOM, PROT_NONE, MAP_PRIVATE | MAP_ANONYMOUS, -1, 0);
    uint8_t *room;

    if (guard == MAP_FAILED) {
        return NULL;
    }
    room = (uint8_t *)guard + ROOM;
    return mprotect(room, ROOM, PROT_READ | PROT_WRITE) == 0 ? room : NULL;
}

static bool protect(uint8_t *room, bool writable)
{
    return mprotect(room, ROOM, writable ? PROT_READ | PROT_WRITE : PROT_READ) == 0;
}

static sigjmp_buf after_the_fault;

static void step_over(int number)
{
    siglongjmp(after_the_fault, number);
}

/* Whether a byte may be read, found by reading it. */
static bool may_read(uint8_t *at)
{
    if (sigsetjmp(after_the_fault, 1) != 0) {
        return false;
    }
    (void)*(volatile uint8_t *)at;
    return true;
}

static bool may_write(uint8_t *at)
{
    if (sigsetjmp(after_the_fault, 1) != 0) {
        return false;
    }
    *(volatile uint8_t *)at = 1;
    return true;
}
#endif

static uint64_t state, seed, calls, wrong;
static const char *name = "no call";

static void touched(int number)
{
    (void)number;
    printf("guard_pages: %s touched a byte that it was not lent; seed %llu, call %llu\n", name, (unsigned long long)seed,
           (unsigned long long)calls);
    fflush(stdout);
    _exit(9);
}

static void check(bool holds, const char *what)
{
    if (!holds) {
        wrong++;
        if (wrong <= 5) {
            printf("guard_pages: %s: %s; seed %llu, call %llu\n", name, what, (unsigned long long)seed,
                   (unsigned long long)calls);
        }
    }
}

/* Marsaglia's xorshift generator of 64 bits, shifts 13, 7 and 17. */
static uint64_t next(void)
{
    state ^= state << 13;
    state ^= state >> 7;
    state ^= state << 17;
    return state;
}

/* A number from 0 up to, not including, bound. */
static size_t below(size_t bound)
{
    return (size_t)((next() >> 32) % bound);
}

/* A number at which sums, layouts or textures reach a limit, or one of a random count of bits. */
static uint64_t any_number(void)
{
    static const uint64_t edges[] = {0,          1,          2,           3,          8191,       16384,
                                     16385,      0x7fffffff, 0x80000000,  0xffffffff, UINT64_MAX, 0x100000000,
                                     UINT64_MAX / 2, UINT64_MAX / 2 + 1, UINT64_MAX / 4 + 1, UINT64_MAX - 1};

    return below(2) != 0 ? edges[below(sizeof edges / sizeof *edges)] : next() >> below(64);
}

/* What a call is lent: only read, written where it is accepted, or handed back, and then zeros where it is refused. */
enum use { READ, WRITTEN, HANDED_BACK };

static struct lent {
    uint8_t *room;
    uint8_t content[ROOM], first[ROOM];
    size_t length;
    enum use use;
} lent[4];

static uint8_t *places[4];

static void lend(int slot, enum use use, size_t length)
{
    lent[slot].use = use;
    lent[slot].length = length;
    for (size_t i = 0; i < length; i += 8) {
        uint64_t bytes = next();
        memcpy(lent[slot].content + i, &bytes, length - i < 8 ? length - i : 8);
    }
}

static void lend_copy(int slot, const void *content, size_t length)
{
    lent[slot].use = READ;
    lent[slot].length = length;
    memcpy(lent[slot].content, content, length);
}

/* The arguments of a call that are no buffers; those that are lie in the slots. */
static uint32_t source_format, destination_format, format;
static size_t packed_pitch;

typedef uint32_t call(void);

static uint32_t convert(void)
{
    return wentuqis_convert_region(places[0], lent[0].length, destination_format, places[1], lent[1].length,
                                   source_format, (const WentuqisRegion *)(void *)places[2]);
}

static uint32_t convert_with_set(void)
{
    return wentuqis_convert_region_with_set(places[0], lent[0].length, destination_format, places[1], lent[1].length,
                                            source_format, (const WentuqisRegion *)(void *)places[2],
                                            (const WentuqisYuvSet *)(void *)places[3]);
}

static uint32_t unpack(void)
{
    return wentuqis_unpack(places[0], lent[0].length, places[1], lent[1].length, places[2], lent[2].length, packed_pitch,
                           format, (const WentuqisPlaneLayout *)(void *)places[3]);
}

static uint32_t pack(void)
{
    return wentuqis_pack(places[2], lent[2].length, packed_pitch, places[0], lent[0].length, places[1], lent[1].length,
                         format, (const WentuqisPlaneLayout *)(void *)places[3]);
}

static uint32_t splat(void)
{
    wentuqis_splat_pixel_pattern(places[0], lent[0].length, places[1], lent[1].length);
    return 0;
}

/* Numbers of the calls below. */
static uint64_t numbers[3];

static uint32_t fill(void)
{
    return wentuqis_d3dcolor_fill_pixel_bytes((uint32_t)numbers[0], (uint32_t)numbers[1],
                                              (WentuqisFillPixel *)(void *)places[0]);
}

static uint32_t plane_layout(void)
{
    return wentuqis_plane_layout((uint32_t)numbers[0], (uint32_t)numbers[1], (uint32_t)numbers[2],
                                 (WentuqisPlaneLayout *)(void *)places[0]);
}

static uint32_t planar_layout(void)
{
    return wentuqis_planar_yuv_layout((uint32_t)numbers[0], (uint32_t)numbers[1], (uint32_t)numbers[2],
                                      (WentuqisPlanarYuvLayout *)(void *)places[0]);
}

static uint32_t planar_layout_from_pitch(void)
{
    return wentuqis_planar_yuv_layout_from_pitch((uint32_t)numbers[0], (size_t)numbers[1], (size_t)numbers[2],
                                                 (WentuqisPlanarYuvLayout *)(void *)places[0]);
}

static uint32_t rgba(void)
{
    wentuqis_d3dcolor_to_rgba_f32((uint32_t)numbers[0], (float *)(void *)places[0]);
    return 0;
}

static uint32_t rgb(void)
{
    wentuqis_yuv_to_rgb8((uint8_t)numbers[0], (uint8_t)numbers[1], (uint8_t)numbers[2], places[0]);
    return 0;
}

static uint32_t rgb_by_tables(void)
{
    wentuqis_yuv_to_rgb8_by_tables((uint8_t)numbers[0], (uint8_t)numbers[1], (uint8_t)numbers[2], places[0]);
    return 0;
}

static uint32_t bt601(void)
{
    wentuqis_bt601((WentuqisYuvSet *)(void *)places[0]);
    return 0;
}

static uint32_t bt709(void)
{
    wentuqis_bt709((WentuqisYuvSet *)(void *)places[0]);
    return 0;
}

static bool zeros(const uint8_t *bytes, size_t length)
{
    for (size_t i = 0; i < length; i++) {
        if (bytes[i] != 0) {
            return false;
        }
    }
    return true;
}

/* Accepted and refused calls of each kind. */
static struct count {
    const char *name;
    uint64_t accepted, refused;
} counts[16];

static void count(uint32_t reply)
{
    struct count *found = counts;

    while (found->name != NULL && found->name != name) {
        found++;
    }
    found->name = name;
    *(reply == 0 ? &found->accepted : &found->refused) += 1;
}

/* Makes the call in both places of its buffers; the reply. */
static uint32_t made(const char *called, call *make, int slots)
{
    uint32_t reply[2];

    name = called;
    for (int end = 0; end < 2; end++) {
        for (int i = 0; i < slots; i++) {
            places[i] = lent[i].room + (end != 0 ? ROOM - lent[i].length : 0);
            memcpy(places[i], lent[i].content, lent[i].length);
            if (lent[i].use == READ) {
                check(protect(lent[i].room, false), "a page is not protected");
            }
        }
        calls++;
        reply[end] = make();
        for (int i = 0; i < slots; i++) {
            if (lent[i].use == READ) {
                check(protect(lent[i].room, true), "a page is not given back");
            } else if (reply[end] != 0 && lent[i].use == WRITTEN) {
                check(memcmp(places[i], lent[i].content, lent[i].length) == 0, "refused, a lent byte changed");
            } else if (reply[end] != 0) {
                check(zeros(places[i], lent[i].length), "refused, what is handed back is not zeros");
            }
            if (end == 0) {
                memcpy(lent[i].first, places[i], lent[i].length);
            } else {
                check(memcmp(places[i], lent[i].first, lent[i].length) == 0, "other bytes in another place");
            }
        }
        count(reply[end]);
    }
    check(reply[0] == reply[1], "another reply in another place");
    return reply[0];
}

/* Sources, and how many are destinations too; what a texel adds to its row. */
static const struct format {
    uint32_t code;
    size_t bytes;
} formats[24] = {
    {WENTUQIS_FMT_R8G8B8, 3},        {WENTUQIS_FMT_A8R8G8B8, 4},      {WENTUQIS_FMT_X8R8G8B8, 4},
    {WENTUQIS_FMT_R5G6B5, 2},        {WENTUQIS_FMT_X1R5G5B5, 2},      {WENTUQIS_FMT_A1R5G5B5, 2},
    {WENTUQIS_FMT_A4R4G4B4, 2},      {WENTUQIS_FMT_A8, 1},            {WENTUQIS_FMT_A8B8G8R8, 4},
    {WENTUQIS_FMT_X8B8G8R8, 4},      {WENTUQIS_FMT_L8, 1},            {WENTUQIS_FMT_A8L8, 2},
    {WENTUQIS_FMT_A16B16G16R16, 8},  {WENTUQIS_FMT_A32B32G32R32F, 16}, {WENTUQIS_FMT_A2B10G10R10, 4},
    {WENTUQIS_FMT_G16R16, 4},        {WENTUQIS_FMT_A2R10G10B10, 4},   {WENTUQIS_FMT_V8U8, 2},
    {WENTUQIS_FMT_Q8W8V8U8, 4},      {WENTUQIS_FMT_L16, 2},           {WENTUQIS_FMT_YUY2, 2},
    {WENTUQIS_FMT_UYVY, 2},          {WENTUQIS_FMT_YV12, 1},          {WENTUQIS_FMT_NV12, 1}};

static bool is_planar(uint32_t code)
{
    return code == WENTUQIS_FMT_YV12 || code == WENTUQIS_FMT_NV12;
}

static bool is_packed(uint32_t code)
{
    return code == WENTUQIS_FMT_YUY2 || code == WENTUQIS_FMT_UYVY;
}

static size_t padding(void)
{
    static const size_t some[] = {0, 0, 1, 4, 7};

    return some[below(5)];
}

/* The least bytes of a row of so many texels. */
static size_t row_bytes(struct format of, size_t texels)
{
    return is_packed(of.code) ? (texels + 1) / 2 * 4 : is_planar(of.code) ? (texels + 1) / 2 * 2 : texels * of.bytes;
}

/* Gives a side a start, and stores it bottom row first once in two times if it may be. */
static void turn(WentuqisSide *side, const WentuqisRegion *region, bool may_turn)
{
    side->start = padding();
    if (may_turn && below(2) != 0) {
        side->start += (side->y + region->height - 1) * (uint64_t)side->pitch;
        side->pitch = -side->pitch;
    }
}

/* One past the last byte that the region needs on this side, whose format is not planar. */
static size_t linear_length(const WentuqisSide *side, const WentuqisRegion *region, struct format of)
{
    uint32_t highest = side->y + (side->pitch < 0 ? 0 : region->height - 1);

    return (size_t)side->start + (region->depth - 1) * side->slice_pitch + (size_t)(highest * side->pitch)
           + row_bytes(of, side->x + region->width);
}

/* The first byte that the region needs on this side, which is stored bottom row first. */
static uint64_t lowest(const WentuqisSide *side, const WentuqisRegion *region, struct format of)
{
    return side->start + (uint64_t)((side->y + region->height - 1) * side->pitch)
           + (is_packed(of.code) ? side->x / 2 * 4 : side->x * of.bytes);
}

/* The same of a planar source: luma, or the later of U and V. */
static size_t planar_length(const WentuqisSide *side, const WentuqisRegion *region, uint32_t code)
{
    size_t pitch = (size_t)side->pitch, luma_rows = side->slice_pitch / pitch, chroma_rows = (luma_rows + 1) / 2;
    size_t x = side->x + region->width - 1, y = side->y + region->height - 1;
    size_t chroma = (size_t)side->start + side->slice_pitch + 1;

    if (code == WENTUQIS_FMT_NV12) {
        chroma += y / 2 * pitch + 2 * (x / 2) + 1;
    } else {
        chroma += (y / 2 + chroma_rows) * (pitch / 2) + x / 2;
    }
    return chroma;
}

/* Replaces one number of a region by any other. */
static void damage_region(WentuqisRegion *region)
{
    WentuqisSide *side = below(2) != 0 ? &region->source : &region->destination;
    uint64_t number = any_number();

    switch (below(9)) {
    case 0:
        side->pitch = (int64_t)number;
        break;
    case 1:
        side->slice_pitch = (size_t)number;
        break;
    case 2:
        side->x = (uint32_t)number;
        break;
    case 3:
        side->y = (uint32_t)number;
        break;
    case 4:
        region->depth = (size_t)number;
        break;
    case 5:
        region->width = (uint32_t)number;
        break;
    case 6:
        region->height = (uint32_t)number;
        break;
    case 7:
        side->start = number;
        break;
    default:
        source_format = (uint32_t)number;
    }
}

/* Whether a call over the region ends soon. */
static bool is_small(const WentuqisRegion *region)
{
    const size_t many = 4096;

    return region->width == 0 || region->height == 0 || region->depth == 0
           || (region->width < many && region->height < many && region->depth < many
               && region->width * region->height * region->depth < 16 * many);
}

static uint32_t converted(bool with_set)
{
    return with_set ? made("convert_region_with_set", convert_with_set, 4) : made("convert_region", convert, 3);
}

static void conversion(void)
{
    struct format from, to;
    WentuqisRegion region;
    WentuqisYuvSet set = WENTUQIS_BT709;
    bool with_set = below(2) != 0, is_yuv;
    size_t src_length, dst_length, luma_rows, pitch;
    uint64_t below_it;
    uint32_t reply;

    do {
        from = formats[below(24)];
        to = formats[below(12)];
    } while (!wentuqis_can_convert(from.code, to.code));
    source_format = from.code;
    destination_format = to.code;
    is_yuv = is_packed(from.code) || is_planar(from.code);
    memset(&region, 0, sizeof region);
    region.width = (uint32_t)(1 + below(below(4) != 0 ? 12 : 200));
    region.height = (uint32_t)(1 + below(4));
    region.depth = is_planar(from.code) ? 1 : 1 + below(2);
    region.source.x = (uint32_t)below(4);
    region.source.y = (uint32_t)below(4);
    region.destination.x = (uint32_t)below(4);
    region.destination.y = (uint32_t)below(4);
    pitch = row_bytes(to, region.destination.x + region.width) + padding();
    region.destination.pitch = (int64_t)pitch;
    region.destination.slice_pitch = pitch * (region.destination.y + region.height) + padding();
    turn(&region.destination, &region, true);
    pitch = row_bytes(from, region.source.x + region.width) + (is_planar(from.code) ? 2 * below(4) : padding());
    region.source.pitch = (int64_t)pitch;
    if (is_planar(from.code)) {
        luma_rows = region.source.y + region.height + below(3);
        if (from.code == WENTUQIS_FMT_YV12) {
            luma_rows += luma_rows % 2;
        }
        region.source.slice_pitch = pitch * luma_rows;
        turn(&region.source, &region, false);
        src_length = planar_length(&region.source, &region, from.code);
    } else {
        region.source.slice_pitch = pitch * (region.source.y + region.height) + padding();
        turn(&region.source, &region, true);
        src_length = linear_length(&region.source, &region, from);
    }
    dst_length = linear_length(&region.destination, &region, to);

    lend(0, WRITTEN, dst_length);
    lend(1, READ, src_length);
    lend_copy(2, &region, sizeof region);
    lend_copy(3, &set, sizeof set);
    check(converted(with_set) == 0, "buffers of the least lengths are refused");
    lent[1].length = src_length - 1;
    check(converted(with_set) == WENTUQIS_SOURCE_OUTSIDE, "a source one byte short");
    lent[1].length = src_length;
    lent[0].length = dst_length - 1;
    check(converted(with_set) == WENTUQIS_DESTINATION_OUTSIDE, "a destination one byte short");
    lent[0].length = dst_length;
    if (region.source.pitch < 0) {
        below_it = lowest(&region.source, &region, from) + 1;
        region.source.start -= below_it;
        lend_copy(2, &region, sizeof region);
        check(converted(with_set) == WENTUQIS_SOURCE_OUTSIDE, "a source byte below 0");
        region.source.start += below_it;
    }
    if (region.destination.pitch < 0) {
        below_it = lowest(&region.destination, &region, to) + 1;
        region.destination.start -= below_it;
        lend_copy(2, &region, sizeof region);
        check(converted(with_set) == WENTUQIS_DESTINATION_OUTSIDE, "a destination byte below 0");
        region.destination.start += below_it;
    }
    lend_copy(2, &region, sizeof region);
    if (with_set) {
        set.u_to_blue = (uint32_t)any_number();
        lend_copy(3, &set, sizeof set);
        reply = converted(true);
        check(reply == (is_yuv && set.u_to_blue > 262143 ? WENTUQIS_ILLEGAL_SET : WENTUQIS_ACCEPTED), "a gain");
    }
    damage_region(&region);
    if (is_small(&region)) {
        lend_copy(2, &region, sizeof region);
        reply = converted(with_set);
        check(reply <= WENTUQIS_DESTINATION_OUTSIDE || (with_set && reply == WENTUQIS_ILLEGAL_SET), "a reply of its own");
    }
}

static uint32_t transferred(bool packs)
{
    lent[0].use = lent[1].use = packs ? READ : WRITTEN;
    lent[2].use = packs ? WRITTEN : READ;
    return packs ? made("pack", pack, 4) : made("unpack", unpack, 4);
}

static void transfer(void)
{
    static const uint32_t depths[] = {WENTUQIS_FMT_D16, WENTUQIS_FMT_D24X8, WENTUQIS_FMT_D24S8};
    size_t width = 1 + below(40), height = 1 + below(5), row, packed_length;
    WentuqisPlaneLayout layout;
    bool packs = below(2) != 0, has_stencil;
    uint32_t reply;

    format = depths[below(3)];
    has_stencil = format == WENTUQIS_FMT_D24S8;
    row = width * (format == WENTUQIS_FMT_D16 ? 2 : 4);
    packed_pitch = row + padding();
    packed_length = (height - 1) * packed_pitch + row;
    layout.width = width;
    layout.height = height;
    layout.depth_pitch = 4 * width + padding();
    layout.stencil_pitch = width + padding();
    lend(0, READ, (size_t)layout.depth_pitch * height);
    lend(1, READ, has_stencil ? (size_t)layout.stencil_pitch * height : 0);
    lend(2, READ, packed_length);
    lend_copy(3, &layout, sizeof layout);
    check(transferred(packs) == 0, "buffers of the least lengths are refused");
    lent[2].length--;
    check(transferred(packs) == WENTUQIS_SHORT_PACKED, "packed rows one byte short");
    lent[2].length++;
    lent[0].length--;
    check(transferred(packs) == WENTUQIS_SHORT_DEPTH, "a depth plane one byte short");
    lent[0].length++;
    if (has_stencil) {
        lent[1].length--;
        check(transferred(packs) == WENTUQIS_SHORT_STENCIL, "a stencil plane one byte short");
        lent[1].length++;
    }
    switch (below(6)) {
    case 0:
        layout.width = any_number();
        break;
    case 1:
        layout.height = any_number();
        break;
    case 2:
        layout.depth_pitch = any_number();
        break;
    case 3:
        layout.stencil_pitch = any_number();
        break;
    case 4:
        format = (uint32_t)any_number();
        break;
    default:
        packed_pitch = (size_t)any_number();
    }
    lend_copy(3, &layout, sizeof layout);
    reply = transferred(packs);
    check(reply == 0 || (reply >= WENTUQIS_NOT_PACKED_DEPTH && reply <= WENTUQIS_SHORT_STENCIL), "a reply of its own");
}

static void handed_back(void)
{
    static const uint32_t planar[] = {WENTUQIS_FMT_YV12, WENTUQIS_FMT_NV12};
    uint32_t reply;

    for (int i = 0; i < 3; i++) {
        numbers[i] = below(2) != 0 ? 1 + below(8192) : any_number();
    }
    lend(0, HANDED_BACK, sizeof(WentuqisPlaneLayout));
    reply = made("plane_layout", plane_layout, 1);
    check(reply == 0 || (reply >= WENTUQIS_ZERO_SIZE && reply <= WENTUQIS_OVER_64_BITS), "a reply of its own");
    numbers[0] = below(4) != 0 ? planar[below(2)] : any_number();
    lend(0, HANDED_BACK, sizeof(WentuqisPlanarYuvLayout));
    reply = made("planar_yuv_layout", planar_layout, 1);
    check(reply == 0 || reply == WENTUQIS_NO_PLANAR_LAYOUT, "a reply of its own");
    reply = made("planar_yuv_layout_from_pitch", planar_layout_from_pitch, 1);
    check(reply == 0 || reply == WENTUQIS_NO_PLANAR_LAYOUT, "a reply of its own");
    numbers[0] = next();
    numbers[1] = below(2) != 0 ? below(120) : any_number();
    lend(0, HANDED_BACK, sizeof(WentuqisFillPixel));
    reply = made("d3dcolor_fill_pixel_bytes", fill, 1);
    check(reply == 0 || reply == WENTUQIS_NO_FILL, "a reply of its own");
    lend(0, HANDED_BACK, 4 * sizeof(float));
    (void)made("d3dcolor_to_rgba_f32", rgba, 1);
    lend(0, HANDED_BACK, 3);
    (void)made("yuv_to_rgb8", rgb, 1);
    (void)made("yuv_to_rgb8_by_tables", rgb_by_tables, 1);
    lend(0, HANDED_BACK, sizeof(WentuqisYuvSet));
    (void)made("bt601", bt601, 1);
    (void)made("bt709", bt709, 1);
}

static void splats(void)
{
    lend(0, WRITTEN, below(300));
    lend(1, READ, below(21));
    (void)made("splat_pixel_pattern", splat, 2);
}

/* Reserves the rooms, and holds that what stands beside them is guarded. */
static bool guarded(void)
{
    bool all = true;

#ifndef _WIN32
    signal(SIGSEGV, step_over);
    signal(SIGBUS, step_over);
#endif
    for (int i = 0; i < 4; i++) {
        uint8_t *room = lent[i].room = between_guards();

        if (room == NULL || !may_write(room) || !may_write(room + ROOM - 1)) {
            return false;
        }
        all = all && !may_read(room - 1) && !may_read(room + ROOM) && !may_write(room - 1) && !may_write(room + ROOM);
        all = all && protect(room, false) && may_read(room) && !may_write(room) && protect(room, true);
    }
    signal(SIGSEGV, touched);
#ifndef _WIN32
    signal(SIGBUS, touched);
#endif
    return all;
}

int main(int argc, char **argv)
{
    time_t end = time(NULL) + (argc > 1 ? atoi(argv[1]) : 0);

    if (argc < 2 || argc > 3) {
        fprintf(stderr, "guard_pages: usage: guard_pages SECONDS [SEED]\n");
        return 2;
    }
    seed = argc > 2 ? strtoull(argv[2], NULL, 0) : (uint64_t)time(NULL);
    state = seed != 0 ? seed * 0x9e3779b97f4a7c15 : 1;
    if (!guarded()) {
        printf("guard_pages: a page beside a buffer is not guarded\n");
        return 1;
    }
    do {
        for (int i = 0; i < 16; i++) {
            conversion();
            transfer();
            splats();
        }
        handed_back();
    } while (time(NULL) < end);
    for (struct count *of = counts; of->name != NULL; of++) {
        printf("%-32s%12llu accepted%12llu refused\n", of->name, (unsigned long long)of->accepted,
               (unsigned long long)of->refused);
    }
    printf("guard_pages: seed %llu, %llu calls, %llu wrong\n", (unsigned long long)seed, (unsigned long long)calls,
           (unsigned long long)wrong);
    return wrong != 0;
}
