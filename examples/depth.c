/*
 * A depth picture in D24S8: unpacked into a depth plane and a stencil plane, a clearance read from it, and packed again,
 * which restores every pixel. Then a depth plane one byte short, which is refused. A program to start from: replace
 * draw by a rendered picture, and the two planes by those of the projection it was rendered with.
 *
 *     cc -Iinclude examples/depth.c target/staticlib/libwentuqis.a -o depth
 */
#include <inttypes.h>
#include <stdio.h>
#include <stdlib.h>
#include <string.h>

#include "wentuqis.h"

enum { WIDTH = 48, HEIGHT = 32, PITCH = 4 * WIDTH + 36, OTHER_PITCH = 4 * WIDTH + 100 };

/* What the stencil byte of a pixel says that it shows. */
enum { WALL = 1, CABINET = 2 };

/* The near and the far plane of the projection, and the distances along the view axis, in metres. */
static const double near_plane = 0.05, far_plane = 50.0, wall_at = 4.0, cabinet_at = 2.5;

/* The depth that Direct3D's projection gives to a distance, 0 at the near plane and 1 at the far plane. */
static double depth_of(double metres)
{
    return far_plane / (far_plane - near_plane) * (1.0 - near_plane / metres);
}

static double metres_of(double depth)
{
    return near_plane / (1.0 - depth * (far_plane - near_plane) / far_plane);
}

/* Whether a call was accepted; says so where it was not. */
static bool accepted(const char *call, uint32_t reply)
{
    if (reply == WENTUQIS_ACCEPTED) {
        return true;
    }
    printf("%s: refused (%" PRIu32 "): %s\n", call, reply, wentuqis_refusal_text(reply));
    return false;
}

/* A wall, and a cabinet before the middle of it: the stencil byte, then the nearest 24-bit code. */
static void draw(uint8_t packed[PITCH * HEIGHT])
{
    for (size_t y = 0; y < HEIGHT; y++) {
        for (size_t x = 0; x < WIDTH; x++) {
            const bool cabinet = x >= WIDTH / 3 && x < 2 * WIDTH / 3 && y >= HEIGHT / 4;
            const uint32_t code = (uint32_t)(depth_of(cabinet ? cabinet_at : wall_at) * 16777215.0 + 0.5);
            uint8_t *pixel = packed + PITCH * y + 4 * x;
            pixel[0] = cabinet ? CABINET : WALL;
            pixel[1] = (uint8_t)code;
            pixel[2] = (uint8_t)(code >> 8);
            pixel[3] = (uint8_t)(code >> 16);
        }
    }
}

/* The distance along the view axis of what a pixel shows. On a little-endian machine its bytes are a float. */
static double metres_at(const uint8_t *depth, const WentuqisPlaneLayout *layout, size_t x, size_t y)
{
    float number;

    memcpy(&number, depth + layout->depth_pitch * y + 4 * x, sizeof number);
    return metres_of(number);
}

/* How many pixels hold the same four bytes in both pictures. */
static size_t same_pixels(const uint8_t *packed, const uint8_t *again)
{
    size_t same = 0;

    for (size_t y = 0; y < HEIGHT; y++) {
        for (size_t x = 0; x < WIDTH; x++) {
            same += memcmp(packed + PITCH * y + 4 * x, again + OTHER_PITCH * y + 4 * x, 4) == 0;
        }
    }
    return same;
}

static int read_and_restore(const uint8_t *packed, uint8_t *depth, size_t depth_len, uint8_t *stencil,
                            size_t stencil_len, const WentuqisPlaneLayout *layout)
{
    static uint8_t again[OTHER_PITCH * HEIGHT];
    const size_t x = WIDTH / 2, y = HEIGHT / 2;

    if (!accepted("unpack", wentuqis_unpack(depth, depth_len, stencil, stencil_len, packed, PITCH * HEIGHT, PITCH,
                                            WENTUQIS_FMT_D24S8, layout))) {
        return EXIT_FAILURE;
    }
    if (stencil[layout->stencil_pitch * y + x] != CABINET || stencil[layout->stencil_pitch * y] != WALL) {
        puts("the stencil plane does not show the cabinet before the wall");
        return EXIT_FAILURE;
    }
    const double cabinet = metres_at(depth, layout, x, y), wall = metres_at(depth, layout, 0, y);
    printf("cabinet at %.3f m, wall at %.3f m, clearance %.3f m\n", cabinet, wall, wall - cabinet);

    if (!accepted("pack", wentuqis_pack(again, sizeof again, OTHER_PITCH, depth, depth_len, stencil, stencil_len,
                                        WENTUQIS_FMT_D24S8, layout))) {
        return EXIT_FAILURE;
    }
    const size_t same = same_pixels(packed, again);
    printf("packed again: %zu of %d pixels restored\n", same, WIDTH * HEIGHT);

    const bool short_plane = accepted("pack", wentuqis_pack(again, sizeof again, OTHER_PITCH, depth, depth_len - 1,
                                                            stencil, stencil_len, WENTUQIS_FMT_D24S8, layout));
    return same == WIDTH * HEIGHT && !short_plane ? EXIT_SUCCESS : EXIT_FAILURE;
}

int main(void)
{
    static uint8_t packed[PITCH * HEIGHT];
    WentuqisPlaneLayout layout = {0};
    int status = EXIT_FAILURE;

    draw(packed);
    if (!accepted("plane layout", wentuqis_plane_layout(WIDTH, HEIGHT, 256, &layout))) {
        return EXIT_FAILURE;
    }
    const size_t depth_len = layout.depth_pitch * layout.height;
    const size_t stencil_len = layout.stencil_pitch * layout.height;
    uint8_t *depth = calloc(depth_len, 1), *stencil = calloc(stencil_len, 1);
    if (depth == NULL || stencil == NULL) {
        puts("no memory for the planes");
    } else {
        status = read_and_restore(packed, depth, depth_len, stencil, stencil_len, &layout);
    }
    free(depth);
    free(stencil);
    return status;
}
