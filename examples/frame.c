/*
 * A camera frame in NV12, eight colour bars of BT.709, shown on a screen in A8R8G8B8; then the same frame one byte
 * short, which is refused and leaves the screen as it was. A program to start from: replace new_frame by a camera.
 *
 *     cc -Iinclude examples/frame.c target/staticlib/libwentuqis.a -o frame
 */
#include <inttypes.h>
#include <stdio.h>
#include <stdlib.h>
#include <string.h>

#include "wentuqis.h"

enum { WIDTH = 64, HEIGHT = 48, BARS = 8, PADDING = 32 };

/* Name, luma, U and V of a bar. */
static const struct {
    const char *name;
    uint8_t luma, u, v;
} bars[BARS] = {
    {"white", 180, 128, 128}, {"yellow", 168, 44, 136}, {"cyan", 145, 147, 44}, {"green", 133, 63, 52},
    {"magenta", 63, 193, 204}, {"red", 51, 109, 212}, {"blue", 28, 212, 120}, {"black", 16, 128, 128},
};

/* Whether a call was accepted; says so where it was not. */
static bool accepted(const char *call, uint32_t reply)
{
    if (reply == WENTUQIS_ACCEPTED) {
        return true;
    }
    printf("%s: refused (%" PRIu32 "): %s\n", call, reply, wentuqis_refusal_text(reply));
    return false;
}

/* The bars as a frame of this layout; NULL without memory. */
static uint8_t *new_frame(const WentuqisPlanarYuvLayout *layout)
{
    uint8_t *frame = calloc(layout->total_bytes, 1);

    for (size_t y = 0; frame != NULL && y < HEIGHT; y++) {
        for (size_t x = 0; x < WIDTH; x++) {
            const size_t bar = x * BARS / WIDTH;
            uint8_t *chroma = frame + layout->pitch * (layout->luma_rows + y / 2) + x / 2 * 2;
            frame[layout->pitch * y + x] = bars[bar].luma;
            chroma[0] = bars[bar].u;
            chroma[1] = bars[bar].v;
        }
    }
    return frame;
}

/* Shows a frame of this layout by BT.709; false if it was refused. */
static bool show(uint8_t *screen, size_t screen_len, size_t screen_pitch, const uint8_t *frame, size_t frame_len,
                 const WentuqisPlanarYuvLayout *layout)
{
    static const WentuqisYuvSet set = WENTUQIS_BT709;
    const WentuqisRegion region = {
        .source = {.pitch = (int64_t)layout->pitch, .slice_pitch = layout->pitch * layout->luma_rows},
        .destination = {.pitch = (int64_t)screen_pitch},
        .depth = 1,
        .width = WIDTH,
        .height = HEIGHT,
    };

    return accepted("convert", wentuqis_convert_region_with_set(screen, screen_len, WENTUQIS_FMT_A8R8G8B8, frame,
                                                                frame_len, WENTUQIS_FMT_NV12, &region, &set));
}

/* Prints the middle texel of each bar. */
static void print_bars(const uint8_t *screen, size_t screen_pitch)
{
    for (size_t bar = 0; bar < BARS; bar++) {
        const size_t x = (2 * bar + 1) * WIDTH / (2 * BARS);
        const uint8_t *texel = screen + HEIGHT / 2 * screen_pitch + 4 * x;
        printf("%-8s red %3d  green %3d  blue %3d\n", bars[bar].name, texel[2], texel[1], texel[0]);
    }
}

int main(void)
{
    static uint8_t screen[(4 * WIDTH + PADDING) * HEIGHT], before[sizeof screen];
    const size_t screen_pitch = 4 * WIDTH + PADDING;
    WentuqisPlanarYuvLayout layout = {0};
    int status = EXIT_FAILURE;

    if (!accepted("layout", wentuqis_planar_yuv_layout(WENTUQIS_FMT_NV12, WIDTH, HEIGHT, &layout))) {
        return EXIT_FAILURE;
    }
    uint8_t *frame = new_frame(&layout);
    if (frame == NULL) {
        puts("no memory for a frame");
        return EXIT_FAILURE;
    }
    if (show(screen, sizeof screen, screen_pitch, frame, layout.total_bytes, &layout)) {
        print_bars(screen, screen_pitch);
        memcpy(before, screen, sizeof screen);
        const bool shown = show(screen, sizeof screen, screen_pitch, frame, layout.total_bytes - 1, &layout);
        if (!shown && memcmp(before, screen, sizeof screen) == 0) {
            puts("the screen is as it was");
            status = EXIT_SUCCESS;
        }
    }
    free(frame);
    return status;
}
