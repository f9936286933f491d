/*
 * Prints size and offsets of the structs of include/wentuqis.h: a line `STRUCT SIZE` for each, then a line
 * `STRUCT.FIELD OFFSET SIZE` for each of its fields. The names are those of Rattle; tests/structs.rs compares.
 */
#include <stdio.h>

#include "wentuqis.h"

#define STRUCT(name, type) printf("%s %zu\n", name, sizeof(type))
#define FIELD(name, type, field) \
    printf("%s.%s %zu %zu\n", name, #field, offsetof(type, field), sizeof(((type *)0)->field))

int main(void)
{
    STRUCT("Side", WentuqisSide);
    FIELD("Side", WentuqisSide, start);
    FIELD("Side", WentuqisSide, pitch);
    FIELD("Side", WentuqisSide, slice_pitch);
    FIELD("Side", WentuqisSide, x);
    FIELD("Side", WentuqisSide, y);

    STRUCT("ConvertRegion", WentuqisRegion);
    FIELD("ConvertRegion", WentuqisRegion, source);
    FIELD("ConvertRegion", WentuqisRegion, destination);
    FIELD("ConvertRegion", WentuqisRegion, depth);
    FIELD("ConvertRegion", WentuqisRegion, width);
    FIELD("ConvertRegion", WentuqisRegion, height);

    STRUCT("YuvSet", WentuqisYuvSet);
    FIELD("YuvSet", WentuqisYuvSet, luma_gain);
    FIELD("YuvSet", WentuqisYuvSet, luma_offset);
    FIELD("YuvSet", WentuqisYuvSet, v_to_red);
    FIELD("YuvSet", WentuqisYuvSet, u_to_green);
    FIELD("YuvSet", WentuqisYuvSet, v_to_green);
    FIELD("YuvSet", WentuqisYuvSet, u_to_blue);
    FIELD("YuvSet", WentuqisYuvSet, chroma_centre);

    STRUCT("PlaneLayout", WentuqisPlaneLayout);
    FIELD("PlaneLayout", WentuqisPlaneLayout, width);
    FIELD("PlaneLayout", WentuqisPlaneLayout, height);
    FIELD("PlaneLayout", WentuqisPlaneLayout, depth_pitch);
    FIELD("PlaneLayout", WentuqisPlaneLayout, stencil_pitch);

    STRUCT("PlanarYuvLayout", WentuqisPlanarYuvLayout);
    FIELD("PlanarYuvLayout", WentuqisPlanarYuvLayout, pitch);
    FIELD("PlanarYuvLayout", WentuqisPlanarYuvLayout, luma_rows);
    FIELD("PlanarYuvLayout", WentuqisPlanarYuvLayout, chroma_rows);
    FIELD("PlanarYuvLayout", WentuqisPlanarYuvLayout, total_bytes);

    STRUCT("FillPixel", WentuqisFillPixel);
    FIELD("FillPixel", WentuqisFillPixel, bytes);
    FIELD("FillPixel", WentuqisFillPixel, length);
    return 0;
}
