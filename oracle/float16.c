/* The C compiler's own conversion of binary32 to binary16, bits to bits: it stands behind neither the original nor the
 * port, and judges the port where it departs from the original. build.sh makes a library of it. */
#include <stdint.h>
#include <string.h>

uint16_t compiler_f32_to_f16_bits(uint32_t bits)
{
    float wide;
    _Float16 narrow;
    uint16_t code;

    memcpy(&wide, &bits, sizeof wide);
    narrow = (_Float16)wide;
    memcpy(&code, &narrow, sizeof code);
    return code;
}
