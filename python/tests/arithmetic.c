/* What the header says of the arithmetic in each mode of the processor, for test_live.py. A line each: the mode, and the
 * answers for floats, for doubles and for both.
 */
#include "identify.h"
#include <stdio.h>
#include <xmmintrin.h>

int main(void)
{
    static const struct {
        const char *name;
        unsigned control;
    } modes[] = {
        {"default", 0x1f80}, {"flush-to-zero", 0x9f80}, {"denormals-are-zero", 0x1fc0},
        {"down", 0x3f80},    {"up", 0x5f80},            {"to-zero", 0x7f80},
    };
    for (size_t i = 0; i < sizeof modes / sizeof *modes; i++) {
        _mm_setcsr(modes[i].control);
        const int singles = identify_singles_ok(), doubles = identify_doubles_ok(), both = identify_arithmetic_ok();
        _mm_setcsr(modes[0].control);
        printf("%s %d%d%d\n", modes[i].name, singles, doubles, both);
    }
    return 0;
}
