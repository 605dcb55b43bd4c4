/* krbrelay_is_supported on processors that lack one instruction set: what the compiler's library found of
 * this one is changed, one bit at a time. On another architecture all are supported. */
#include "check.h"
#include "krbrelay.h"

#if defined(__x86_64__)
/* Of libgcc, as gcc's cpuinfo.h has it: the numbers of its features are gcc's enum processor_features. */
extern struct { unsigned vendor, type, subtype, features[1]; } __cpu_model;

enum { POPCNT = 2, SSSE3 = 6, SSE4_1 = 7, SSE4_2 = 8, AVX = 9, AVX2 = 10, FMA = 14, BMI = 16, BMI2 = 17, ALL = 32 };

static int is_of_v2(int feature)
{
    return feature == POPCNT || feature == SSSE3 || feature == SSE4_1 || feature == SSE4_2;
}

/* Of x86-64-v3 the features that this compiler has names for; test_c_calls.py tries the others under an emulator. */
#if defined(KRBRELAY_X86_64_V3)
static int is_of_v3(int feature)
{
    return feature == AVX || feature == AVX2 || feature == FMA || feature == BMI || feature == BMI2;
}
#else
static int is_of_v3(int feature) { return feature < 0; }
#endif

static void without_each(void)
{
    unsigned found;
    __builtin_cpu_init();
    found = __cpu_model.features[0];
    CHECK(krbrelay_is_supported() == 1);
    for (int feature = 0; feature < ALL; feature++) {
        __cpu_model.features[0] = found & ~(1u << feature);
        CHECK(krbrelay_is_supported() == !(is_of_v2(feature) || is_of_v3(feature)));
    }
    __cpu_model.features[0] = found;
}
#else
static void without_each(void) { CHECK(krbrelay_is_supported() == 1); }
#endif

int main(int count, char **words)
{
    check_only(1, count, words);
    RUN(without_each());
    return check_status("supported");
}
