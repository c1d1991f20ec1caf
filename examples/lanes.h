/* How many floats a vector holds, told by the macros of the compiler. */
#ifndef LANES_H
#define LANES_H

#define VERSION(major, minor) ((major) * 100 + (minor))
#if defined(__clang__)
#define COMPILER VERSION(__clang_major__, __clang_minor__)
#elif defined(__GNUC__)
#define COMPILER VERSION(__GNUC__, __GNUC_MINOR__)
#else
#define COMPILER 0
#endif

#if defined(__AVX512F__) && COMPILER >= VERSION(9, 0)
#define LANES 16
#elif defined(__AVX2__) || defined(__AVX512F__)
#define LANES 8
#elif defined(__SSE2__) || defined(__ARM_NEON)
#define LANES 4
#else
#define LANES 1
#endif

#if LANES > 1
typedef float lanes __attribute__((vector_size(LANES * sizeof(float))));
#else
typedef float lanes;
#endif

#endif
