/* Of C's <stdint.h> what toggleash.h needs, from the compiler's own names: the kit has a compiler and no C headers. */
#ifndef PLAIN_STDINT_H
#define PLAIN_STDINT_H
typedef __UINT8_TYPE__ uint8_t;
typedef __UINT16_TYPE__ uint16_t;
typedef __UINT32_TYPE__ uint32_t;
typedef __UINT64_TYPE__ uint64_t;
typedef __UINTPTR_TYPE__ uintptr_t;
#endif
