/* Of C's <stddef.h> what toggleash.h and face.c need, from the compiler's own names: the kit has a compiler and no C headers. */
#ifndef PLAIN_STDDEF_H
#define PLAIN_STDDEF_H
typedef __SIZE_TYPE__ size_t;
#define NULL ((void *)0)
#define offsetof(type, field) __builtin_offsetof(type, field)
#endif
