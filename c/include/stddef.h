/* Of <stddef.h> what lq.h and the C of the library use, by the compiler's own names of the types. */
#ifndef LQ_STDDEF_H
#define LQ_STDDEF_H
typedef __SIZE_TYPE__ size_t;
typedef __PTRDIFF_TYPE__ ptrdiff_t;
#define NULL ((void *)0)
#define offsetof(type, field) __builtin_offsetof(type, field)
#endif
