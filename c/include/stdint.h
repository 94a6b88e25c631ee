/* Of <stdint.h> what lq.h and the C of the library use, by the compiler's own names of the types and their limits. */
#ifndef LQ_STDINT_H
#define LQ_STDINT_H
typedef __INT32_TYPE__ int32_t;
typedef __INT64_TYPE__ int64_t;
typedef __UINT8_TYPE__ uint8_t;
typedef __UINT16_TYPE__ uint16_t;
typedef __UINT32_TYPE__ uint32_t;
typedef __UINT64_TYPE__ uint64_t;
typedef __UINTPTR_TYPE__ uintptr_t;
#define INT64_C(number) number##L
#define UINT32_C(number) number##U
#define UINT64_C(number) number##UL
#define INT32_MAX __INT32_MAX__
#define INT64_MAX __INT64_MAX__
#define UINT16_MAX __UINT16_MAX__
#define UINT32_MAX __UINT32_MAX__
#define UINT64_MAX __UINT64_MAX__
#endif
