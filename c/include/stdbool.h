/* Of <stdbool.h> what lq.h and lq.c use: the kit's compiler comes without headers. */
#ifndef LQ_STDBOOL_H
#define LQ_STDBOOL_H
#define bool _Bool
#define true 1
#define false 0
#endif
