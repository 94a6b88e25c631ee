/* For tests, with LQ_FOLDER_TRACE: the last of what was read, seen and changed. */
#include "folder.h"

#ifdef LQ_FOLDER_TRACE
#include <stdarg.h>
#include <stdio.h>

enum { TRACES = 60000, TRACE_SIZE = 200 };
static char traces[TRACES][TRACE_SIZE];
static unsigned long next_trace;

void lq_folder_trace(const char *format, ...)
{
    char *to = traces[next_trace++ % TRACES];
    va_list list;
    va_start(list, format);
    int size = snprintf(to, TRACE_SIZE, "%.6f ", (double)now() / 1e9);
    vsnprintf(to + size, TRACE_SIZE - (size_t)size, format, list);
    va_end(list);
}

void lq_folder_trace_write(const char *file);
void lq_folder_trace_write(const char *file)
{
    FILE *to = fopen(file, "w");
    if (!to) return;
    for (unsigned long i = next_trace > TRACES ? next_trace - TRACES : 0; i < next_trace; i++)
        fprintf(to, "%s\n", traces[i % TRACES]);
    fclose(to);
}
#else
typedef int no_trace;
#endif
