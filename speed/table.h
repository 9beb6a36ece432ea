/* Tables on the standard output: markdown, or after for_machines() rows with tabs that begin with the table's name. */
#ifndef TABLE_H
#define TABLE_H
#include <stddef.h>

void for_machines(void);
/* A sentence, which only people get. */
void say(const char *format, ...) __attribute__((format(printf, 1, 2)));
/* The columns with " | " between; the first may have no name. */
void table(const char *name, const char *columns);
void row(const char *first);
void row_count(size_t first);
void cell_count(size_t x);
void cell_ns(double ns);
void cell_ratio(double times);
/* A time, and how many times another's it is. */
void cell_part(double ns, double times);
/* A time at a size. */
void cell_at(size_t x, double ns);
/* A time for each unit of a size. */
void cell_rate(double ns, const char *unit);
void end_row(void);

#endif
