#ifndef STACK_H
#define STACK_H

/* Prints how much stack the library's calls take. */
void stack_tables(void);

#endif
