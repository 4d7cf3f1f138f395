/* The stack that the calls take, against what kterc.h says of it. */
#ifndef STACK_H
#define STACK_H

/* Runs every call on trees of every shape and version, each call on a painted stack, and prints the most that each has touched. 0
 * if one was refused or touched more than the header says. */
int stacks_suffice(void);

#endif
