/* How far down a call comes in its stack. */
#ifndef STACK_H
#define STACK_H

#include <stddef.h>
#include <stdint.h>

/* Makes the call, and puts into `used` how many bytes of stack it used: on Linux and RISC-V of the caller's own (ports/stack.c), on a Cortex-M of one that
   is lent for the call (ports/cortex-m/stack.c). */
uint64_t measured(uint64_t (*call)(const void *), const void *argument, size_t *used);

#endif
