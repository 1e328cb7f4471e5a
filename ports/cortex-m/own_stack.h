/* A call on a stack of its own, for firmware whose main stack is short: the processor's second stack pointer, PSP, is the call's, and interrupts stay on the
   main stack. It is for code that itself runs on the main stack in thread mode. Under an operating system that gives each task its PSP, lend a task a
   stack of PITXARGOLE_STACK bytes instead. */
#ifndef OWN_STACK_H
#define OWN_STACK_H

#include <stddef.h>
#include <stdint.h>

/* The stack is aligned to 8 bytes, and its size is a multiple of 8. On a processor with a limit for the stack (Armv8-M) a call that needs more ends in a
   fault; on others it writes over what lies before the stack. */
uint64_t on_own_stack(uint64_t (*call)(const void *), const void *argument, uint8_t *stack, size_t size);

#endif
