/* on_own_stack of own_stack.h. By Arm's procedure call standard call, argument, stack and size come in r0 to r3, and the answer goes in r0 and r1. CONTROL
   waits in r4, which a call keeps; its bit 1 chooses the stack pointer. What the caller had in r4 and lr waits on the main stack. */
    .syntax unified
    .thumb
    .text
    .global on_own_stack
    .type on_own_stack, %function
    .thumb_func
on_own_stack:
    push {r4, lr}
    add r3, r2, r3
#if __ARM_ARCH_8M_MAIN__
    msr psplim, r2
#endif
    msr psp, r3
    mrs r4, control
    orr r3, r4, #2
    msr control, r3
    isb
    mov r3, r0
    mov r0, r1
    blx r3
    msr control, r4
    isb
    pop {r4, pc}
    .size on_own_stack, . - on_own_stack
