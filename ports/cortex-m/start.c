/* What runs before main on a Cortex-M: the vector table, the stack's limit, the floating-point unit, data and bss, semihosting for files and output. */
#include <stdint.h>
#include <stdlib.h>
#include <string.h>
#include <unistd.h>

extern uint8_t stack_top[], stack_limit[], data_from[], data_start[], data_end[], bss_start[], bss_end[];
extern void initialise_monitor_handles(void);
extern int main(int words, char **word);

void reset(void) {
#if __ARM_ARCH_8M_MAIN__
    __asm volatile("msr msplim, %0" ::"r"(stack_limit)); /* a call that needs more stack than there is ends in a fault */
#endif
#if __ARM_FP
    *(volatile uint32_t *)0xe000ed88 |= 0xf << 20; /* CPACR: access to the floating-point unit */
    __asm volatile("dsb\n isb");
#endif
    memcpy(data_start, data_from, (size_t)(data_end - data_start));
    memset(bss_start, 0, (size_t)(bss_end - bss_start));
    initialise_monitor_handles();
    exit(main(0, NULL));
}

void fault(void) {
    static const char said[] = "fault\n";
    (void)!write(1, said, sizeof said - 1);
    _exit(3);
}

__attribute__((section(".vectors"), used)) static const void *const vectors[16] = {
    stack_top, (void *)reset, (void *)fault, (void *)fault, (void *)fault, (void *)fault, (void *)fault, (void *)fault};

/* newlib's own ways in and out, of which there are none here */
void _init(void) {}
void _fini(void) {}
