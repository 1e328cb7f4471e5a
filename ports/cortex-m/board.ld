/* QEMU's boards mps2: `code`, `ram` and `stack_size` are given on the linker's command line; there are 4 MB at each of the two. */
ENTRY(reset)
SECTIONS
{
    . = code;
    .text : { KEEP(*(.vectors)) *(.text*) *(.rodata*) }
    .ARM.extab : { *(.ARM.extab*) }
    .ARM.exidx : { __exidx_start = .; *(.ARM.exidx*) __exidx_end = .; }
    data_from = ALIGN(8);
    .data ram : AT(data_from) { data_start = .; *(.data*) . = ALIGN(8); data_end = .; }
    .bss (NOLOAD) : { bss_start = .; *(.bss*) *(COMMON) . = ALIGN(8); bss_end = .; }
    end = .;            /* newlib's heap grows from here to the stack's limit */
    stack_limit = ram + 0x200000;
    stack_top = stack_limit + stack_size;
    ASSERT(end < stack_limit, "data and stack overlap")
}
