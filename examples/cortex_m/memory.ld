/* What both boards' programs are linked by: FLASH and RAM, and how much of it is the stack, are said by the firmware's own script; so is how much it may be. */
ENTRY(reset)
SECTIONS {
    .text : { KEEP(*(.vectors)) *(.text*) *(.rodata*) . = ALIGN(8); } > FLASH
    .ARM.exidx : { *(.ARM.exidx*) } > FLASH
    data_image = LOADADDR(.data);
    .data : { data_begin = .; *(.data*) . = ALIGN(8); data_end = .; } > RAM AT > FLASH
    .bss (NOLOAD) : { bss_begin = .; *(.bss*) *(COMMON) . = ALIGN(8); bss_end = .; } > RAM
    stack_bottom = bss_end;
    stack_top = stack_bottom + STACK;
    ASSERT(stack_top <= ORIGIN(RAM) + LENGTH(RAM), "the memory is too small for data and stack")
    ASSERT(data_image + SIZEOF(.data) <= MOST_FLASH, "the firmware takes more flash than it may")
    ASSERT(stack_top - ORIGIN(RAM) <= MOST_RAM, "the firmware takes more RAM than it may")
}
