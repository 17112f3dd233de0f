/* Program and constants in FLASH, what is written in RAM, the stack at its end. */
ENTRY(reset)
SECTIONS
{
    .text : { KEEP(*(.vectors)) *(.text .text.*) *(.rodata .rodata.*) . = ALIGN(4); } >FLASH
    data_load = LOADADDR(.data);
    .data : { . = ALIGN(4); data_start = .; *(.data .data.*) . = ALIGN(4); data_end = .; } >RAM AT>FLASH
    .bss (NOLOAD) : { . = ALIGN(8); bss_start = .; *(.bss .bss.* COMMON) . = ALIGN(8); bss_end = .; } >RAM
    stack_top = ORIGIN(RAM) + LENGTH(RAM);
    ASSERT(stack_top - bss_end >= 1024, "no room for the stack")
    /DISCARD/ : { *(.ARM.exidx* .comment .note* .eh_frame*) }
}
