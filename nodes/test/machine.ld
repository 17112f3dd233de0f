/* An emulated machine's memory: the program from `rom` on, what it writes from `ram` on; both are given to the linker. */
ENTRY(_start)
SECTIONS
{
    . = rom;
    .text : { KEEP(*(.vectors)) *(.text .text.*) *(.rodata .rodata.*) }
    . = ram;
    .bss (NOLOAD) : { *(.bss .bss.* COMMON) }
    . = ALIGN(16);
    . += 0x8000;
    stack_top = .;
    .data : { *(.data .data.*) }
    ASSERT(SIZEOF(.data) == 0, "nothing copies initial values")
    /DISCARD/ : { *(.ARM.exidx* .comment .note* .eh_frame*) }
}
