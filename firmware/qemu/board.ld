/* board.ld: code at 0 and data at 0x20000000, in what the smallest of the boards has (microbit). */
MEMORY
{
    CODE (rx) : ORIGIN = 0, LENGTH = 256K
    DATA (rw) : ORIGIN = 0x20000000, LENGTH = 16K
}

ENTRY(reset)

SECTIONS
{
    .text : { KEEP(*(.vectors)) *(.text*) *(.rodata*) } > CODE
    .ARM.exidx : { *(.ARM.exidx*) } > CODE
    .bss (NOLOAD) : { *(.bss*) *(COMMON) } > DATA
    /* start.c copies nothing to DATA, so a variable that starts other than 0 is refused. */
    .data : { *(.data*) }
    ASSERT(SIZEOF(.data) == 0, "a variable starts other than 0")
    stack_top = ORIGIN(DATA) + LENGTH(DATA);
}
