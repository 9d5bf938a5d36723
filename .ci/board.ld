/* Where a program stands: .ci/firmware gives ROM, RAM and STACK, the end of the stack. */
ENTRY(board_start)
PHDRS
{
    rom PT_LOAD;
    ram PT_LOAD;
}
SECTIONS
{
    .text ROM : { KEEP(*(.vectors)) *(.text .text.*) *(.rodata .rodata.*) } :rom
    .ARM.exidx : { *(.ARM.exidx*) } :rom
    .data RAM : { *(.data .data.* .sdata .sdata.*) } :ram
    .bss : { *(.bss .bss.* .sbss .sbss.*) *(COMMON) LONG(0) } :ram
    board_stack = STACK;
}
