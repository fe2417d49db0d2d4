/* Code and constants at 00010000, to be read and executed; data behind them, to be read and written. */
ENTRY(_start)
PHDRS
{
    text PT_LOAD FLAGS(5);
    data PT_LOAD FLAGS(6);
}
SECTIONS
{
    . = 0x10000;
    .text : { *(.text .text.*) *(.rodata .rodata.* .srodata .srodata.*) } :text
    . = ALIGN(4096);
    .data : { *(.data .data.* .sdata .sdata.*) *(.bss .bss.* .sbss .sbss.* COMMON) } :data
    /DISCARD/ : { *(.riscv.attributes .comment .note.* .eh_frame) }
}
