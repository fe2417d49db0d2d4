/* One segment at 00010000, to be read and executed, and nothing else. */
ENTRY(_start)
PHDRS { text PT_LOAD FLAGS(5); }
SECTIONS
{
    . = 0x10000;
    .text : { *(.text .text.*) } :text
    /DISCARD/ : { *(.riscv.attributes .comment .note.*) }
}
