/* Code and constants at 00010000, to be read and executed; data behind them, to be read and written. The variables that
   picolibc keeps for each thread (errno, and the state of rand) are ordinary data here, so that the file has no PT_TLS
   header. */
ENTRY(_start)
PHDRS
{
    text PT_LOAD FLAGS(5);
    data PT_LOAD FLAGS(6);
}
SECTIONS
{
    . = 0x10000;
    .text : { *(.text.start) *(.text .text.*) *(.rodata .rodata.* .srodata .srodata.*) } :text
    .init_array : { PROVIDE_HIDDEN(__init_array_start = .); KEEP(*(.init_array .init_array.*)) PROVIDE_HIDDEN(__init_array_end = .); } :text
    . = ALIGN(4096);
    /* The word makes it a section with bytes; one without would take no place. */
    .tdata : { __tls_base = .; LONG(0) *(.tdata .tdata.*) *(.tbss .tbss.* .tcommon) . = ALIGN(8); } :data
    .data : { *(.data .data.*) . = ALIGN(8); __global_pointer$ = . + 0x800; *(.sdata .sdata.*) } :data
    .bss (NOLOAD) : { *(.sbss .sbss.*) *(.bss .bss.* COMMON) } :data
    /DISCARD/ : { *(.riscv.attributes .comment .note.* .eh_frame) }
}
