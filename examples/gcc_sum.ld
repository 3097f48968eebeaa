/* Text begins at 0, and data of every kind at 4096. */
SECTIONS
{
    .text 0 : { *(.text.start) *(.text .text.*) }
    .data 4096 : { *(.rodata .rodata.* .srodata .srodata.*) *(.data .data.* .sdata .sdata.*) }
    .bss : { *(.bss .bss.* .sbss .sbss.* COMMON) }
    /DISCARD/ : { *(.comment .note .note.* .eh_frame) }
}
