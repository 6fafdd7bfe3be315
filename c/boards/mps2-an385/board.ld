/* Of the board's 4 MB of each kind it takes as much as a usual microcontroller has. The stack is first, so that one that grows too
 * long meets no memory, and ends in a fault. */
MEMORY {
    flash : ORIGIN = 0x00000000, LENGTH = 512K
    ram : ORIGIN = 0x20000000, LENGTH = 192K
}
ENTRY(start)
SECTIONS {
    .text : { KEEP(*(.vectors)) *(.text .text.*) } > flash
    .rodata : { *(.rodata .rodata.*) } > flash
    .stack (NOLOAD) : { stack = .; . = . + (DEFINED(stack_size) ? stack_size : 32K); stack_end = .; } > ram
    .data : { . = ALIGN(4); data = .; *(.data .data.*) . = ALIGN(4); } > ram AT > flash
    .bss (NOLOAD) : { . = ALIGN(16); bss = .; *(.bss .bss.* COMMON) . = ALIGN(4); } > ram
    data_kept = LOADADDR(.data);
    data_words = SIZEOF(.data) / 4;
    bss_words = SIZEOF(.bss) / 4;
    stack_words = SIZEOF(.stack) / 4;
    /DISCARD/ : { *(.ARM.exidx*) *(.comment) }
}
