/* qemu's machine `virt` begins at its first octet of memory. Of that it takes as much as a usual microcontroller has. */
MEMORY {
    flash : ORIGIN = 0x80000000, LENGTH = 512K
    ram : ORIGIN = 0x80100000, LENGTH = 192K
}
ENTRY(start)
SECTIONS {
    .text : { KEEP(*(.start)) *(.text .text.*) } > flash
    .rodata : { *(.rodata .rodata.* .srodata .srodata.*) } > flash
    .stack (NOLOAD) : { stack = .; . = . + (DEFINED(stack_size) ? stack_size : 32K); stack_end = .; } > ram
    .data : { . = ALIGN(4); data = .; *(.data .data.* .sdata .sdata.*) . = ALIGN(4); } > ram AT > flash
    .bss (NOLOAD) : { . = ALIGN(16); bss = .; *(.bss .bss.* .sbss .sbss.* COMMON) . = ALIGN(4); } > ram
    data_kept = LOADADDR(.data);
    data_words = SIZEOF(.data) / 4;
    bss_words = SIZEOF(.bss) / 4;
    stack_words = SIZEOF(.stack) / 4;
    /DISCARD/ : { *(.comment) *(.eh_frame) }
}
