/* The stack is at the bottom of RAM, so that one that is too deep leaves RAM and faults, and overwrites nothing. */
MEMORY {
    flash (rx) : ORIGIN = 0x00000000, LENGTH = 256K
    ram (rw) : ORIGIN = 0x20000000, LENGTH = 64K
}
ENTRY(start)
SECTIONS {
    .text : { KEEP(*(.vectors)) *(.text*) *(.rodata*) . = ALIGN(8); } >flash
    .stack (NOLOAD) : { stack_bottom = .; . += 12K; stack_top = .; } >ram
    .data : { data_begin = .; *(.data*) . = ALIGN(8); data_end = .; } >ram AT>flash
    data_from = LOADADDR(.data);
    .bss (NOLOAD) : { bss_begin = .; *(.bss*) *(COMMON) . = ALIGN(8); bss_end = .; } >ram
    /DISCARD/ : { *(.ARM.exidx*) *(.ARM.extab*) *(.comment) *(.ARM.attributes) }
}
