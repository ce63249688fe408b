/* Arm's MPS2 boards, as qemu emulates them: 4 MB of memory for code and 4 MB for data. */
MEMORY {
    CODE (rx) : ORIGIN = 0x00000000, LENGTH = 4M
    DATA (rwx) : ORIGIN = 0x20000000, LENGTH = 4M
}
stack_end = ORIGIN(DATA) + LENGTH(DATA);
__stack = stack_end;
SECTIONS {
    .text : {
        KEEP(*(.vectors))
        *(.text*) *(.rodata*)
        KEEP(*(.init)) KEEP(*(.fini))
        __preinit_array_start = .; KEEP(*(.preinit_array*)) __preinit_array_end = .;
        __init_array_start = .; KEEP(*(SORT(.init_array.*))) KEEP(*(.init_array)) __init_array_end = .;
        __fini_array_start = .; KEEP(*(.fini_array*)) __fini_array_end = .;
    } > CODE
    .ARM.exidx : { __exidx_start = .; *(.ARM.exidx*) __exidx_end = .; } > CODE
    .data : { *(.data*) . = ALIGN(8); } > DATA
    .bss : { __bss_start__ = .; *(.bss*) *(COMMON) . = ALIGN(8); __bss_end__ = .; } > DATA
    end = .;
    __end__ = .;
}
