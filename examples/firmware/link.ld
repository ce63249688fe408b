/* 256 KB of flash and 32 KB of RAM, or what --defsym gives. The stack gets the RAM that the variables leave. */
MEMORY {
    FLASH (rx) : ORIGIN = 0x00000000, LENGTH = 256K
    RAM (rwx) : ORIGIN = 0x20000000, LENGTH = DEFINED(ram) ? ram : 32K
}
stack_end = ORIGIN(RAM) + LENGTH(RAM);
stack_size = DEFINED(least_stack) ? least_stack : 8K;
SECTIONS {
    .text : { KEEP(*(.vectors)) *(.text*) *(.rodata*) } > FLASH
    .ARM.exidx : { *(.ARM.exidx*) } > FLASH
    .data : { data_begin = .; *(.data*) . = ALIGN(4); data_end = .; } > RAM AT > FLASH
    data_from = LOADADDR(.data);
    .bss (NOLOAD) : { zero_begin = .; *(.bss*) *(COMMON) . = ALIGN(4); zero_end = .; } > RAM
    .stack (NOLOAD) : { . = . + stack_size; } > RAM
}
