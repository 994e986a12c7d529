/* Code where --defsym says, and the RAM of a small part. The functions of .time_critical and .ramfunc stand in RAM. */
MEMORY
{
    FLASH (rx) : ORIGIN = code, LENGTH = 64K
    RAM (rwx) : ORIGIN = 0x20000000, LENGTH = 16K
}

ENTRY(reset)

SECTIONS
{
    .text : { KEEP(*(.vectors)) *(.text .text.*) *(.rodata .rodata.*) } > FLASH
    .ARM.exidx : { *(.ARM.exidx .ARM.exidx.*) } > FLASH
    .data :
    {
        . = ALIGN(4);
        data_start = .;
        *(.time_critical .time_critical.*) *(.ramfunc) *(.data .data.*)
        . = ALIGN(4);
        data_end = .;
    } > RAM AT > FLASH
    data_from = LOADADDR(.data);
    .bss : { bss_start = .; *(.bss .bss.* COMMON) . = ALIGN(8); bss_end = .; } > RAM
    stack_top = ORIGIN(RAM) + LENGTH(RAM);
}
