/* Code at 0 and 32 KB of RAM, as a small part has them, or where --defsym says; the stack takes what the variables leave of
 * the RAM. */
MEMORY
{
    FLASH (rx) : ORIGIN = DEFINED(code) ? code : 0x00000000, LENGTH = 256K
    RAM (rw) : ORIGIN = DEFINED(memory) ? memory : 0x20000000, LENGTH = 32K
}

ENTRY(reset)

SECTIONS
{
    .text : { KEEP(*(.vectors)) *(.text .text.*) *(.rodata .rodata.*) } > FLASH
    .ARM.exidx : { *(.ARM.exidx .ARM.exidx.*) } > FLASH
    .data : { *(.data .data.*) } > RAM
    .bss : { bss_start = .; *(.bss .bss.* COMMON) . = ALIGN(8); bss_end = .; } > RAM
    stack_low = bss_end;
    stack_top = ORIGIN(RAM) + LENGTH(RAM);
    ASSERT(SIZEOF(.data) == 0, "start.c sets no variable to a value before it runs")
}
