/* To be included at the end of a linker script, behind its SECTIONS: the vectors come first. Its MEMORY names FLASH, RAM and EE:
 * the store's pages, and the ports' step functions in RAM (compile a port with
 * -DEE_IN_RAM='__attribute__((noinline, section(".ramfunc")))').
 *
 *     MEMORY
 *     {
 *         FLASH (rx) : ORIGIN = 0x08000000, LENGTH = 508K
 *         EE (r)     : ORIGIN = 0x0807f000, LENGTH = 4K
 *         RAM (rwx)  : ORIGIN = 0x20000000, LENGTH = 64K
 *     }
 *     SECTIONS { .vectors : .. }
 *     ee_page = 2K;            the page of the part; 8 bytes a word with ECC, 16 a pair or a unit of 128 bits
 *     INCLUDE ee.ld
 *
 * In C `extern char ee_begin[]` is the address of the first page: stm32_ecc_flash(&part, (uint32_t)ee_begin, 1). Where your
 * script has a section for functions in RAM already, as .RamFunc or .time_critical, name that in EE_IN_RAM in place of this. */
ee_begin = ORIGIN(EE);
ee_end = ORIGIN(EE) + LENGTH(EE);
ee_set_pages = LENGTH(EE) / (2 * ee_page);

ASSERT(ORIGIN(EE) % ee_page == 0, "the store begins where a page does")
ASSERT(LENGTH(EE) % (2 * ee_page) == 0, "the store is two sets of whole pages")
ASSERT(ee_set_pages >= 1 && ee_set_pages <= 64, "a set has 1 to 64 pages")
ASSERT(ee_end <= ORIGIN(FLASH) || ee_begin >= ORIGIN(FLASH) + LENGTH(FLASH), "the program's flash ends where the store's begins")

SECTIONS
{
    /* Copied by the start code from ramfunc_from, as .data is. */
    .ramfunc : { . = ALIGN(4); ramfunc_start = .; *(.ramfunc .ramfunc.*) . = ALIGN(4); ramfunc_end = .; } > RAM AT > FLASH
    ramfunc_from = LOADADDR(.ramfunc);
}
ASSERT(ramfunc_start == ramfunc_end || ramfunc_from > ORIGIN(FLASH), "ee.ld stands before the vectors: include it behind SECTIONS")
