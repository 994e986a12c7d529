/* The program that `firmware/machine` runs on a part: it asks the tester for calls, makes them, and tells what they answer. */
#include "program.h"

/* The registers by which the tester is asked and told. */
typedef struct tester_registers {
    volatile uint32_t call; /* what to do next */
    volatile uint32_t address, value;
    volatile uint32_t answer; /* what was read */
    volatile uint32_t status; /* what the call answered: it is done */
    volatile uint32_t stray;  /* an NMI that the port doesn't take */
} tester_registers;

static tester_registers *const tester = (tester_registers *)0x60000000;

enum { LATEST = 40 };
enum call { END, START, READ, WRITE, FORGET, WRITE_ALL, CLEAN, FREE, LOOK, WORD, PROGRAM, ERASE };

static ee_flash flash;
static ee_store store;

static void barrier(void) { __asm__ volatile("dsb\n\tisb" : : : "memory"); }

/* Gives two addresses values at once. */
static uint32_t write_two(uint16_t address, uint16_t other, uint32_t value) {
    ee_value list[2] = {{.address = address, .value = value}, {.address = other, .value = ~value}};
    return ee_write_all(&store, list, 2);
}

/* A call of the port itself. Its place has the page above 16 bits, and a number its value in both halves. */
static uint32_t on_port(enum call call, uint32_t at, uint32_t value) {
    uint32_t page = at >> 16, place = at & 0xffff, status;
    uint64_t found = 0;
    if (call == PROGRAM) return flash.program(flash.context, page, place, (uint64_t)value << 32 | value);
    if (call == ERASE) return flash.erase(flash.context, page);
    status = flash.word(flash.context, page, place, &found);
    tester->answer = (uint32_t)found;
    return status;
}

/* What a call answers. */
static uint32_t made(enum call call) {
    uint32_t address = tester->address, value = tester->value, status;
    ee_numbers numbers = {0};
    switch (call) {
    case START: return ee_start(&store, &flash);
    case WRITE: return ee_write(&store, (uint16_t)address, value);
    case FORGET: return ee_forget(&store, (uint16_t)address);
    case WRITE_ALL: return write_two((uint16_t)address, (uint16_t)(address >> 16), value);
    case CLEAN: return ee_clean(&store);
    case FREE:
        status = ee_counts(&store, &numbers);
        tester->answer = numbers.slots - numbers.fill;
        return status;
    case READ:
        status = ee_read(&store, (uint16_t)address, &value);
        tester->answer = value;
        return status;
    case LOOK: /* the product reads the pages by itself */
        barrier();
        tester->answer = *(volatile uint32_t *)(uintptr_t)address;
        barrier();
        for (volatile int turn = 0; turn < LATEST; turn++) continue; /* an NMI of the read has come */
        return 0;
    default: return on_port(call, address, value);
    }
}

/* Where the tester stops the core. */
__attribute__((noinline, used)) void done(void) { __asm__ volatile("nop"); }

/* What link.ld names. */
extern unsigned char data_from[], data_start[], data_end[], bss_start[], bss_end[], stack_top[];

void reset(void);

void reset(void) {
    enum call call;
    for (unsigned char *at = data_start; at < data_end; at++) *at = data_from[at - data_start];
    for (unsigned char *at = bss_start; at < bss_end; at++) *at = 0;
    flash = part_flash();
    flash.kind = KIND;
    while ((call = (enum call)tester->call) != END) tester->status = made(call);
    for (;;) done();
}

static void nmi(void) {
    if (!part_nmi()) tester->stray = 1;
}

static void fault(void) {
    for (;;) done();
}

__attribute__((section(".vectors"), used)) static const struct {
    unsigned char *stack;
    void (*handlers[15])(void);
} vectors = {stack_top, {reset, nmi, fault, fault, fault, fault}};
