/* A tour of the application: each start of the board does one thing, and the next one shows what was kept of it. */
#include "../cortex-m/semihosting.h"
#include "application.h"
#include "flash.h"

static application device;
static ee_flash flash;
static int fails_next; /* the next word isn't programmed: a brown-out */

static void print(const char *text) { ask(SYS_WRITE0, (uintptr_t)text); }

static void print_number(const char *what, int32_t number) {
    char line[16], *at = line;
    if (number < 0) *at++ = '-';
    at = put_decimal(at, number < 0 ? 0u - (uint32_t)number : (uint32_t)number);
    *at = 0;
    print(what);
    print(line);
}

static uint32_t program(void *context, uint32_t page, uint32_t place, uint64_t value) {
    if (!fails_next) return file_flash.program(context, page, place, value);
    fails_next = 0;
    return 1;
}

/* What the device has at a start. */
static void show(void) {
    float gains[GAIN_COUNT];
    ee_numbers numbers;
    print_number("start ", (int32_t)starts(&device));
    print_number(": volume ", (int32_t)volume(&device));
    print_number(", offset ", offset(&device));
    print(is_muted(&device) ? ", muted" : "");
    print(read_gains(&device, gains) ? ", calibrated" : ", not calibrated");
    if (ee_counts(&device.store, &numbers) == EE_OK) {
        print_number("; ", (int32_t)numbers.fill);
        print_number(" of ", (int32_t)numbers.slots);
        print_number(" slots used, no page erased more than ", (int32_t)(numbers.generation / 2));
        print(" times");
    }
    print("\n");
}

/* What firmware 1 would leave: a volume of 0 to 100, and its layout. */
static ee_result leave_as_firmware_1(void) {
    static const ee_value values[] = {{.address = VOLUME, .value = 70}, {.address = LAYOUT, .value = 1}};
    return ee_write_all(&device.store, values, 2);
}

/* The thing that this start does. What it says comes first. */
static ee_result step(uint32_t start) {
    static const float gains[GAIN_COUNT] = {0.5f, 1.0f, 1.5f, 2.0f, 2.5f, 3.0f};
    switch (start) {
    case 1: print("    a new part: it is calibrated, six values at once\n"); return calibrate(&device, gains);
    case 2: print("    the volume is set, to more than there is\n"); return set_volume(&device, 99);
    case 3: print("    the flash fails in a step: the store is opened again, and the offset is written\n");
        fails_next = 1;
        return set_offset(&device, -40);
    case 4: print("    a factory reset of the settings\n"); return reset_settings(&device);
    case 5: print("    as if firmware 1 had been here, whose volume is 70 of 100\n"); return leave_as_firmware_1();
    default: print("    it is muted, if it wasn't\n"); return set_muted(&device, true);
    }
}

int main(void);

int main(void) {
    flash = file_flash;
    flash.program = program;
    ee_result status = file_flash_opened() ? application_start(&device, &flash) : EE_DRIVER;
    if (status == EE_OK) {
        show();
        status = step(starts(&device));
    }
    if (status == EE_OK) return 0;
    print(ee_status_text(status));
    print("\n");
    return 1;
}
