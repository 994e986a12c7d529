/* Reads the settings of a factory image by the header that `ee header` made of them. The image is `ee export`'s, of a part
 * with two sets of one page of 16 words. */
#include "tests/part.h"

#include "settings.h"

uint32_t volume(const ee_store *store);

static part p;
static ee_store store;

/* Puts the bytes of a dump into the part. */
static void program_part(FILE *dump) {
    for (uint32_t page = 0; page < 2; page++)
        for (uint32_t place = 0; place < 16; place++) {
            uint64_t word = 0;
            for (int shift = 0; shift < 64; shift += 8) word |= (uint64_t)(unsigned char)getc(dump) << shift;
            p.words[page][place] = word;
        }
    CHECK(!ferror(dump) && !feof(dump) && getc(dump) == EOF);
}

#define IN_RANGE(NAME, ADDRESS, LEAST, MOST, DEFAULT)                                                                          \
    CHECK(ee_read(&store, ADDRESS, &value) == EE_OK && value - LEAST <= MOST - LEAST);

int main(int count, char **words) {
    FILE *dump = count == 2 ? fopen(words[1], "rb") : NULL;
    uint32_t value;
    CHECK(dump);
    p.pages = 1, p.page_words = 16;
    ee_flash flash = flash_of(&p);
    program_part(dump);
    CHECK(ee_start(&store, &flash) == EE_OK);
    EE_SETTINGS(IN_RANGE)
    CHECK(volume(&store) == 7);
    CHECK(ee_write(&store, EE_VOLUME_ADDRESS, EE_VOLUME_MAX) == EE_OK && volume(&store) == 10);
    CHECK(ee_write(&store, EE_VOLUME_ADDRESS, 11) == EE_OK && volume(&store) == EE_VOLUME_DEFAULT);
    CHECK(ee_forget(&store, EE_VOLUME_ADDRESS) == EE_OK && volume(&store) == EE_VOLUME_DEFAULT);
    return fclose(dump);
}
