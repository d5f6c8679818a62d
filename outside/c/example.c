/* An example for the C library that is also a test: published vectors, sealing there and back, refusals. It prints what it does and
 * ends with status 0 if all came out as it must. */
#include "cardlock.h"

#include <stdio.h>
#include <string.h>

static int failures = 0;

static void expect(const char *what, int holds) {
    printf("%s: %s\n", what, holds ? "yes" : "NO");
    failures += !holds;
}

static int refused(cardlock_outcome o, uint32_t number, uint32_t layer) {
    return o.number == number && o.layer == layer;
}

static void blocks(void) {
    uint8_t key[16], text[16], block[16];
    static const uint8_t sealed[16] = {0x69, 0xc4, 0xe0, 0xd8, 0x6a, 0x7b, 0x04, 0x30, 0xd8, 0xcd, 0xb7, 0x80, 0x70, 0xb4, 0xc5, 0x5a};
    static const uint8_t xtea_sealed[8] = {0x49, 0x7d, 0xf3, 0xd0, 0x72, 0x61, 0x2c, 0xb5};
    for (int i = 0; i < 16; i++) {
        key[i] = (uint8_t)i;
        text[i] = (uint8_t)(0x11 * i);
    }
    memcpy(block, text, 16);
    cardlock_aes_encrypt(key, block);
    expect("AES-128 gives the block of FIPS 197", memcmp(block, sealed, 16) == 0);
    cardlock_aes_decrypt(key, block);
    expect("and back", memcmp(block, text, 16) == 0);
    memcpy(block, "ABCDEFGH", 8);
    cardlock_xtea_encrypt(key, block);
    expect("XTEA gives the published block", memcmp(block, xtea_sealed, 8) == 0);
    cardlock_xtea_decrypt(key, block);
    expect("and back", memcmp(block, "ABCDEFGH", 8) == 0);
}

static void sealing(void) {
    uint8_t key[16] = {1, 2, 3}, tweak[16] = {9}, buffer[1040], before[1040];
    for (size_t i = 0; i < sizeof buffer; i++) buffer[i] = before[i] = (uint8_t)(i * 7);
    cardlock_outcome o = cardlock_aes_seal(key, tweak, 16, buffer, 512);
    expect("512 bytes are sealed", o.number == CARDLOCK_ACCEPTED);
    expect("and look otherwise", memcmp(buffer, before, 512) != 0);
    expect("the bytes behind them are left", memcmp(buffer + 512, before + 512, sizeof buffer - 512) == 0);
    o = cardlock_aes_unseal(key, tweak, 16, buffer, 512);
    expect("unsealed, they are what they were", o.number == CARDLOCK_ACCEPTED && memcmp(buffer, before, sizeof buffer) == 0);
    expect("a tweak of 15 bytes is refused", refused(cardlock_aes_seal(key, tweak, 15, buffer, 512), CARDLOCK_TWEAK_LENGTH, 1));
    expect("500 bytes are no whole blocks", refused(cardlock_aes_seal(key, tweak, 16, buffer, 500), CARDLOCK_NOT_WHOLE_BLOCKS, 1));
    expect("65 blocks are too many", refused(cardlock_aes_seal(key, tweak, 16, buffer, 1040), CARDLOCK_TOO_MANY_BLOCKS, 1));
    uint8_t dead[16] = {0};
    cardlock_aes_decrypt(key, dead); /* the one tweak that enciphers to zero */
    o = cardlock_aes_seal(key, dead, 16, buffer, 512);
    expect("the dead tweak is refused", refused(o, CARDLOCK_DEAD_TWEAK, 1) && o.cause == 1);
    expect("the refusals left every byte", memcmp(buffer, before, sizeof buffer) == 0);
}

static void card(void) {
    enum { SECTORS = 4, LENGTH = 2 + 16 + CARDLOCK_RECORD * SECTORS };
    static uint8_t image[LENGTH], before[LENGTH];
    uint8_t number[16] = {0, 0, 0, 7}, text[CARDLOCK_TEXT], buffer[CARDLOCK_TEXT];
    uint8_t ring[2 * 16] = {1, 2, 3, 4};
    memset(ring + 16, 0x5a, 16);
    for (size_t i = 0; i < sizeof text; i++) text[i] = (uint8_t)(i * 13 + 5);

    expect("a card of four sectors is formatted", cardlock_wide_format(image, LENGTH, number, 16).number == CARDLOCK_ACCEPTED);
    expect("it begins with 43 hex and 16", image[0] == 0x43 && image[1] == 16);
    expect("sector 2 is written under key 1", cardlock_aes_write(ring, 2, image, LENGTH, 2, 1, text, sizeof text).number == CARDLOCK_ACCEPTED);
    expect("its mark is 4B hex and 1", image[18 + 2 * CARDLOCK_RECORD] == 0x4b && image[18 + 2 * CARDLOCK_RECORD + 1] == 1);
    expect("the card opens", cardlock_aes_open(ring, 2, image, LENGTH).number == CARDLOCK_ACCEPTED);
    expect("sector 2 is rekeyed to key 0", cardlock_aes_rekey(ring, 2, image, LENGTH, 2, 0).number == CARDLOCK_ACCEPTED);
    expect("and copied to sector 3", cardlock_aes_copy(ring, 2, image, LENGTH, 2, 3).number == CARDLOCK_ACCEPTED);
    expect("sector 2 is erased", cardlock_wide_erase(image, LENGTH, 2).number == CARDLOCK_ACCEPTED);
    memset(buffer, 0, sizeof buffer);
    cardlock_outcome o = cardlock_aes_read(ring, 2, image, LENGTH, 3, buffer, sizeof buffer);
    expect("sector 3 gives the text", o.number == CARDLOCK_ACCEPTED && memcmp(buffer, text, sizeof text) == 0);

    uint64_t codes[SECTORS];
    o = cardlock_wide_walk(image, LENGTH, codes, SECTORS);
    expect("the walk gives blank, blank, blank, key 0", o.number == CARDLOCK_ACCEPTED && codes[0] == CARDLOCK_BLANK && codes[2] == CARDLOCK_BLANK && codes[3] == 0);

    memcpy(before, image, LENGTH);
    o = cardlock_aes_read(ring, 2, image, LENGTH, 2, buffer, sizeof buffer);
    expect("sector 2 is blank", refused(o, CARDLOCK_BLANK_SECTOR, 2) && o.places == 1 && o.sector == 2);
    expect("there is no sector 4", refused(cardlock_wide_erase(image, LENGTH, 4), CARDLOCK_NO_SECTOR, 2));
    expect("there is no key 2", refused(cardlock_aes_rekey(ring, 2, image, LENGTH, 3, 2), CARDLOCK_NO_KEY, 2));
    expect("a text of 511 bytes is refused", refused(cardlock_aes_write(ring, 2, image, LENGTH, 0, 0, text, 511), CARDLOCK_TEXT_LENGTH, 2));
    expect("a ring of no key is refused", refused(cardlock_aes_open(ring, 0, image, LENGTH), CARDLOCK_RING_SIZE, 2));
    expect("an image one byte short is refused", refused(cardlock_aes_open(ring, 2, image, LENGTH - 1), CARDLOCK_IMAGE_LENGTH, 2));
    expect("a card number of 8 bytes is refused", refused(cardlock_wide_format(image, LENGTH, number, 8), CARDLOCK_TWEAK_LENGTH, 2));
    expect("the refusals left the image", memcmp(image, before, LENGTH) == 0);
    expect("with one key the mark of key 0 is good", cardlock_aes_open(ring, 1, image, LENGTH).number == CARDLOCK_ACCEPTED);
}

int main(void) {
    blocks();
    sealing();
    card();
    printf("%s\n", failures ? "not as it must be" : "all as it must be");
    return failures != 0;
}
