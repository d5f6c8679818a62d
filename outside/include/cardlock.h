/* cardlock.h: the card lock for C.
 *
 * What it is. A card is an image in memory: a header, then N sector records. The header is the byte 43 hex, then B, the bytes of a
 * block, as one byte, then the card number of B bytes. A record is a mark of two bytes and 512 bytes. The mark 00 00 says that the sector is
 * blank, and its 512 bytes are then zero; the mark 4B hex and a key number says that they are a text sealed under that key. An image of N sectors,
 * N from 1 to 65,535, is 2 + B + 514 * N bytes long. Sealing keeps the length and has no check bytes: a sector that is read under
 * another key or after damage still gives 512 bytes, and no call can tell.
 *
 * Ciphers. aes: AES-128, B = 16, keys of 16 bytes. xtea: XTEA, B = 8, keys of 16 bytes. whitened: XTEA between two sums, B = 8, keys of 32
 * bytes: 16 of the XTEA key, 8 that are added before and 8 that are added after. A ring is 1 to 8 keys of one cipher, one after
 * another in memory; a key number is a place on it, counted from 0.
 *
 * How to call it. A buffer is passed as a pointer and a number of bytes, a ring as a pointer and a number of keys. The library allocates
 * nothing, keeps no pointer after a call, calls no function of the C library and has no state, so that it may be used from several threads on
 * different buffers. A pointer is valid for its length during the call and not null; with length 0 any pointer that is not null will do.
 * No two arguments of a call may overlap where one of them is written, that is not const.
 *
 * What is proved. Every function below has a contract that a machine has checked: its outcome and every byte that it
 * leaves, for all inputs that keep to the paragraph above. */
#ifndef CARDLOCK_H
#define CARDLOCK_H

#include <stdbool.h>
#include <stddef.h>
#include <stdint.h>

#ifdef __cplusplus
extern "C" {
#endif

/* The outcome of a call. A refusal changes no byte of any buffer. */
typedef struct cardlock_outcome {
    uint32_t number; /* 0 accepted, otherwise the refusal, as listed below */
    uint32_t layer;  /* 0 accepted, 1 sealing, 2 card: where the refusal arose */
    uint32_t cause;  /* 1 with refusal 13: zero has no inverse in the field; otherwise 0 */
    uint32_t places; /* 0: no place is named; 1: the sector; 2: the sector and the key */
    uint64_t sector; /* the sector, where one is named; otherwise 0 */
    uint64_t key;    /* the key number, where one is named; otherwise 0 */
} cardlock_outcome;

enum {
    CARDLOCK_TEXT = 512,    /* the bytes of a text */
    CARDLOCK_RECORD = 514,  /* the bytes of a sector record */
    CARDLOCK_BLANK = 255    /* what the walk gives for a blank sector */
};

enum {
    CARDLOCK_ACCEPTED = 0,
    CARDLOCK_RING_SIZE = 1,        /* The ring has no cipher or more than eight. */
    CARDLOCK_IMAGE_LENGTH = 2,     /* The image is not 2 + B + 514 * N bytes long for an N from 1 to 65,535. */
    CARDLOCK_BAD_HEADER = 3,       /* The image does not begin with 43 hex and B. */
    CARDLOCK_NO_SECTOR = 4,        /* A sector number is N or more. Names the sector. */
    CARDLOCK_NO_KEY = 5,           /* A key number from the caller is not below the ring's size. */
    CARDLOCK_TEXT_LENGTH = 6,      /* A text or reading buffer is not 512 bytes. */
    CARDLOCK_BAD_MARK = 7,         /* A mark is neither 00 00 nor 4B hex with a number below the ring's size. Names the sector. */
    CARDLOCK_BLANK_NOT_ZERO = 8,   /* A record marked blank holds a byte other than zero. Names the sector. */
    CARDLOCK_BLANK_SECTOR = 9,     /* The sector to read, rekey or copy from is blank. Names the sector. */
    CARDLOCK_TWEAK_LENGTH = 10,    /* The tweak, or format's card number, is not B bytes. */
    CARDLOCK_NOT_WHOLE_BLOCKS = 11,/* The buffer to seal or unseal is not one or more whole blocks. */
    CARDLOCK_TOO_MANY_BLOCKS = 12, /* That buffer has more than 64 blocks. */
    CARDLOCK_DEAD_TWEAK = 13       /* There are two blocks or more and the tweak enciphers to zero. On a card it names the sector and the key. */
};

/* Products and inverses in the two fields, on elements as bytes, the top bit of the first byte being the coefficient of the highest power of x: the product
 * takes the place of b, the inverse that of a. Zero has no inverse: the call then answers false and leaves it. */
void cardlock_wide_product(const uint8_t a[16], uint8_t b[16]);
void cardlock_short_product(const uint8_t a[8], uint8_t b[8]);
bool cardlock_wide_inverse(uint8_t a[16]);
bool cardlock_short_inverse(uint8_t a[8]);

/* One block in its place, by a cipher under a key: its encryption, or its decryption. These never refuse. */
void cardlock_aes_encrypt(const uint8_t key[16], uint8_t block[16]);
void cardlock_aes_decrypt(const uint8_t key[16], uint8_t block[16]);
void cardlock_xtea_encrypt(const uint8_t key[16], uint8_t block[8]);
void cardlock_xtea_decrypt(const uint8_t key[16], uint8_t block[8]);
void cardlock_whitened_encrypt(const uint8_t key[32], uint8_t block[8]);
void cardlock_whitened_decrypt(const uint8_t key[32], uint8_t block[8]);

/* Direct sealing and unsealing of 1 to 64 blocks in their place, under a tweak of B bytes; each undoes the other.
 * Refuses 10, 11, 12, 13 in this order. One block is sealed under every tweak. */
cardlock_outcome cardlock_aes_seal(const uint8_t key[16], const uint8_t *tweak, size_t tweak_length, uint8_t *buffer, size_t length);
cardlock_outcome cardlock_aes_unseal(const uint8_t key[16], const uint8_t *tweak, size_t tweak_length, uint8_t *buffer, size_t length);
cardlock_outcome cardlock_xtea_seal(const uint8_t key[16], const uint8_t *tweak, size_t tweak_length, uint8_t *buffer, size_t length);
cardlock_outcome cardlock_xtea_unseal(const uint8_t key[16], const uint8_t *tweak, size_t tweak_length, uint8_t *buffer, size_t length);
cardlock_outcome cardlock_whitened_seal(const uint8_t key[32], const uint8_t *tweak, size_t tweak_length, uint8_t *buffer, size_t length);
cardlock_outcome cardlock_whitened_unseal(const uint8_t key[32], const uint8_t *tweak, size_t tweak_length, uint8_t *buffer, size_t length);

/* The seven calls on a card image with a ring. `keys` points to `count` keys of the cipher, one after another. Each refusal listed comes if its sentence
 * is true and none before it in the call's own order is; a refusal leaves image and buffer as they were. Every byte outside the
 * one record that a call changes stays as it was.
 *
 * format  Writes the whole image: header, card number, every sector blank.                                Refuses 2, 10.
 * open    Changes no byte. Accepts an image exactly where it is a card made by these calls' rules
 *         with this ring: lawful header and marks, blanks all zero, no dead tweak.                        Refuses 1, 2, 3, then 7, 8, 13 sector by sector.
 * write   Makes a sector this key number and this text of 512 bytes.                                      Refuses 1, 2, 3, 4, 5, 6, 13.
 * read    Puts the text of a sector into a buffer of 512 bytes.                                           Refuses 1, 2, 3, 4, 6, 7, 9, 13.
 * rekey   Gives a sector a new key number; its text stays.                                                Refuses 1, 2, 3, 4, 5, 7, 9, 13 (old key, then new).
 * copy    Gives the destination the source's key number and text.                                         Refuses 1, 2, 3, 4 (source first), 7, 9, 13 (source, then destination).
 * erase   Makes a sector blank.                                                                           Refuses 2, 3, 4.
 *
 * The image and the text or buffer must not overlap, nor the image and the keys. */
/* cards with blocks of 16 bytes: AES-128 */
cardlock_outcome cardlock_wide_format(uint8_t *image, size_t length, const uint8_t *number, size_t number_length);
cardlock_outcome cardlock_wide_erase(uint8_t *image, size_t length, size_t sector);
/* cards with blocks of 8 bytes: XTEA, whitened or not */
cardlock_outcome cardlock_short_format(uint8_t *image, size_t length, const uint8_t *number, size_t number_length);
cardlock_outcome cardlock_short_erase(uint8_t *image, size_t length, size_t sector);

cardlock_outcome cardlock_aes_open(const uint8_t *keys, size_t count, const uint8_t *image, size_t length);
cardlock_outcome cardlock_aes_write(const uint8_t *keys, size_t count, uint8_t *image, size_t length, size_t sector, size_t key, const uint8_t *text, size_t text_length);
cardlock_outcome cardlock_aes_read(const uint8_t *keys, size_t count, const uint8_t *image, size_t length, size_t sector, uint8_t *buffer, size_t buffer_length);
cardlock_outcome cardlock_aes_rekey(const uint8_t *keys, size_t count, uint8_t *image, size_t length, size_t sector, size_t key);
cardlock_outcome cardlock_aes_copy(const uint8_t *keys, size_t count, uint8_t *image, size_t length, size_t source, size_t destination);

cardlock_outcome cardlock_xtea_open(const uint8_t *keys, size_t count, const uint8_t *image, size_t length);
cardlock_outcome cardlock_xtea_write(const uint8_t *keys, size_t count, uint8_t *image, size_t length, size_t sector, size_t key, const uint8_t *text, size_t text_length);
cardlock_outcome cardlock_xtea_read(const uint8_t *keys, size_t count, const uint8_t *image, size_t length, size_t sector, uint8_t *buffer, size_t buffer_length);
cardlock_outcome cardlock_xtea_rekey(const uint8_t *keys, size_t count, uint8_t *image, size_t length, size_t sector, size_t key);
cardlock_outcome cardlock_xtea_copy(const uint8_t *keys, size_t count, uint8_t *image, size_t length, size_t source, size_t destination);

cardlock_outcome cardlock_whitened_open(const uint8_t *keys, size_t count, const uint8_t *image, size_t length);
cardlock_outcome cardlock_whitened_write(const uint8_t *keys, size_t count, uint8_t *image, size_t length, size_t sector, size_t key, const uint8_t *text, size_t text_length);
cardlock_outcome cardlock_whitened_read(const uint8_t *keys, size_t count, const uint8_t *image, size_t length, size_t sector, uint8_t *buffer, size_t buffer_length);
cardlock_outcome cardlock_whitened_rekey(const uint8_t *keys, size_t count, uint8_t *image, size_t length, size_t sector, size_t key);
cardlock_outcome cardlock_whitened_copy(const uint8_t *keys, size_t count, uint8_t *image, size_t length, size_t source, size_t destination);

/* The walk: what each sector of an image holds, with no key. codes[s] becomes the key number of sector s, or CARDLOCK_BLANK; with fewer places than
 * sectors the first are filled, with more the rest is left. The 512 sealed bytes of sector s begin at image + 2 + B + CARDLOCK_RECORD * s + 2.
 * Refuses 2, 3, then 7 (as for a ring of eight) and 8 sector by sector; a refusal leaves every place. */
cardlock_outcome cardlock_wide_walk(const uint8_t *image, size_t length, uint64_t *codes, size_t count);
cardlock_outcome cardlock_short_walk(const uint8_t *image, size_t length, uint64_t *codes, size_t count);

#ifdef __cplusplus
}
#endif

#endif
