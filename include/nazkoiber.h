/* Seals of test sheets, for programs in C. The functions are those of crates/embedding, which are proved; README.md says how to build and link them.
 *
 * A sheet is given as a text: each line together with its byte 0A is a block, and so is a last piece without one. Blocks are numbered from 1. A sealed
 * file holds the blocks and their seal part (docs/FORMAT.md). Sheets have at most 512 blocks and 38,912 bytes.
 *
 * Keys are tag keys (docs/KEYS.md): a secret of 32 bytes, and the digest by which it makes its tags, 1 for SHA-256 and 2 for BLAKE2s. Who holds the
 * secret can seal and check.
 *
 * THE CALLER NEVER GIVES THE SAME NUMBER OF A KEY TWICE. The numbers of a key go from 0 to 999,999. Keep the next one beside the secret, and write it
 * back before a file is used or shown to anyone. The library keeps nothing between two calls, so it cannot see to this.
 *
 * Each function answers a status: 0 where it succeeded, 255 where memory did not suffice, and otherwise the number of the one refusal, the first whose
 * cause holds in the order that stands below (docs/REFUSALS.md has them all). 255 can come at any call but nazkoiber_confirm.
 *
 * What a function writes to goes behind what it reads. Where the status is 0, the result stands in front of a buffer or a list, and what is behind it
 * keeps its content; otherwise every buffer, list and number keeps its content, but for the count of nazkoiber_check.
 *
 * Owed by the caller, and looked at by nobody: no pointer is null, also where its size is 0; each points to as many elements as the size behind it
 * says; what a function writes to overlaps with nothing else that it is given; no call is made from a signal handler, or from the forked child of a
 * process with threads. */
#ifndef NAZKOIBER_H
#define NAZKOIBER_H

#include <stddef.h>
#include <stdint.h>

#ifdef __cplusplus
extern "C" {
#endif

#define NAZKOIBER_SHA256 1
#define NAZKOIBER_BLAKE2S 2

#define NAZKOIBER_OUT_OF_MEMORY 255

/* Room for every file, for every list of named blocks and for every excerpt. */
#define NAZKOIBER_FILE_ROOM 122937
#define NAZKOIBER_LIST_ROOM 512
#define NAZKOIBER_EXCERPT_ROOM 40960

/* Seals a sheet, and writes the file.
 *   text, text_size      the sheet
 *   digest               1 or 2: of the seal, and of the key
 *   changes              how many changed blocks a check is to name; of it and the block count a family of rows is chosen (docs/FAMILIES.md)
 *   secret, secret_size  the key's secret, 32 bytes
 *   name, name_size      the key's name, 8 bytes; it is nowhere in the file
 *   number               the seal number, never given before under this key
 *   out, room            where the file goes
 *   size                 the file's length
 * Refusals: 6 no such digest, a secret or a name of another length; 1 the text has no byte; 3 it has more than 38,912; 2 it has more than 512 lines;
 * 6 no family on offer has that strength and holds so many blocks; 6 the number is above 1,000,000; 24 it is 1,000,000; 7 out is too short. */
uint8_t nazkoiber_seal(const uint8_t *text, size_t text_size, uint8_t digest, uint16_t changes, const uint8_t *secret, size_t secret_size,
                       const uint8_t *name, size_t name_size, uint32_t number, uint8_t *out, size_t room, size_t *size);

/* Names the changed blocks of a file, by the digest and the family that its seal part names.
 *   file, file_size      the file
 *   digest               1 or 2: of the key
 *   secret, secret_size  the key's secret, 32 bytes
 *   list, places         where the numbers of the changed blocks go, rising
 *   count                how many there are; where the status is 28, how many blocks are suspect
 *   number               the seal number
 * Refusals: 6 no such digest, a secret of another length; 8 no sealed file; 9 the seal part is not by this key; 26 it names a digest or a family that
 * there is not; 7 the list has fewer places than the smaller of the family's strength and the block count; 28 more blocks are suspect than the family
 * tells apart. */
uint8_t nazkoiber_check(const uint8_t *file, size_t file_size, uint8_t digest, const uint8_t *secret, size_t secret_size, uint16_t *list, size_t places,
                        size_t *count, uint32_t *number);

/* Looks for the lowest row by which bytes offered for a block of a file can be told to be the sealed ones, also where other blocks were changed.
 *   file, file_size, digest, secret, secret_size  as in nazkoiber_check
 *   block                   the block's number
 *   offered, offered_size   the bytes
 *   row                     the row
 *   size                    the length of the excerpt of that block and row
 * Refusals: 6, 8, 9, 26 as in nazkoiber_check; 4 no such block; 3 more than 38,912 bytes are offered; 29 no row tells it. */
uint8_t nazkoiber_vouch(const uint8_t *file, size_t file_size, uint8_t digest, const uint8_t *secret, size_t secret_size, uint16_t block,
                        const uint8_t *offered, size_t offered_size, uint16_t *row, size_t *size);

/* Writes the other blocks of a row that holds a block, which nazkoiber_confirm takes.
 *   file, file_size, digest, secret, secret_size  as in nazkoiber_check
 *   block, row     a block and a row
 *   out, room      where the excerpt goes
 *   size           its length
 * Refusals: 6, 8, 9, 26 as in nazkoiber_check; 4 no such block; 10 the row does not hold the block; 7 out is too short. */
uint8_t nazkoiber_excerpt(const uint8_t *file, size_t file_size, uint8_t digest, const uint8_t *secret, size_t secret_size, uint16_t block, uint16_t row,
                          uint8_t *out, size_t room, size_t *size);

/* Tells whether bytes offered for a block are the sealed ones, by the seal part and an excerpt, without the file. Status 0 is yes.
 *   part, part_size         the seal part
 *   digest, secret, secret_size  as in nazkoiber_check
 *   block, row              the block and the row
 *   offered, offered_size   the bytes
 *   excerpt, excerpt_size   the excerpt of that block and row
 * Refusals: 6 as in nazkoiber_check; 8 no seal part; 9, 26 as in nazkoiber_check; 4 no such block; 3 more than 38,912 bytes are offered; 10 the row does
 * not hold the block; 11 that is no excerpt of them; 12 the bytes, or those of the excerpt, are not the sealed ones. */
uint8_t nazkoiber_confirm(const uint8_t *part, size_t part_size, uint8_t digest, const uint8_t *secret, size_t secret_size, uint16_t block, uint16_t row,
                          const uint8_t *offered, size_t offered_size, const uint8_t *excerpt, size_t excerpt_size);

/* Writes the file of a sheet and a seal part, as it may be after the sheet was changed. Nobody accepts the seal part here.
 *   text, text_size   the sheet
 *   part, part_size   the seal part
 *   out, room         where the file goes
 *   size              its length
 * Refusals: 1, 3, 2 as in nazkoiber_seal; 8 no seal part; 27 it is of another count of blocks; 7 out is too short. */
uint8_t nazkoiber_pack(const uint8_t *text, size_t text_size, const uint8_t *part, size_t part_size, uint8_t *out, size_t room, size_t *size);

/* Tells whether this is a sealed file by its form, and where its seal part stands. Nobody accepts it here.
 *   file, file_size   the file
 *   place             where the seal part begins, counted from 0
 *   size              its length
 * Refusals: 8 no sealed file. */
uint8_t nazkoiber_unpack(const uint8_t *file, size_t file_size, size_t *place, size_t *size);

#ifdef __cplusplus
}
#endif

#endif
