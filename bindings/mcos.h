/*
 * MCOS metadata and string objects of MATLAB files: the calls of libmcos.a for C.
 *
 * Every call but mcos_create_string_object_metadata answers a uint32_t:
 *
 *   0        accepted. The cells of the call's values and the front of its buffers are
 *            written. *place keeps what it held, and so does each buffer beyond the answer
 *            (an edit of a store also clears the words that the store gives up).
 *   1 .. 36  refused: the number of the first check that does not hold. *place is written
 *            with where it does not hold. Nothing else is: every other cell and every
 *            buffer keeps what it held.
 *
 * No call relies on an earlier one: a blob is checked anew each time. No call allocates,
 * keeps a pointer or has a state, so calls may run in several threads at once.
 *
 * What a caller must keep, since the proofs take it for granted:
 *   - a slice is a pointer and its number of ELEMENTS, not bytes;
 *   - there is memory for that many elements, and its bytes are fewer than 2^63;
 *   - no pointer is NULL, also where the number of elements is 0, as for an empty blob, and each
 *     is aligned;
 *   - what is written (a pointer without const) overlaps nothing else of the same call.
 *
 * *place is read in a statement of its own, after the call. Where call and place stand in one
 * expression, as two arguments of printf do, C leaves open which of them comes first:
 *
 *   uint32_t number = mcos_name(blob, blob_len, index, text, text_len,
 *                               &bytes, &replaced, &place);
 *   if (number != 0)
 *       printf("%" PRIu32 " at %" PRIu64 "\n", number, place);
 *
 * The checks, with their places (positions count from 0):
 *
 *   Opening a blob
 *    1  it has at most 16,777,216 bytes                          its length
 *    2  it has 0 bytes, or at least 40                           its length
 *    3  its eight offsets lie within it                          index of the first that does not
 *    4  offset 0 is at least 40                                  0
 *    5  no offset is below the one before it                     index of the first that is
 *    6  the name heap has the declared number of names           pieces that it has
 *    7  every property block is whole                            byte of its count
 *   Objects
 *    8  the object id is from 1 to records - 1, in an edit to    the id
 *       the objects of the store
 *    9  the class id is below the class entries                  the class id
 *   10  the block id is 0 or below the blocks of its region      the block id
 *   11  the name index is at most the number of names            the index
 *   12  the field type is 0, 1 or 2                              the field type
 *   Cells
 *   13  the directory is right                                   in an edit the objects, if a count
 *                                                                goes past its buffer; else its
 *                                                                values if odd, above 699,044 or
 *                                                                not matched by the kinds; else
 *                                                                the first bad pair
 *   14  the cell exists                                          the object id (mcos_decode_string) or
 *                                                                the heap value (.._string_object)
 *   15  its kind is 0                                            as for 14
 *   16  the class is "string"; the property is a heap value      0; 1
 *   Opaque metadata
 *   17  it has 3 to 65,536 words                                 its length
 *   18  word 0 is 0xDD000000                                     word 0
 *   19  the dimensions fit, with one word after them             word 1
 *   20  their product stays below 2^64                           index of the dimension
 *   21  its length is 2 + dimensions + product + 1               its length
 *   Payload
 *   22  it has 2 to 2,097,152 words                              its length
 *   23  word 0 is 1                                              word 0
 *   24  the dimensions fit                                       word 1
 *   25  their product stays below 2^64                           index of the dimension
 *   26  the lengths fit                                          the product
 *   27  the sum of the lengths is below 2^64                     index of the length
 *   28  there are that many code units                           the sum
 *   29  every surrogate is paired within its string              index of the string
 *   Writing
 *   30  spans are in sequence and in the text, strings are UTF-8 its values if odd; else the first
 *                                                                bad string; in an export 0
 *   31  the product of the dimensions is the number of strings   the number of strings
 *   32  at most 2,097,152 words; at most 349,522 objects         the words; the objects
 *   33  the store is in written form (see Edits below)           0
 *   34  each output is long enough                               the need of the first that is not
 *   Labels
 *   35  the name is well-formed UTF-8                            the index
 *   ISO 8859-15
 *   36  each character has a byte                                index of the first that has none,
 *                                                                in characters
 */
#ifndef MCOS_H
#define MCOS_H

#include <stdint.h>

#ifdef __cplusplus
extern "C" {
#endif

/* An opened blob: declared names, class entries, object records, the property blocks of both
 * regions, and the eight offsets. */
typedef struct mcos_file_wrapper {
    uint64_t names;
    uint64_t classes;
    uint64_t records;
    uint64_t saveobj_blocks;
    uint64_t normalobj_blocks;
    uint64_t offsets[8];
} mcos_file_wrapper;

/* The field types of a property. */
enum { MCOS_FIELD_NAME = 0, MCOS_FIELD_HEAP = 1, MCOS_FIELD_INLINE = 2 };

/* A property: the index of its name, its field type, and its value: a name index, a number of
 * the heap, or the value itself. Then how many parts are replaced where its name is shown, and
 * where its value is, which is 0 unless the field type is MCOS_FIELD_NAME. */
typedef struct mcos_property {
    uint32_t name_index;
    uint32_t field_type;
    uint32_t value;
    uint32_t name_replaced;
    uint32_t value_replaced;
} mcos_property;

/* An object: its class, the region of its property block (0 saved, 1 normal), the block's id
 * there, and how many properties it has. An object without a block is in region 1 with block
 * id 0. */
typedef struct mcos_object_row {
    uint32_t class_id;
    uint32_t region;
    uint32_t block_id;
    uint32_t property_count;
} mcos_object_row;

/* The buffers that a label's part may belong to. */
enum { MCOS_SOURCE_BLOB = 0, MCOS_SOURCE_PLACEHOLDER = 1 };

/* A part of a lent buffer: which buffer, its first byte there, and how many bytes. */
typedef struct mcos_part {
    uint64_t source;
    uint64_t start;
    uint64_t length;
} mcos_part;

/* The counts of a store: its objects, the bytes of its blob, and the words of its payloads. */
typedef struct mcos_counts {
    uint64_t objects;
    uint64_t blob_bytes;
    uint64_t words;
} mcos_counts;

/* ---- Text ---- */

/* Decodes UTF-16 code units to UTF-8. There is no limit of length.
 * Checks: 29 (place 0 wherever the surrogate stands), 34 (text).
 * Accepted: the text at the front of text, its length in *bytes. */
uint32_t mcos_decode_utf16(const uint16_t *units, uintptr_t units_len,
                           uint8_t *text, uintptr_t text_len,
                           uint64_t *bytes, uint64_t *place);

/* Writes bytes as well-formed UTF-8: each maximal ill-formed part becomes U+FFFD.
 * Checks: 34 (out).
 * Accepted: the text at the front of out, its length in *bytes, and the number of parts that
 * were replaced in *replaced; a U+FFFD that stood there before does not count. */
uint32_t mcos_write_lossy(const uint8_t *s, uintptr_t s_len,
                          uint8_t *out, uintptr_t out_len,
                          uint64_t *bytes, uint64_t *replaced, uint64_t *place);

/* Exports UTF-8 text to ISO 8859-15, also called Latin-9: one byte a character. A byte's code
 * point is the byte itself, except (hexadecimal)
 *
 *   A4 20AC   A6 0160   A8 0161   B4 017D   B8 017E   BC 0152   BD 0153   BE 0178
 *
 * so the code points A4, A6, A8, B4, B8, BC, BD and BE have no byte; 80 to 9F have their own.
 * Checks: 30 (of the whole text; place 0), 36, 34 (out).
 * Accepted: the bytes at the front of out, their number in *bytes. */
uint32_t mcos_export_latin9(const uint8_t *text, uintptr_t text_len,
                            uint8_t *out, uintptr_t out_len,
                            uint64_t *bytes, uint64_t *place);

/* Imports bytes of ISO 8859-15 as UTF-8 text. Every byte has a code point, and an export of the
 * text gives the bytes back.
 * Checks: 34 (text; a need past 64 bits has place 2^64 - 1).
 * Accepted: the text at the front of text, its length in *bytes. */
uint32_t mcos_import_latin9(const uint8_t *latin9, uintptr_t latin9_len,
                            uint8_t *text, uintptr_t text_len,
                            uint64_t *bytes, uint64_t *place);

/* ---- Writing ----
 *
 * A list of strings is one text and spans: two values a string, offset and length in bytes,
 * each span at or after the end of the one before it. */

/* Writes the opaque metadata of one object: 0xDD000000, 2, 1, 1, object_id, 1. Accepts every
 * id. */
void mcos_create_string_object_metadata(uint32_t object_id, uint32_t metadata[6]);

/* The number of words of the payload that mcos_encode_string_saveobj_payload would write.
 * Checks: 30, 31, 32.
 * Accepted: that number in *length. Nothing else is written. */
uint32_t mcos_measure_payload(const uint64_t *dims, uintptr_t dims_len,
                              const uint8_t *text, uintptr_t text_len,
                              const uint64_t *spans, uintptr_t spans_len,
                              uint64_t *length, uint64_t *place);

/* Writes the payload of an array of strings. No dimensions mean one string.
 * Checks: 30, 31, 32, 34 (words).
 * Accepted: the payload at the front of words, the number of its words in *length. */
uint32_t mcos_encode_string_saveobj_payload(const uint64_t *dims, uintptr_t dims_len,
                                            const uint8_t *text, uintptr_t text_len,
                                            const uint64_t *spans, uintptr_t spans_len,
                                            uint64_t *words, uintptr_t words_len,
                                            uint64_t *length, uint64_t *place);

/* Builds the metadata blob for so many string objects: 144 + 48 * object_count bytes.
 * Checks: 32 (objects), 34 (blob).
 * Accepted: the blob at the front of blob, its length in *length. */
uint32_t mcos_build_string_filewrapper_metadata(uint64_t object_count,
                                                uint8_t *blob, uintptr_t blob_len,
                                                uint64_t *length, uint64_t *place);

/* ---- Reading a metadata blob ----
 *
 * A name is shown as mcos_write_lossy writes it: U+FFFD for each ill-formed part. So that a damaged
 * name is not taken for a sound one, the reply tells how many parts were replaced, which is 0 just
 * where the name is well-formed. A U+FFFD that stands in the file is not counted.
 *
 * A blob of 0 bytes stands for a file without string objects, one that has no subsystem. It opens
 * with no names, no classes and no objects; 3 to 7 are not put to it. Every class id is then
 * refused by 9 and every object id by 8, and the object listing has no rows. */

/* Opens a blob. The layout of a blob of 0 bytes is all 0.
 * Checks: 1 to 7.
 * Accepted: *layout. */
uint32_t mcos_parse(const uint8_t *blob, uintptr_t blob_len,
                    mcos_file_wrapper *layout, uint64_t *place);

/* The name of an index; index 0 is the empty name.
 * Checks: 1 to 7, 11, 34 (text).
 * Accepted: the name at the front of text, its length in *bytes, and the number of parts that
 * were replaced in *replaced. */
uint32_t mcos_name(const uint8_t *blob, uintptr_t blob_len, uint32_t index,
                   uint8_t *text, uintptr_t text_len,
                   uint64_t *bytes, uint64_t *replaced, uint64_t *place);

/* The label of a name index: the name's own bytes where they lie in the blob, or the whole
 * placeholder where the name is empty, by index 0 or as it is stored. Nothing is copied, so the
 * name must be well-formed as it stands. The placeholder's bytes are not looked at.
 * Checks: 1 to 7, 11, 35.
 * Accepted: *part. Its part.length bytes begin at
 *
 *   (part.source == MCOS_SOURCE_BLOB ? blob : placeholder) + part.start
 *
 * Refused: *part is kept, and the label is the placeholder's first 0 bytes. */
uint32_t mcos_label(const uint8_t *blob, uintptr_t blob_len,
                    const uint8_t *placeholder, uintptr_t placeholder_len, uint32_t index,
                    mcos_part *part, uint64_t *place);

/* The name of a class: namespace, full stop, name; the name alone where the namespace's index
 * is 0.
 * Checks: 1 to 7, 9, 11 for the name, 11 for the namespace, 34 (text).
 * Accepted: the name at the front of text, its length in *bytes, and the number of parts that
 * were replaced, in namespace and name together, in *replaced. */
uint32_t mcos_class_name(const uint8_t *blob, uintptr_t blob_len, uint32_t class_id,
                         uint8_t *text, uintptr_t text_len,
                         uint64_t *bytes, uint64_t *replaced, uint64_t *place);

/* The name of an object's class.
 * Checks: 1 to 8, 9, 11 for the name, 11 for the namespace, 34 (text).
 * Accepted: as mcos_class_name. */
uint32_t mcos_object_class_name(const uint8_t *blob, uintptr_t blob_len, uint32_t object_id,
                                uint8_t *text, uintptr_t text_len,
                                uint64_t *bytes, uint64_t *replaced, uint64_t *place);

/* The properties of an object, a row each.
 * Checks: 1 to 8, 10, then for each property 11 for its name, 12, and 11 again where its type
 * is 0; last 34 (rows; the place counts rows).
 * Accepted: the rows at the front of rows, their number in *count. */
uint32_t mcos_properties(const uint8_t *blob, uintptr_t blob_len, uint32_t object_id,
                         mcos_property *rows, uintptr_t rows_len,
                         uint64_t *count, uint64_t *place);

/* Looks for the first property of an object whose name is stored as the wanted bytes. The bytes of
 * the blob are compared, not what is shown for them: a name with ill-formed bytes matches no
 * well-formed text, and is found by its own bytes alone. The empty name, by index 0 or as it is
 * stored, matches 0 wanted bytes. No name has a zero byte, so wanted bytes with one match none.
 * Every property is checked, also after a match.
 * Checks: as mcos_properties, without 34.
 * Accepted: 1 in *found and its position from 0 in *position; or 0 in *found, and *position is
 * kept. */
uint32_t mcos_find_property(const uint8_t *blob, uintptr_t blob_len, uint32_t object_id,
                            const uint8_t *wanted, uintptr_t wanted_len,
                            uint32_t *found, uint64_t *position, uint64_t *place);

/* Lists the objects, a row each: row j is object j + 1.
 * Checks: 1 to 7, 10 for each object in turn, 34 (rows; the place counts rows).
 * Accepted: the rows at the front of rows, their number in *count. */
uint32_t mcos_list_objects(const uint8_t *blob, uintptr_t blob_len,
                           mcos_object_row *rows, uintptr_t rows_len,
                           uint64_t *count, uint64_t *place);

/* ---- Reading opaque metadata, payloads and string objects ----
 *
 * Strings go end to end to the front of text, and their spans to the front of spans: two values
 * a string, offset and length in bytes. 34 is put for the text, then for the spans; its place is
 * bytes there and values here. */

/* Reads opaque metadata: 0xDD000000, the number of dimensions, the dimensions, as many object
 * ids as their product, the class id.
 * Checks: 17 to 21.
 * Accepted: the index of the first id in *first_id, their number in *ids, the class id in
 * *class_id. */
uint32_t mcos_parse_opaque_metadata(const uint32_t *metadata, uintptr_t metadata_len,
                                    uint64_t *first_id, uint64_t *ids, uint32_t *class_id,
                                    uint64_t *place);

/* Decodes a payload to its strings. A missing string (length 2^64 - 1) is empty; words after the
 * declared code units are not looked at.
 * Checks: 22 to 29, 34.
 * Accepted: text and spans, the text's length in *bytes, the number of strings in *strings. */
uint32_t mcos_decode_string_saveobj(const uint64_t *payload, uintptr_t payload_len,
                                    uint8_t *text, uintptr_t text_len,
                                    uint64_t *spans, uintptr_t spans_len,
                                    uint64_t *bytes, uint64_t *strings, uint64_t *place);

/* The strings of the objects that opaque metadata names, one object after the other. Id k leads
 * to entry k - 1 of the directory; the blob's objects and the class in the metadata play no part.
 * A cell is a pair of the directory, offset and length in words, with its kind: 0 is 64-bit data.
 * Checks: 1 to 7, 13, 17 to 21, then for each id 14, 15, 22 to 29; last 34.
 * Accepted: as mcos_decode_string_saveobj. */
uint32_t mcos_decode_string(const uint8_t *blob, uintptr_t blob_len,
                            const uint64_t *directory, uintptr_t directory_len,
                            const uint8_t *kinds, uintptr_t kinds_len,
                            const uint64_t *words, uintptr_t words_len,
                            const uint32_t *metadata, uintptr_t metadata_len,
                            uint8_t *text, uintptr_t text_len,
                            uint64_t *spans, uintptr_t spans_len,
                            uint64_t *bytes, uint64_t *strings, uint64_t *place);

/* The strings of one object through its own property: the one named "any", else the first, whose
 * heap value is the number of an entry of the directory. An object without properties is one
 * empty string.
 * Checks: 1 to 7, 13, 8, 9, 11, 16 (class), 10 to 12, 16 (property), 14, 15, 22 to 29, 34.
 * Accepted: as mcos_decode_string_saveobj. */
uint32_t mcos_decode_string_object(const uint8_t *blob, uintptr_t blob_len,
                                   const uint64_t *directory, uintptr_t directory_len,
                                   const uint8_t *kinds, uintptr_t kinds_len,
                                   const uint64_t *words, uintptr_t words_len,
                                   uint32_t object_id,
                                   uint8_t *text, uintptr_t text_len,
                                   uint64_t *spans, uintptr_t spans_len,
                                   uint64_t *bytes, uint64_t *strings, uint64_t *place);

/* ---- Edits of a store ----
 *
 * A store is its counts and the counted part of four buffers, which may be longer: blob_bytes
 * bytes of blob, 2 * objects values of directory, objects kinds, and words words. It is in written
 * form if, for some arrays of strings, it is:
 *
 *   objects     the number of arrays, n
 *   blob        what mcos_build_string_filewrapper_metadata builds for n: 144 + 48 * n bytes
 *   words       what mcos_encode_string_saveobj_payload writes for each array, end to end
 *   directory   the pair of each payload: offset and length in words
 *   kinds       0 for each
 *
 * The empty store is the counts 0, 144, 0 with the blob that is built for 0 objects. A blob of 0
 * bytes is in no written form: with blob_bytes 0 every edit is refused by 33, if 13 holds. The
 * calls that read a store are lent its counted part.
 *
 * An accepted edit leaves the written form of the new arrays and their counts; words that are given
 * up become 0, and all else beyond the counts keeps what it held. A refused edit writes *place
 * alone. 34 is put for blob, directory, kinds and words: the whole lengths of the buffers against
 * the whole store after the edit. */

/* Adds an array of strings after the last one: object objects + 1.
 * Checks: 13, 33, 30, 31, 32 (the payload's words, then objects + 1), 34.
 * Accepted: the counts in *counts, and the store. */
uint32_t mcos_append(mcos_counts *counts,
                     uint8_t *blob, uintptr_t blob_len,
                     uint64_t *directory, uintptr_t directory_len,
                     uint8_t *kinds, uintptr_t kinds_len,
                     uint64_t *words, uintptr_t words_len,
                     const uint64_t *dims, uintptr_t dims_len,
                     const uint8_t *text, uintptr_t text_len,
                     const uint64_t *spans, uintptr_t spans_len,
                     uint64_t *place);

/* Puts an array of strings in place of that of an object, and moves those after it. Blob and
 * kinds stay as they are.
 * Checks: 13, 33, 8, 30, 31, 32 (the payload's words), 34.
 * Accepted: the counts in *counts, and the store. */
uint32_t mcos_replace(mcos_counts *counts,
                      const uint8_t *blob, uintptr_t blob_len,
                      uint64_t *directory, uintptr_t directory_len,
                      const uint8_t *kinds, uintptr_t kinds_len,
                      uint64_t *words, uintptr_t words_len,
                      uint64_t object_id,
                      const uint64_t *dims, uintptr_t dims_len,
                      const uint8_t *text, uintptr_t text_len,
                      const uint64_t *spans, uintptr_t spans_len,
                      uint64_t *place);

#ifdef __cplusplus
}
#endif

#endif
