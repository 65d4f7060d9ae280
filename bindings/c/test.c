/*
 * Calls libmcos.a from C: each function accepted and refused, with the cells and buffers that
 * must be kept. From the repository's folder:
 *
 *   cd crates/mcos && rt lib && cd out
 *   gcc -std=c11 -Wall -Wextra -Werror -O2 -I ../../../bindings ../../../bindings/c/test.c libmcos.a -o c_test
 *   ./c_test
 *
 * The last line is `N checks, 0 failed`.
 */
#include <stdio.h>
#include <string.h>

#include "mcos.h"

#define KEPT 0xA5A5A5A5A5A5A5A5u

static int checks, failed;

static void check(int holds, const char *what, int line)
{
    checks++;
    if (!holds) {
        failed++;
        printf("line %d: %s\n", line, what);
    }
}

#define CHECK(c) check((c) != 0, #c, __LINE__)

/* Every byte is that of KEPT. */
static int kept(const void *p, size_t n)
{
    const unsigned char *b = p;
    for (size_t i = 0; i < n; i++)
        if (b[i] != 0xA5)
            return 0;
    return 1;
}

#define KEEP(x) memset(&(x), 0xA5, sizeof(x))
#define IS_KEPT(x) kept(&(x), sizeof(x))

static uint8_t blob[240]; /* for two objects */
static uint64_t a, b, place;

static void fresh(void)
{
    a = b = place = KEPT;
}

static int accepted(uint32_t number)
{
    return number == 0 && place == KEPT;
}

static int refused(uint32_t number, uint32_t check_number, uint64_t where)
{
    return number == check_number && place == where && a == KEPT && b == KEPT;
}

static void text_calls(void)
{
    const uint16_t oil[] = {0xD83D, 0xDEE2};
    uint8_t text[5];

    KEEP(text), fresh();
    CHECK(accepted(mcos_decode_utf16(oil, 2, text, sizeof text, &a, &place)));
    CHECK(a == 4 && memcmp(text, "\xF0\x9F\x9B\xA2", 4) == 0 && text[4] == 0xA5);
    KEEP(text), fresh();
    CHECK(refused(mcos_decode_utf16(oil, 1, text, sizeof text, &a, &place), 29, 0) && IS_KEPT(text));
    CHECK(refused(mcos_decode_utf16(oil, 2, text, 3, &a, &place), 34, 4) && IS_KEPT(text));

    fresh();
    CHECK(accepted(mcos_write_lossy((const uint8_t *)"a\xFF", 2, text, 4, &a, &b, &place)));
    CHECK(a == 4 && b == 1 && memcmp(text, "a\xEF\xBF\xBD", 4) == 0);
    KEEP(text), fresh();
    CHECK(refused(mcos_write_lossy((const uint8_t *)"a\xFF", 2, text, 3, &a, &b, &place), 34, 4) && IS_KEPT(text));
}

/* The bytes of ISO 8859-15 whose code point is not the byte itself, with their characters. */
static const struct {
    uint8_t byte;
    const char *text;
} exceptions[] = {
    {0xA4, "\xE2\x82\xAC"}, {0xA6, "\xC5\xA0"}, {0xA8, "\xC5\xA1"}, {0xB4, "\xC5\xBD"},
    {0xB8, "\xC5\xBE"},     {0xBC, "\xC5\x92"}, {0xBD, "\xC5\x93"}, {0xBE, "\xC5\xB8"},
};

/* Writes the character of a byte in UTF-8, and gives its length. */
static size_t character(uint8_t byte, uint8_t *text)
{
    for (size_t i = 0; i < 8; i++)
        if (exceptions[i].byte == byte) {
            memcpy(text, exceptions[i].text, strlen(exceptions[i].text));
            return strlen(exceptions[i].text);
        }
    if (byte < 0x80) {
        text[0] = byte;
        return 1;
    }
    text[0] = 0xC0 | (byte >> 6);
    text[1] = 0x80 | (byte & 0x3F);
    return 2;
}

static void latin9_calls(void)
{
    uint8_t bytes[256], text[385], out[386];
    size_t length = 0;

    /* Each byte alone, then all of them. */
    for (unsigned i = 0; i < 256; i++) {
        uint8_t *one = text + length;
        size_t n = character((uint8_t)i, one);
        bytes[i] = (uint8_t)i;
        KEEP(out), fresh();
        CHECK(refused(mcos_import_latin9(bytes + i, 1, out, n - 1, &a, &place), 34, n) && IS_KEPT(out));
        CHECK(refused(mcos_export_latin9(one, n, out, 0, &a, &place), 34, 1) && IS_KEPT(out));
        fresh();
        CHECK(accepted(mcos_import_latin9(bytes + i, 1, out, n, &a, &place)) && a == n);
        CHECK(memcmp(out, one, n) == 0 && kept(out + n, sizeof out - n));
        KEEP(out), fresh();
        CHECK(accepted(mcos_export_latin9(one, n, out, 1, &a, &place)) && a == 1);
        CHECK(out[0] == i && kept(out + 1, sizeof out - 1));
        length += n;
    }
    CHECK(length == sizeof text);
    KEEP(out), fresh();
    CHECK(refused(mcos_import_latin9(bytes, 256, out, 384, &a, &place), 34, 385));
    CHECK(refused(mcos_export_latin9(text, 385, out, 255, &a, &place), 34, 256));
    CHECK(IS_KEPT(out));
    fresh();
    CHECK(accepted(mcos_import_latin9(bytes, 256, out, 386, &a, &place)));
    CHECK(a == 385 && memcmp(out, text, 385) == 0 && out[385] == 0xA5);
    KEEP(out), fresh();
    CHECK(accepted(mcos_export_latin9(text, 385, out, 386, &a, &place)));
    CHECK(a == 256 && memcmp(out, bytes, 256) == 0 && kept(out + 256, 130));

    /* The eight code points that gave way have no byte, nor has one of four bytes. The index counts characters. */
    KEEP(out), fresh();
    for (size_t i = 0; i < 8; i++) {
        const uint8_t gave_way[] = {'x', 0xC3, 0xA9, 0xC2, exceptions[i].byte, 0xC2, 0xA4};
        CHECK(refused(mcos_export_latin9(gave_way, 7, out, 7, &a, &place), 36, 2));
        CHECK(refused(mcos_export_latin9(gave_way + 3, 2, out, 0, &a, &place), 36, 0));
    }
    const uint8_t oil[] = {0xE2, 0x82, 0xAC, 0xF0, 0x9F, 0x9B, 0xA2, 'x', 0xFF};
    CHECK(refused(mcos_export_latin9(oil, 8, out, 8, &a, &place), 36, 1));

    /* The whole text is asked to be UTF-8 before. */
    CHECK(refused(mcos_export_latin9(oil, 9, out, 0, &a, &place), 30, 0));
    CHECK(refused(mcos_export_latin9(oil, 6, out, 8, &a, &place), 30, 0));
    CHECK(refused(mcos_export_latin9(oil, 2, out, 8, &a, &place), 30, 0));
    CHECK(IS_KEPT(out));

    /* No text. There is nothing to read or to write where it would begin. */
    fresh();
    CHECK(accepted(mcos_export_latin9(oil + sizeof oil, 0, out + sizeof out, 0, &a, &place)) && a == 0);
    fresh();
    CHECK(accepted(mcos_import_latin9(oil + sizeof oil, 0, out + sizeof out, 0, &a, &place)) && a == 0);
    CHECK(IS_KEPT(out));
}

static void writing_calls(void)
{
    uint32_t metadata[6];
    const uint32_t seven[] = {0xDD000000, 2, 1, 1, 7, 1};
    mcos_create_string_object_metadata(7, metadata);
    CHECK(memcmp(metadata, seven, sizeof seven) == 0);

    const uint64_t dims[] = {1, 1}, spans[] = {0, 4}, expected[] = {1, 2, 1, 1, 2, 0x20AC0041};
    const uint8_t text[] = {'A', 0xE2, 0x82, 0xAC};
    uint64_t words[7];

    fresh();
    CHECK(accepted(mcos_measure_payload(dims, 2, text, 4, spans, 2, &a, &place)) && a == 6);
    fresh();
    CHECK(refused(mcos_measure_payload(dims, 2, text, 3, spans, 2, &a, &place), 30, 0));

    KEEP(words), fresh();
    CHECK(accepted(mcos_encode_string_saveobj_payload(dims, 2, text, 4, spans, 2, words, 7, &a, &place)));
    CHECK(a == 6 && memcmp(words, expected, sizeof expected) == 0 && words[6] == KEPT);
    KEEP(words), fresh();
    CHECK(refused(mcos_encode_string_saveobj_payload(dims, 2, text, 4, spans, 2, words, 5, &a, &place), 34, 6));
    CHECK(refused(mcos_encode_string_saveobj_payload(dims, 2, text, 4, spans, 0, words, 7, &a, &place), 31, 0));
    CHECK(IS_KEPT(words));

    KEEP(blob), fresh();
    CHECK(refused(mcos_build_string_filewrapper_metadata(2, blob, 239, &a, &place), 34, 240));
    CHECK(refused(mcos_build_string_filewrapper_metadata(349523, blob, 240, &a, &place), 32, 349523));
    CHECK(IS_KEPT(blob));
    fresh();
    CHECK(accepted(mcos_build_string_filewrapper_metadata(2, blob, 240, &a, &place)) && a == 240);
}

static void blob_calls(void)
{
    const mcos_file_wrapper two = {2, 2, 3, 3, 1, {56, 88, 128, 200, 208, 232, 232, 240}};
    mcos_file_wrapper layout;
    KEEP(layout), fresh();
    CHECK(refused(mcos_parse(blob, 39, &layout, &place), 2, 39) && IS_KEPT(layout));
    fresh();
    CHECK(accepted(mcos_parse(blob, 240, &layout, &place)) && memcmp(&layout, &two, sizeof two) == 0);

    uint8_t text[8];
    KEEP(text), fresh();
    CHECK(refused(mcos_name(blob, 240, 3, text, 8, &a, &b, &place), 11, 3));
    CHECK(refused(mcos_class_name(blob, 240, 2, text, 8, &a, &b, &place), 9, 2));
    CHECK(refused(mcos_object_class_name(blob, 240, 3, text, 8, &a, &b, &place), 8, 3));
    CHECK(refused(mcos_name(blob, 240, 1, text, 2, &a, &b, &place), 34, 3));
    CHECK(IS_KEPT(text));
    fresh();
    CHECK(accepted(mcos_name(blob, 240, 1, text, 8, &a, &b, &place)));
    CHECK(a == 3 && b == 0 && memcmp(text, "any", 3) == 0 && kept(text + 3, 5));
    fresh();
    CHECK(accepted(mcos_class_name(blob, 240, 1, text, 6, &a, &b, &place)));
    CHECK(a == 6 && b == 0 && memcmp(text, "string", 6) == 0);
    KEEP(text), fresh();
    CHECK(accepted(mcos_object_class_name(blob, 240, 2, text, 6, &a, &b, &place)));
    CHECK(a == 6 && b == 0 && memcmp(text, "string", 6) == 0);

    mcos_property rows[2];
    KEEP(rows), fresh();
    CHECK(refused(mcos_properties(blob, 240, 0, rows, 2, &a, &place), 8, 0));
    CHECK(refused(mcos_properties(blob, 240, 1, rows, 0, &a, &place), 34, 1));
    CHECK(IS_KEPT(rows));
    fresh();
    CHECK(accepted(mcos_properties(blob, 240, 2, rows, 2, &a, &place)) && a == 1);
    CHECK(rows[0].name_index == 1 && rows[0].field_type == MCOS_FIELD_HEAP && rows[0].value == 1);
    CHECK(rows[0].name_replaced == 0 && rows[0].value_replaced == 0);
    CHECK(IS_KEPT(rows[1]));

    uint32_t found;
    KEEP(found), fresh();
    CHECK(refused(mcos_find_property(blob, 240, 3, (const uint8_t *)"any", 3, &found, &a, &place), 8, 3));
    CHECK(IS_KEPT(found));
    fresh();
    CHECK(accepted(mcos_find_property(blob, 240, 1, (const uint8_t *)"any", 3, &found, &a, &place)));
    CHECK(found == 1 && a == 0);
    fresh();
    CHECK(accepted(mcos_find_property(blob, 240, 1, (const uint8_t *)"an", 2, &found, &a, &place)));
    CHECK(found == 0 && a == KEPT);
}

static int is_part(mcos_part part, uint64_t source, uint64_t start, uint64_t length)
{
    return part.source == source && part.start == start && part.length == length;
}

static void label_calls(void)
{
    /* Five names, and a piece that is not declared: "pkg", "", "pkg", an ill-formed one, U+FFFD. */
    const uint32_t header[] = {4, 5, 56, 56, 56, 56, 56, 56, 56, 56};
    const uint8_t heap[] = "pkg\0\0pkg\0a\xFF\0\xEF\xBF\xBD", none[] = {'-', 0xFF};
    uint8_t named[56];
    memcpy(named, header, sizeof header);
    memcpy(named + 40, heap, sizeof heap);

    mcos_part part;
    KEEP(part), fresh();
    CHECK(refused(mcos_label(named, 39, none, 2, 0, &part, &place), 2, 39));
    CHECK(refused(mcos_label(named, 55, none, 2, 0, &part, &place), 3, 0));
    CHECK(refused(mcos_label(named, 56, none, 2, 6, &part, &place), 11, 6));
    CHECK(refused(mcos_label(named, 56, none, 2, UINT32_MAX, &part, &place), 11, UINT32_MAX));
    CHECK(refused(mcos_label(named, 56, none, 2, 4, &part, &place), 35, 4));
    CHECK(IS_KEPT(part));

    /* Equal names are different parts. */
    fresh();
    CHECK(accepted(mcos_label(named, 56, none, 2, 1, &part, &place)) && is_part(part, MCOS_SOURCE_BLOB, 40, 3));
    KEEP(part), fresh();
    CHECK(accepted(mcos_label(named, 56, none, 2, 3, &part, &place)) && is_part(part, MCOS_SOURCE_BLOB, 45, 3));
    const uint8_t *label = (part.source == MCOS_SOURCE_BLOB ? named : none) + part.start;
    CHECK(label == named + 45 && memcmp(label, "pkg", part.length) == 0);
    KEEP(part), fresh();
    CHECK(accepted(mcos_label(named, 56, none, 2, 5, &part, &place)) && is_part(part, MCOS_SOURCE_BLOB, 52, 3));

    /* The empty name, by index 0 and as it is stored; a placeholder of 0 bytes. */
    KEEP(part), fresh();
    CHECK(accepted(mcos_label(named, 56, none, 2, 0, &part, &place)) && is_part(part, MCOS_SOURCE_PLACEHOLDER, 0, 2));
    label = (part.source == MCOS_SOURCE_BLOB ? named : none) + part.start;
    CHECK(label == none);
    KEEP(part), fresh();
    CHECK(accepted(mcos_label(named, 56, none, 2, 2, &part, &place)) && is_part(part, MCOS_SOURCE_PLACEHOLDER, 0, 2));
    KEEP(part), fresh();
    CHECK(accepted(mcos_label(named, 56, none, 0, 2, &part, &place)) && is_part(part, MCOS_SOURCE_PLACEHOLDER, 0, 0));
}

/* A blob that is made here, and its length. */
static uint8_t made[100000];
static size_t made_len;

static void put(const void *bytes, size_t n)
{
    memcpy(made + made_len, bytes, n);
    made_len += n;
}

static void put_words(const uint32_t *words, size_t n)
{
    put(words, 4 * n);
}

/* Makes a blob of names, each with its zero byte, of which so many are declared; with a class for each pair of namespace
 * and name, from class 1 on; and with an object of each of them, of which object 1 has these properties. */
static void make(const char *const *names, uint32_t pieces, uint32_t declared, const uint32_t (*classes)[2],
                 uint32_t class_count, const uint32_t (*triples)[3], uint32_t triple_count)
{
    const uint32_t none = 0;
    uint32_t header[10] = {4, declared};
    memset(made, 0, sizeof made);
    made_len = 40;
    for (uint32_t i = 0; i < pieces; i++)
        put(names[i], strlen(names[i]) + 1);
    header[2] = (uint32_t)made_len;
    made_len += 16;
    for (uint32_t i = 0; i < class_count; i++) {
        put_words(classes[i], 2);
        made_len += 8;
    }
    header[3] = (uint32_t)made_len;
    /* Block 0 is no object's. Each ends at a multiple of 8 from the blob's start. */
    put_words(&none, 1);
    made_len = (made_len + 7) / 8 * 8;
    put_words(&triple_count, 1);
    if (triple_count > 0)
        put_words(triples[0], 3 * (size_t)triple_count);
    made_len = (made_len + 7) / 8 * 8;
    header[4] = (uint32_t)made_len;
    made_len += 24;
    for (uint32_t id = 1; id <= class_count; id++) {
        const uint32_t record[6] = {id, 0, 0, id == 1, 0, 0};
        put_words(record, 6);
    }
    for (int i = 5; i < 10; i++)
        header[i] = (uint32_t)made_len;
    memcpy(made, header, sizeof header);
}

typedef uint32_t (*name_call)(const uint8_t *, uintptr_t, uint32_t, uint8_t *, uintptr_t, uint64_t *, uint64_t *, uint64_t *);

/* A call on the blob that is made gives this text, with so many parts replaced: with room to spare, exactly full and one
 * short. */
static void shows(name_call call, uint32_t number, const char *shown, uint64_t replaced)
{
    const size_t n = strlen(shown);
    uint8_t text[40];
    KEEP(text), fresh();
    CHECK(accepted(call(made, made_len, number, text, sizeof text, &a, &b, &place)) && a == n && b == replaced);
    CHECK(memcmp(text, shown, n) == 0 && kept(text + n, sizeof text - n));
    KEEP(text), fresh();
    CHECK(accepted(call(made, made_len, number, text, n, &a, &b, &place)) && a == n && b == replaced);
    CHECK(memcmp(text, shown, n) == 0 && kept(text + n, sizeof text - n));
    if (n > 0) {
        KEEP(text), fresh();
        CHECK(refused(call(made, made_len, number, text, n - 1, &a, &b, &place), 34, n) && IS_KEPT(text));
    }
}

/* Whether a row has the numbers of its triple, and these counts. */
static int is_row(const mcos_property *row, const uint32_t triple[3], uint32_t name_replaced, uint32_t value_replaced)
{
    return row->name_index == triple[0] && row->field_type == triple[1] && row->value == triple[2]
        && row->name_replaced == name_replaced && row->value_replaced == value_replaced;
}

#define LENGTH(list) (sizeof(list) / sizeof(list)[0])

/* No property has the name. */
#define NOWHERE UINT64_MAX

/* Object 1 of the blob that is made has the name at this position, or nowhere. */
static void finds(const char *wanted, size_t n, uint64_t position)
{
    uint32_t found;
    KEEP(found), fresh();
    CHECK(accepted(mcos_find_property(made, made_len, 1, (const uint8_t *)wanted, n, &found, &a, &place)));
    CHECK(position == NOWHERE ? found == 0 && a == KEPT : found == 1 && a == position);
}

/* A search there is refused, and both cells are kept. */
static void finds_refused(const char *wanted, size_t n, uint32_t number, uint64_t where)
{
    uint32_t found;
    KEEP(found), fresh();
    CHECK(refused(mcos_find_property(made, made_len, 1, (const uint8_t *)wanted, n, &found, &a, &place), number, where));
    CHECK(IS_KEPT(found));
}

/* How many parts were replaced, in names, in classes and in the rows of properties. */
static void repaired_calls(void)
{
    static const struct {
        const char *stored, *shown;
        uint64_t replaced;
    } names[] = {
        {"", "", 0},
        {"any", "any", 0},
        {"\xC3\xA9\xE2\x82\xAC", "\xC3\xA9\xE2\x82\xAC", 0},
        /* A genuine U+FFFD: alone, cut, and beside parts that are replaced. */
        {"\xEF\xBF\xBD", "\xEF\xBF\xBD", 0},
        {"\xEF\xBF", "\xEF\xBF\xBD", 1},
        {"\xEF\xBF\xBD\xFF\xEF\xBF\xBD", "\xEF\xBF\xBD\xEF\xBF\xBD\xEF\xBF\xBD", 1},
        {"\xFF", "\xEF\xBF\xBD", 1},
        {"\xF4\x80\x80", "\xEF\xBF\xBD", 1},
        {"\xE0\x80", "\xEF\xBF\xBD\xEF\xBF\xBD", 2},
        {"\xED\xA0\x80", "\xEF\xBF\xBD\xEF\xBF\xBD\xEF\xBF\xBD", 3},
        {"a\xFF" "b\xE2\x82" "c\xF0\x9F", "a\xEF\xBF\xBD" "b\xEF\xBF\xBD" "c\xEF\xBF\xBD", 3},
    };
    const char *stored[LENGTH(names)];
    const uint32_t count = LENGTH(names);
    for (uint32_t i = 0; i < count; i++)
        stored[i] = names[i].stored;
    make(stored, count, count, NULL, 0, NULL, 0);
    shows(mcos_name, 0, "", 0);
    for (uint32_t i = 0; i < count; i++)
        shows(mcos_name, i + 1, names[i].shown, names[i].replaced);

    /* A class has the sum: both are damaged, one of them, none; no namespace; the same name twice; no name. */
    static const char *const four[] = {"p\xFF", "\xE0\x80", "Q", "\xEF\xBF\xBD"};
    static const uint32_t pairs[][2] = {{1, 2}, {1, 3}, {3, 2}, {3, 4}, {0, 2}, {0, 4}, {2, 2}, {2, 0}};
    static const struct {
        const char *shown;
        uint64_t replaced;
    } classes[] = {
        {"p\xEF\xBF\xBD.\xEF\xBF\xBD\xEF\xBF\xBD", 3},
        {"p\xEF\xBF\xBD.Q", 1},
        {"Q.\xEF\xBF\xBD\xEF\xBF\xBD", 2},
        {"Q.\xEF\xBF\xBD", 0},
        {"\xEF\xBF\xBD\xEF\xBF\xBD", 2},
        {"\xEF\xBF\xBD", 0},
        {"\xEF\xBF\xBD\xEF\xBF\xBD.\xEF\xBF\xBD\xEF\xBF\xBD", 4},
        {"\xEF\xBF\xBD\xEF\xBF\xBD.", 2},
    };
    /* The value of the heap and the one itself are the index of a damaged name, too. */
    static const uint32_t triples[][3] = {{1, 0, 2}, {2, 0, 1}, {1, 1, 2}, {2, 2, 1}, {3, 1, 1}, {3, 2, 2},
                                          {3, 0, 2}, {4, 0, 4}, {0, 0, 1}, {1, 0, 0}, {2, 1, 5}, {2, 2, UINT32_MAX}};
    static const uint32_t counts_of[][2] = {{1, 2}, {2, 1}, {1, 0}, {2, 0}, {0, 0}, {0, 0},
                                            {0, 2}, {0, 0}, {0, 1}, {1, 0}, {2, 0}, {2, 0}};
    const uint32_t n = LENGTH(triples);
    make(four, 4, 4, pairs, LENGTH(pairs), triples, n);
    for (uint32_t id = 1; id <= LENGTH(classes); id++) {
        shows(mcos_class_name, id, classes[id - 1].shown, classes[id - 1].replaced);
        shows(mcos_object_class_name, id, classes[id - 1].shown, classes[id - 1].replaced);
    }
    mcos_property rows[LENGTH(triples) + 1];
    KEEP(rows), fresh();
    CHECK(refused(mcos_properties(made, made_len, 1, rows, 0, &a, &place), 34, n));
    CHECK(refused(mcos_properties(made, made_len, 1, rows, n - 1, &a, &place), 34, n));
    CHECK(IS_KEPT(rows));
    fresh();
    CHECK(accepted(mcos_properties(made, made_len, 1, rows, n + 1, &a, &place)) && a == n && IS_KEPT(rows[n]));
    for (uint32_t i = 0; i < n; i++)
        CHECK(is_row(&rows[i], triples[i], counts_of[i][0], counts_of[i][1]));

    /* Finding is by what is stored: of what is shown, U+FFFD finds the genuine one alone. */
    finds("\xE0\x80", 2, 1);
    finds("\xEF\xBF\xBD\xEF\xBF\xBD", 6, NOWHERE);
    finds("\xEF\xBF\xBD", 3, 7);
    finds("", 0, 8);

    /* An object without a block, and one whose block is empty. */
    KEEP(rows), fresh();
    CHECK(accepted(mcos_properties(made, made_len, 2, rows, n + 1, &a, &place)) && a == 0 && IS_KEPT(rows));
    make(four, 4, 4, pairs, 1, NULL, 0);
    fresh();
    CHECK(accepted(mcos_properties(made, made_len, 1, rows, n + 1, &a, &place)) && a == 0 && IS_KEPT(rows));

    /* Refusals tell of no count, though there are damaged names before. */
    static const uint32_t bad[][2][3] = {{{1, 0, 2}, {5, 0, 1}}, {{1, 0, 2}, {2, 3, 1}}, {{1, 0, 2}, {2, 0, 5}}};
    static const uint32_t refusals[][2] = {{11, 5}, {12, 3}, {11, 5}};
    for (size_t i = 0; i < LENGTH(bad); i++) {
        make(four, 4, 4, pairs, 1, bad[i], 2);
        for (uintptr_t room = 0; room <= 3; room++) {
            fresh();
            CHECK(refused(mcos_properties(made, made_len, 1, rows, room, &a, &place), refusals[i][0], refusals[i][1]));
        }
        CHECK(IS_KEPT(rows));
    }
    static const uint32_t nowhere[][2] = {{1, 5}, {5, 2}};
    uint8_t text[40];
    make(four, 4, 4, nowhere, 2, NULL, 0);
    KEEP(text), fresh();
    for (uint32_t id = 1; id <= 2; id++) {
        CHECK(refused(mcos_class_name(made, made_len, id, text, 40, &a, &b, &place), 11, 5));
        CHECK(refused(mcos_object_class_name(made, made_len, id, text, 40, &a, &b, &place), 11, 5));
    }
    CHECK(refused(mcos_name(made, made_len, 5, text, 40, &a, &b, &place), 11, 5));
    CHECK(IS_KEPT(text));

    /* Names 3 and 4 are not declared, and no others are damaged. */
    static const char *const sound[] = {"a", "\xEF\xBF\xBD", "\xFF", "\xE0\x80"};
    static const uint32_t of_sound[][3] = {{1, 0, 2}, {2, 1, 3}, {0, 2, 4}}, both[][2] = {{1, 2}};
    make(sound, 4, 2, both, 1, of_sound, 3);
    shows(mcos_name, 1, "a", 0);
    shows(mcos_name, 2, "\xEF\xBF\xBD", 0);
    shows(mcos_class_name, 1, "a.\xEF\xBF\xBD", 0);
    fresh();
    CHECK(refused(mcos_name(made, made_len, 3, text, 40, &a, &b, &place), 11, 3) && IS_KEPT(text));
    fresh();
    CHECK(accepted(mcos_properties(made, made_len, 1, rows, 3, &a, &place)) && a == 3);
    for (int i = 0; i < 3; i++)
        CHECK(is_row(&rows[i], of_sound[i], 0, 0));
}

/* Indices on both sides of 4,096 and 8,192, and how many parts are replaced in each name. */
static const uint32_t around[] = {1, 2, 4094, 4095, 4096, 4097, 4098, 8191, 8192, 8193, 8194};
static const uint32_t parts_of[] = {1, 0, 0, 2, 3, 1, 0, 0, 2, 1, 0};

/* More names than the library walks at once, 4,096: damaged ones on both sides, as names and as values, in any order. */
static void many_names(void)
{
    /* By the number of parts. */
    static const char *const stored[] = {"xy", "\xFF", "b\xE0\x80", "\xED\xA0\x80"};
    static const char *const shown[] = {"xy", "\xEF\xBF\xBD", "b\xEF\xBF\xBD\xEF\xBF\xBD",
                                        "\xEF\xBF\xBD\xEF\xBF\xBD\xEF\xBF\xBD"};
    static const char *names[8200];
    static uint32_t triples[6 * LENGTH(around) * LENGTH(around)][3];
    static mcos_property rows[LENGTH(triples) + 1];
    static const uint32_t last[][2] = {{4096, 8193}};
    const size_t k = LENGTH(around), n = LENGTH(triples);
    for (size_t i = 0; i < LENGTH(names); i++)
        names[i] = i % 3 == 0 ? "\xEF\xBF\xBD" : stored[0];
    for (size_t i = 0; i < k; i++)
        names[around[i] - 1] = stored[parts_of[i]];
    /* Each pair in each type, the names falling; then the same again with the names rising. */
    for (size_t i = 0; i < n; i++) {
        const size_t pair = i / 3 % (k * k), name = pair / k;
        triples[i][0] = around[i < n / 2 ? k - 1 - name : name];
        triples[i][1] = (uint32_t)(i % 3);
        triples[i][2] = around[pair % k];
    }
    /* With the last ones declared or not; then the same with sound names alone. */
    for (int sound = 0; sound < 2; sound++) {
        if (sound)
            for (size_t i = 0; i < k; i++)
                names[around[i] - 1] = stored[0];
        for (uint32_t declared = 8194; declared <= 8200; declared += 6) {
            make(names, LENGTH(names), declared, last, 1, (const uint32_t(*)[3])triples, (uint32_t)n);
            KEEP(rows), fresh();
            CHECK(refused(mcos_properties(made, made_len, 1, rows, n - 1, &a, &place), 34, n) && IS_KEPT(rows));
            fresh();
            CHECK(accepted(mcos_properties(made, made_len, 1, rows, n + 1, &a, &place)) && a == n && IS_KEPT(rows[n]));
            for (size_t i = 0; i < n; i++) {
                const size_t pair = i / 3 % (k * k), name = i < n / 2 ? k - 1 - pair / k : pair / k;
                const uint32_t of_name = sound ? 0 : parts_of[name], of_value = sound ? 0 : parts_of[pair % k];
                CHECK(is_row(&rows[i], triples[i], of_name, triples[i][1] == MCOS_FIELD_NAME ? of_value : 0));
            }
            for (size_t i = 0; i < k; i++) {
                const uint32_t parts = sound ? 0 : parts_of[i];
                shows(mcos_name, around[i], shown[parts], parts);
            }
            shows(mcos_object_class_name, 1, sound ? "xy.xy" : "\xEF\xBF\xBD\xEF\xBF\xBD\xEF\xBF\xBD.\xEF\xBF\xBD",
                  sound ? 0 : 4);
        }
    }
}

/* A property is found by the bytes of its name as they are stored. */
static void finding_calls(void)
{
    static const uint32_t object[][2] = {{0, 0}};

    /* Two damaged names that show alike and a genuine U+FFFD; "abc", which others begin with; a name without bytes. Each
     * value that is a name is another one. */
    static const char *const names[] = {"\xFF", "\xFE", "\xEF\xBF\xBD", "abc", "ab", "abcd", "", "a\xFF"};
    static const uint32_t triples[][3] = {{2, 0, 1}, {4, 0, 6}, {1, 1, 3}, {6, 2, 5}, {3, 0, 7}, {8, 1, 0},
                                          {7, 2, 0}, {0, 0, 8}, {5, 0, 4}, {1, 0, 2}, {2, 1, 0}, {3, 2, 0}};
    make(names, LENGTH(names), LENGTH(names), object, 1, triples, LENGTH(triples));
    finds("\xFE", 1, 0);
    finds("\xFF", 1, 2);
    finds("\xEF\xBF\xBD", 3, 4);
    finds("\xFD", 1, NOWHERE);
    finds("\xEF\xBF", 2, NOWHERE);
    finds("a\xFF", 2, 5);
    finds("a\xFE", 2, NOWHERE);
    finds("a\xEF\xBF\xBD", 4, NOWHERE);
    finds("", 0, 6);
    finds("a", 1, NOWHERE);
    finds("ab", 2, 8);
    finds("abc", 3, 1);
    finds("abcd", 4, 3);
    finds("abcde", 5, NOWHERE);
    finds("bc", 2, NOWHERE);
    finds("abd", 3, NOWHERE);
    /* The heap has these very bytes; no name has a zero byte. */
    finds("\0", 1, NOWHERE);
    finds("ab\0", 3, NOWHERE);
    finds("abc\0ab", 6, NOWHERE);
    finds("\xFF\0", 2, NOWHERE);
    finds("\0\xFF", 2, NOWHERE);

    /* Index 0 alone is the empty name, also where no name is declared. */
    static const uint32_t index_0[][3] = {{4, 1, 0}, {0, 1, 0}};
    make(names, LENGTH(names), LENGTH(names), object, 1, index_0, 2);
    finds("", 0, 1);
    make(names, LENGTH(names), 0, object, 1, index_0 + 1, 1);
    finds("", 0, 0);
    finds("abc", 3, NOWHERE);
    /* An object whose block is empty. */
    make(names, LENGTH(names), LENGTH(names), object, 1, NULL, 0);
    finds("", 0, NOWHERE);
    finds("abc", 3, NOWHERE);

    /* Every property is checked: before a match, the match itself, and after it. Name 9 is not declared. */
    static const struct {
        uint32_t bad[3], number;
        uint64_t where;
    } refusals[] = {
        {{9, 1, 0}, 11, 9}, {{UINT32_MAX, 0, 0}, 11, UINT32_MAX}, {{4, 3, 0}, 12, 3}, {{4, 0, 9}, 11, 9}, {{9, 3, 0}, 11, 9},
        {{1, UINT32_MAX, 9}, 12, UINT32_MAX},
    };
    for (size_t i = 0; i < LENGTH(refusals); i++)
        for (int at = 0; at < 3; at++) {
            uint32_t three[][3] = {{4, 1, 0}, {1, 0, 2}, {0, 2, 9}};
            memcpy(three[at], refusals[i].bad, sizeof three[at]);
            make(names, LENGTH(names), LENGTH(names), object, 1, (const uint32_t(*)[3])three, 3);
            finds_refused("abc", 3, refusals[i].number, refusals[i].where);
            finds_refused("\xFF", 1, refusals[i].number, refusals[i].where);
            finds_refused("", 0, refusals[i].number, refusals[i].where);
            finds_refused("none", 4, refusals[i].number, refusals[i].where);
        }

    /* The heap ends with the last name, and the next region goes on with 'x' in place of its zero byte. */
    static const uint32_t last[][3] = {{8, 1, 0}};
    make(names, LENGTH(names), LENGTH(names), object, 1, last, 1);
    made[8]--;
    CHECK(made[made[8] - 1] == 0xFF && made[made[8]] == 0);
    made[made[8]] = 'x';
    finds("a\xFF", 2, 0);
    finds("a\xFFx", 3, NOWHERE);
    finds("a", 1, NOWHERE);
}

/* More names than the library walks at once, 4,096: the wanted one on both sides, and the first position counts. */
static void many_found(void)
{
    static const char *names[8200];
    static const uint32_t object[][2] = {{0, 0}};
    static uint32_t triples[LENGTH(around) + 1][3];
    const size_t k = LENGTH(around);
    for (size_t i = 0; i < LENGTH(names); i++)
        names[i] = i % 2 == 0 ? "\xFE" : "wantee";
    for (size_t i = 0; i < k; i++) {
        /* Alone, last and first among the properties; then not among them. */
        names[around[i] - 1] = i % 2 == 0 ? "wanted" : "\xFF";
        const char *wanted = names[around[i] - 1];
        const size_t n = strlen(wanted);
        for (size_t j = 0; j <= k; j++) {
            triples[j][0] = j == k ? around[i] : 100 + (uint32_t)j * 745;
            triples[j][1] = (uint32_t)(j % 3);
            triples[j][2] = around[i];
        }
        make(names, LENGTH(names), LENGTH(names), object, 1, (const uint32_t(*)[3])triples, (uint32_t)k + 1);
        finds(wanted, n, k);
        finds("\xEF\xBF\xBD", 3, NOWHERE);
        make(names, LENGTH(names), LENGTH(names), object, 1, (const uint32_t(*)[3])triples + k, 1);
        finds(wanted, n, 0);
        make(names, LENGTH(names), LENGTH(names), object, 1, (const uint32_t(*)[3])triples, (uint32_t)k);
        finds(wanted, n, NOWHERE);
        names[around[i] - 1] = "wante";
    }
    /* Equal names on both sides: the smallest position, whatever the index. */
    for (size_t i = 0; i < k; i++)
        names[around[i] - 1] = "wanted";
    for (size_t first = 0; first < k; first++)
        for (size_t second = 0; second < k; second++) {
            const uint32_t order[][3] = {{100, 0, around[first]}, {around[first], 1, 0}, {around[second], 2, 0}};
            make(names, LENGTH(names), LENGTH(names), object, 1, order, 3);
            finds("wanted", 6, 1);
            finds("none", 4, NOWHERE);
        }
    /* Checked after a match in an earlier chunk. */
    const uint32_t bad[][3] = {{1, 1, 0}, {4097, 0, 8201}};
    make(names, LENGTH(names), LENGTH(names), object, 1, bad, 2);
    finds_refused("wanted", 6, 11, 8201);
}

static void listing_calls(void)
{
    mcos_object_row rows[3];
    KEEP(rows), fresh();
    CHECK(refused(mcos_list_objects(blob, 39, rows, 3, &a, &place), 2, 39));
    CHECK(refused(mcos_list_objects(blob, 240, rows, 1, &a, &place), 34, 2));
    CHECK(IS_KEPT(rows));
    fresh();
    CHECK(accepted(mcos_list_objects(blob, 240, rows, 3, &a, &place)) && a == 2);
    for (uint32_t i = 0; i < 2; i++)
        CHECK(rows[i].class_id == 1 && rows[i].region == 0 && rows[i].block_id == i + 1 && rows[i].property_count == 1);
    CHECK(IS_KEPT(rows[2]));
}

static void string_calls(void)
{
    const uint32_t list[] = {0xDD000000, 0, 2, 1};
    uint32_t class_id;
    KEEP(class_id), fresh();
    CHECK(refused(mcos_parse_opaque_metadata(list, 3, &a, &b, &class_id, &place), 21, 3) && IS_KEPT(class_id));
    fresh();
    CHECK(accepted(mcos_parse_opaque_metadata(list, 4, &a, &b, &class_id, &place)));
    CHECK(a == 2 && b == 1 && class_id == 1);

    /* The payloads of "A" and of "B", "": two cells. */
    const uint64_t words[] = {1, 0, 1, 'A', 1, 1, 2, 1, 0, 'B'}, directory[] = {0, 4, 4, 6};
    const uint8_t kinds[] = {0, 0};
    const uint64_t spans_of_b[] = {0, 1, 1, 0};
    uint8_t text[2];
    uint64_t spans[5];

    KEEP(text), KEEP(spans), fresh();
    CHECK(refused(mcos_decode_string_saveobj(words, 1, text, 2, spans, 5, &a, &b, &place), 22, 1));
    CHECK(refused(mcos_decode_string_saveobj(words + 4, 6, text, 0, spans, 0, &a, &b, &place), 34, 1));
    CHECK(refused(mcos_decode_string_saveobj(words + 4, 6, text, 1, spans, 3, &a, &b, &place), 34, 4));
    CHECK(refused(mcos_decode_string(blob, 240, directory, 3, kinds, 2, words, 10, list, 4, text, 2, spans, 5, &a, &b, &place), 13, 3));
    CHECK(refused(mcos_decode_string_object(blob, 240, directory, 4, kinds, 2, words, 9, 2, text, 2, spans, 5, &a, &b, &place), 13, 1));
    CHECK(IS_KEPT(text) && IS_KEPT(spans));

    fresh();
    CHECK(accepted(mcos_decode_string_saveobj(words + 4, 6, text, 1, spans, 4, &a, &b, &place)) && a == 1 && b == 2);
    CHECK(text[0] == 'B' && text[1] == 0xA5 && memcmp(spans, spans_of_b, sizeof spans_of_b) == 0 && spans[4] == KEPT);
    KEEP(text), KEEP(spans), fresh();
    CHECK(accepted(mcos_decode_string(blob, 240, directory, 4, kinds, 2, words, 10, list, 4, text, 2, spans, 5, &a, &b, &place)));
    CHECK(a == 1 && b == 2 && text[0] == 'B' && memcmp(spans, spans_of_b, sizeof spans_of_b) == 0);
    KEEP(text), KEEP(spans), fresh();
    CHECK(accepted(mcos_decode_string_object(blob, 240, directory, 4, kinds, 2, words, 10, 1, text, 2, spans, 5, &a, &b, &place)));
    CHECK(a == 1 && b == 1 && text[0] == 'A' && spans[0] == 0 && spans[1] == 1 && spans[2] == KEPT);
}

/* The length that marks a missing string. */
#define MISSING UINT64_MAX

/* A surrogate is paired within its string (29), which is asked after the number of units (28) and before the room (34). */
static void surrogate_calls(void)
{
    const struct {
        uint64_t payload[8], length;
        uint32_t number;
        uint64_t where;
    } refusals[] = {
        /* A lone surrogate before a shortage, and without one. */
        {{1, 1, 1, 5, 0xD800}, 5, 28, 5},
        {{1, 1, 1, 1, 0xD800}, 5, 29, 0},
        {{1, 0, 5, 0xDEE2DEE2DEE2DEE2}, 4, 28, 5},
        {{1, 0, 4, 0xDEE2DEE2DEE2DEE2}, 4, 29, 0},
        {{1, 1, 2, 1, 5, 0xD800}, 6, 28, 6},
        {{1, 1, 2, 1, 3, 0xD800}, 6, 29, 0},
        {{1, 1, 2, 1, MISSING - 1, 0xD800}, 6, 28, UINT64_MAX},
        {{1, 1, 3, 1, MISSING - 1, 1, 0xD800}, 7, 27, 2},
        {{1, 1, 3, 4, 4, 1, 0xD800D800D800D800, 'A'}, 8, 28, 9},
        {{1, 1, 3, 4, 3, 1, 0xD800D800D800D800, 'A'}, 8, 29, 0},
        /* Missing strings count in the place, and have no units. */
        {{1, 1, 4, MISSING, 1, MISSING, 4, 0xD800}, 8, 28, 5},
        {{1, 1, 4, MISSING, 1, MISSING, 1, 0xD8000041}, 8, 29, 3},
        {{1, 1, 3, MISSING, MISSING, 1, 0xDC00}, 7, 29, 2},
        /* A pair over the border of two strings, and over that of two words as well. */
        {{1, 1, 2, 1, 1, 0xDEE2D83D}, 6, 29, 0},
        {{1, 1, 3, 1, MISSING, 1, 0xDEE2D83D}, 7, 29, 0},
        {{1, 1, 3, 1, 0, 1, 0xDEE2D83D}, 7, 29, 0},
        {{1, 1, 3, 1, 1, 1, 0xDEE2D83D0041}, 7, 29, 1},
        {{1, 1, 2, 4, 1, 0xD83D004100410041, 0xDEE2}, 7, 29, 0},
        /* A spare unit completes no pair. */
        {{1, 1, 1, 1, 0xDEE2D83D}, 5, 29, 0},
    };
    uint8_t text[12];
    uint64_t spans[7];
    KEEP(text), KEEP(spans);
    for (size_t i = 0; i < sizeof refusals / sizeof refusals[0]; i++) {
        const uint64_t *payload = refusals[i].payload, length = refusals[i].length, where = refusals[i].where;
        const uint32_t number = refusals[i].number;
        fresh();
        CHECK(refused(mcos_decode_string_saveobj(payload, length, text, 12, spans, 7, &a, &b, &place), number, where));
        fresh();
        CHECK(refused(mcos_decode_string_saveobj(payload, length, text, 0, spans, 0, &a, &b, &place), number, where));
        CHECK(IS_KEPT(text) && IS_KEPT(spans));
    }

    /* A pair that straddles two words, with a spare surrogate after it. */
    const uint64_t straddles[] = {1, 1, 2, 3, 2, 0xD83D004100410041, 0xD800DEE2}, straddled[] = {0, 3, 3, 4};
    fresh();
    CHECK(refused(mcos_decode_string_saveobj(straddles, 7, text, 6, spans, 4, &a, &b, &place), 34, 7));
    CHECK(refused(mcos_decode_string_saveobj(straddles, 7, text, 7, spans, 3, &a, &b, &place), 34, 4));
    CHECK(refused(mcos_decode_string_saveobj(straddles, 7, text, 0, spans, 0, &a, &b, &place), 34, 7));
    CHECK(IS_KEPT(text) && IS_KEPT(spans));
    fresh();
    CHECK(accepted(mcos_decode_string_saveobj(straddles, 7, text, 7, spans, 4, &a, &b, &place)) && a == 7 && b == 2);
    CHECK(memcmp(text, "AAA\xF0\x9F\x9B\xA2", 7) == 0 && kept(text + 7, 5));
    CHECK(memcmp(spans, straddled, sizeof straddled) == 0 && kept(spans + 4, 24));

    /* A pair right before the border of two strings, and before a missing one. */
    const uint64_t before[] = {1, 1, 2, 4, 1, 0xDEE2D83D00410041, 'B'}, cut_after[] = {0, 6, 6, 1};
    KEEP(text), KEEP(spans), fresh();
    CHECK(accepted(mcos_decode_string_saveobj(before, 7, text, 12, spans, 7, &a, &b, &place)) && a == 7 && b == 2);
    CHECK(memcmp(text, "AA\xF0\x9F\x9B\xA2" "B", 7) == 0 && kept(text + 7, 5));
    CHECK(memcmp(spans, cut_after, sizeof cut_after) == 0 && kept(spans + 4, 24));
    const uint64_t three[] = {1, 1, 3, 2, MISSING, 3, 0x00E90041DEE2D83D, 0x20AC}, spans_of_three[] = {0, 4, 4, 0, 4, 6};
    KEEP(text), KEEP(spans), fresh();
    CHECK(accepted(mcos_decode_string_saveobj(three, 8, text, 10, spans, 6, &a, &b, &place)) && a == 10 && b == 3);
    CHECK(memcmp(text, "\xF0\x9F\x9B\xA2" "A\xC3\xA9\xE2\x82\xAC", 10) == 0 && kept(text + 10, 2));
    CHECK(memcmp(spans, spans_of_three, sizeof spans_of_three) == 0 && spans[6] == KEPT);

    /* Two such payloads in a store: the one that is named first is refused, by its own check. */
    const uint64_t words[] = {1, 1, 1, 1, 0xD800, 1, 1, 1, 5, 0xD800}, directory[] = {0, 5, 5, 5};
    const uint32_t first[] = {0xDD000000, 1, 2, 1, 2, 1}, second[] = {0xDD000000, 1, 2, 2, 1, 1};
    const uint8_t kinds[] = {0, 0};
    KEEP(text), KEEP(spans), fresh();
    CHECK(refused(mcos_decode_string(blob, 240, directory, 4, kinds, 2, words, 10, first, 6, text, 12, spans, 7, &a, &b, &place), 29, 0));
    CHECK(refused(mcos_decode_string(blob, 240, directory, 4, kinds, 2, words, 10, second, 6, text, 12, spans, 7, &a, &b, &place), 28, 5));
    CHECK(refused(mcos_decode_string_object(blob, 240, directory, 4, kinds, 2, words, 10, 1, text, 12, spans, 7, &a, &b, &place), 29, 0));
    CHECK(refused(mcos_decode_string_object(blob, 240, directory, 4, kinds, 2, words, 10, 2, text, 12, spans, 7, &a, &b, &place), 28, 5));
    CHECK(IS_KEPT(text) && IS_KEPT(spans));
}

static mcos_counts counts;
static uint8_t store_blob[288], store_kinds[3];
static uint64_t store_directory[6], store_words[12];

static const uint64_t one[] = {1}, span[] = {0, 1}, span_of_5[] = {0, 5};
static const uint8_t letters[] = {'A', 'B', 'C', 'D', 'E'};

/* Appends one string: the first bytes of the letters, as the values say. */
static uint32_t append(const uint64_t *values, uintptr_t n, uintptr_t words_len)
{
    return mcos_append(&counts, store_blob, sizeof store_blob, store_directory, 6, store_kinds, 3, store_words, words_len,
                       one, 1, letters, 5, values, n, &place);
}

static uint32_t replace(uint64_t id, const uint64_t *values, uintptr_t n, uintptr_t words_len)
{
    return mcos_replace(&counts, store_blob, sizeof store_blob, store_directory, 6, store_kinds, 3, store_words, words_len,
                        id, one, 1, letters, 5, values, n, &place);
}

static int is_counts(uint64_t objects, uint64_t words)
{
    return counts.objects == objects && counts.blob_bytes == 144 + 48 * objects && counts.words == words;
}

/* An edit is refused, and counts and buffers are kept. */
#define REFUSED(edit, number, where)                                                        \
    do {                                                                                    \
        mcos_counts old_counts = counts;                                                    \
        uint8_t old_blob[sizeof store_blob], old_kinds[sizeof store_kinds];                 \
        uint64_t old_directory[6], old_words[12];                                           \
        memcpy(old_blob, store_blob, sizeof store_blob);                                    \
        memcpy(old_kinds, store_kinds, sizeof store_kinds);                                 \
        memcpy(old_directory, store_directory, sizeof store_directory);                     \
        memcpy(old_words, store_words, sizeof store_words);                                 \
        fresh();                                                                            \
        CHECK(refused(edit, number, where));                                                \
        CHECK(memcmp(&old_counts, &counts, sizeof counts) == 0);                            \
        CHECK(memcmp(old_blob, store_blob, sizeof store_blob) == 0);                        \
        CHECK(memcmp(old_kinds, store_kinds, sizeof store_kinds) == 0);                     \
        CHECK(memcmp(old_directory, store_directory, sizeof store_directory) == 0);         \
        CHECK(memcmp(old_words, store_words, sizeof store_words) == 0);                     \
    } while (0)

static void edit_calls(void)
{
    KEEP(store_blob), KEEP(store_directory), KEEP(store_kinds), KEEP(store_words), fresh();
    CHECK(accepted(mcos_build_string_filewrapper_metadata(0, store_blob, sizeof store_blob, &a, &place)) && a == 144);
    counts = (mcos_counts){0, 144, 0};

    /* "A", then "A" again. */
    REFUSED(replace(1, span, 2, 12), 8, 1);
    REFUSED(append(span, 1, 12), 30, 1);
    REFUSED(append(span, 0, 12), 31, 0);
    REFUSED(append(span, 2, 4), 34, 5);
    fresh();
    CHECK(accepted(append(span, 2, 12)) && is_counts(1, 5));
    fresh();
    CHECK(accepted(append(span, 2, 12)) && is_counts(2, 10));
    const uint64_t two[] = {1, 1, 1, 1, 'A', 1, 1, 1, 1, 'A'}, pairs[] = {0, 5, 5, 5};
    CHECK(memcmp(store_words, two, sizeof two) == 0 && kept(store_words + 10, 16));
    CHECK(memcmp(store_directory, pairs, sizeof pairs) == 0 && kept(store_directory + 4, 16));
    CHECK(store_kinds[0] == 0 && store_kinds[1] == 0 && kept(store_kinds + 2, 1));
    CHECK(memcmp(store_blob, blob, 240) == 0 && kept(store_blob + 240, 48));

    /* A longer string in place of the first, and a shorter one again. */
    const uint64_t longer[] = {1, 1, 1, 5, 0x0044004300420041, 'E', 1, 1, 1, 1, 'A'}, moved[] = {0, 6, 6, 5};
    REFUSED(replace(0, span_of_5, 2, 12), 8, 0);
    REFUSED(replace(1, span_of_5, 2, 10), 34, 11);
    fresh();
    CHECK(accepted(replace(1, span_of_5, 2, 11)) && is_counts(2, 11));
    CHECK(memcmp(store_words, longer, sizeof longer) == 0 && kept(store_words + 11, 8));
    CHECK(memcmp(store_directory, moved, sizeof moved) == 0 && kept(store_directory + 4, 16));
    fresh();
    CHECK(accepted(replace(1, span, 2, 12)) && is_counts(2, 10));
    CHECK(memcmp(store_words, two, sizeof two) == 0 && store_words[10] == 0 && kept(store_words + 11, 8));
    CHECK(memcmp(store_directory, pairs, sizeof pairs) == 0);

    uint8_t text[2];
    uint64_t spans[3];
    KEEP(text), KEEP(spans), fresh();
    CHECK(accepted(mcos_decode_string_object(store_blob, counts.blob_bytes, store_directory, 2 * counts.objects, store_kinds,
                                             counts.objects, store_words, counts.words, 2, text, 2, spans, 3, &a, &b, &place)));
    CHECK(a == 1 && b == 1 && text[0] == 'A' && spans[0] == 0 && spans[1] == 1 && spans[2] == KEPT);

    /* Another version, and counts that are not those of the store. */
    store_words[5] = 3;
    REFUSED(append(span, 2, 12), 33, 0);
    REFUSED(replace(9, span, 1, 12), 33, 0);
    counts.words = 9;
    REFUSED(append(span, 2, 12), 13, 1);
    counts.words = 13;
    REFUSED(replace(1, span, 2, 12), 13, 2);
}

/* A file without string objects. There is nothing to read where its blob would begin. */
static void empty_blob_calls(void)
{
    const uint8_t *empty = blob + sizeof blob;
    const mcos_file_wrapper nothing = {0};
    mcos_file_wrapper layout;
    KEEP(layout), fresh();
    CHECK(accepted(mcos_parse(empty, 0, &layout, &place)) && memcmp(&layout, &nothing, sizeof nothing) == 0);
    KEEP(layout);
    for (uint64_t length = 1; length < 40; length++) {
        fresh();
        CHECK(refused(mcos_parse(blob, length, &layout, &place), 2, length) && IS_KEPT(layout));
    }

    uint8_t text[2];
    KEEP(text), fresh();
    CHECK(accepted(mcos_name(empty, 0, 0, text, 0, &a, &b, &place)) && a == 0 && b == 0);
    fresh();
    CHECK(refused(mcos_name(empty, 0, 1, text, 2, &a, &b, &place), 11, 1));
    CHECK(refused(mcos_class_name(empty, 0, 0, text, 2, &a, &b, &place), 9, 0));
    CHECK(refused(mcos_object_class_name(empty, 0, 0, text, 2, &a, &b, &place), 8, 0));
    CHECK(refused(mcos_object_class_name(empty, 0, 1, text, 2, &a, &b, &place), 8, 1));
    CHECK(IS_KEPT(text));

    mcos_property properties[1];
    mcos_object_row rows[1];
    uint32_t found;
    KEEP(properties), KEEP(rows), KEEP(found), fresh();
    CHECK(refused(mcos_properties(empty, 0, 1, properties, 1, &a, &place), 8, 1) && IS_KEPT(properties));
    CHECK(refused(mcos_find_property(empty, 0, UINT32_MAX, text, 0, &found, &a, &place), 8, UINT32_MAX) && IS_KEPT(found));
    fresh();
    CHECK(accepted(mcos_list_objects(empty, 0, rows, 1, &a, &place)) && a == 0 && IS_KEPT(rows));

    mcos_part part;
    KEEP(part), fresh();
    CHECK(refused(mcos_label(empty, 0, letters, 5, 1, &part, &place), 11, 1) && IS_KEPT(part));
    fresh();
    CHECK(accepted(mcos_label(empty, 0, letters, 5, 0, &part, &place)) && is_part(part, MCOS_SOURCE_PLACEHOLDER, 0, 5));

    /* The cells are read by opaque metadata, and by no object. */
    const uint64_t words[] = {1, 0, 1, 'A'}, directory[] = {0, 4};
    const uint32_t first[] = {0xDD000000, 0, 1, 1}, second[] = {0xDD000000, 0, 2, 1};
    const uint8_t kinds[] = {0};
    uint64_t spans[2];
    KEEP(text), KEEP(spans), fresh();
    CHECK(refused(mcos_decode_string(empty, 0, directory, 2, kinds, 1, words, 4, second, 4, text, 2, spans, 2, &a, &b, &place), 14, 2));
    CHECK(refused(mcos_decode_string_object(empty, 0, directory, 2, kinds, 1, words, 4, 1, text, 2, spans, 2, &a, &b, &place), 8, 1));
    CHECK(refused(mcos_decode_string_object(empty, 0, directory, 1, kinds, 1, words, 4, 1, text, 2, spans, 2, &a, &b, &place), 13, 1));
    CHECK(IS_KEPT(text) && IS_KEPT(spans));
    fresh();
    CHECK(accepted(mcos_decode_string(empty, 0, directory, 2, kinds, 1, words, 4, first, 4, text, 2, spans, 2, &a, &b, &place)));
    CHECK(a == 1 && b == 1 && text[0] == 'A' && text[1] == 0xA5 && spans[0] == 0 && spans[1] == 1);

    /* No edit of such a store, though its buffer holds the blob for no objects. */
    KEEP(store_directory), KEEP(store_kinds), KEEP(store_words), fresh();
    CHECK(accepted(mcos_build_string_filewrapper_metadata(0, store_blob, sizeof store_blob, &a, &place)));
    counts = (mcos_counts){0, 0, 0};
    REFUSED(append(span, 2, 12), 33, 0);
    REFUSED(replace(1, span, 2, 12), 33, 0);
}

int main(void)
{
    text_calls();
    latin9_calls();
    writing_calls();
    blob_calls();
    label_calls();
    repaired_calls();
    many_names();
    finding_calls();
    many_found();
    listing_calls();
    string_calls();
    surrogate_calls();
    edit_calls();
    empty_blob_calls();
    printf("%d checks, %d failed\n", checks, failed);
    return failed != 0;
}
