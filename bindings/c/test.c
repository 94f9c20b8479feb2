/* The calls of vob.h from C: document 01's worked examples, its limits of budget and tape, sections, lookup, names that print
 * alike, and sizes. */
#include "vob.h"

#include <inttypes.h>
#include <stdio.h>
#include <string.h>

enum { ROOM = 256, TAPE = 64, BARE = 112, UNWRITTEN = 0x5eed5eed };

static int failures;

static void expect(int line, const char *call, vob_answer got, vob_answer want)
{
    if (memcmp(&got, &want, sizeof got) == 0)
        return;
    failures++;
    printf("test.c:%d: %s: got %" PRIu64 " %" PRIu64 " %" PRIu64 " %" PRIu64 " %" PRIu64 " %" PRIu64 ", want %" PRIu64 " %" PRIu64
           " %" PRIu64 " %" PRIu64 " %" PRIu64 " %" PRIu64 "\n",
           line, call, got.number, got.value1, got.value2, got.value3, got.value4, got.value5, want.number, want.value1,
           want.value2, want.value3, want.value4, want.value5);
}

static void expect_number(int line, const char *what, uint64_t got, uint64_t want)
{
    if (got == want)
        return;
    failures++;
    printf("test.c:%d: %s: got %" PRIu64 ", want %" PRIu64 "\n", line, what, got, want);
}

#define EXPECT(call, ...) expect(__LINE__, #call, call, (vob_answer){__VA_ARGS__})
#define EXPECT_NUMBER(what, want) expect_number(__LINE__, #what, what, want)

static uint32_t tape[TAPE];

static void clear_tape(void)
{
    for (size_t i = 0; i < TAPE; i++)
        tape[i] = UNWRITTEN;
}

/* How many words from `from` on are as clear_tape left them. */
static size_t unwritten(size_t from)
{
    size_t n = 0;
    for (size_t i = from; i < TAPE; i++)
        n += tape[i] == UNWRITTEN;
    return n;
}

/* A pack in the making: what is put goes to its end. */
struct pack {
    uint8_t bytes[ROOM];
    size_t length;
};

static void put(struct pack *p, const void *bytes, size_t n)
{
    memcpy(p->bytes + p->length, bytes, n);
    p->length += n;
}

static void put_word(struct pack *p, uint32_t n)
{
    const uint8_t bytes[4] = {(uint8_t)n, (uint8_t)(n >> 8), (uint8_t)(n >> 16), (uint8_t)(n >> 24)};
    put(p, bytes, 4);
}

static void put_text(struct pack *p, const char *text)
{
    put_word(p, (uint32_t)strlen(text));
    put(p, text, strlen(text));
}

static void put_zeros(struct pack *p, size_t n)
{
    memset(p->bytes + p->length, 0, n);
    p->length += n;
}

static struct pack named(const char *name)
{
    struct pack p = {.length = 0};
    put(&p, "VOB\x18\0\0\0", 7);
    put_text(&p, name);
    put_zeros(&p, 101);
    return p;
}

/* A bare pack with three artifacts, two of them of one name; the artifacts stand at byte 92. */
static struct pack with_artifacts(void)
{
    struct pack p = {.length = 0};
    put(&p, "VOB\x18\0\0\0", 7);
    put_zeros(&p, 85);
    put_word(&p, 3);
    put_text(&p, "ties");
    put_word(&p, 1);
    put_text(&p, "first");
    put_text(&p, "ties");
    put_word(&p, 2);
    put_text(&p, "second");
    put_text(&p, "accents");
    put_word(&p, 1);
    put_text(&p, "");
    put_zeros(&p, 16);
    return p;
}

static void whole_packs(void)
{
    const uint64_t all = VOB_STARTING_BUDGET;
    const struct pack bare = named("");
    EXPECT_NUMBER(bare.length, BARE);
    clear_tape();
    EXPECT(vob_read(bare.bytes, BARE, all, tape, TAPE), VOB_TAKEN, 37, 112, 0, all, 0);
    EXPECT_NUMBER(tape[0], 11);
    EXPECT_NUMBER(tape[1], 0);
    EXPECT_NUMBER(unwritten(37), TAPE - 37);
    EXPECT(vob_read(bare.bytes, BARE, 0, tape, 37), VOB_TAKEN, 37, 112, 0, 0, 0);

    clear_tape();
    EXPECT(vob_read(bare.bytes, 0, all, tape, TAPE), VOB_UNEXPECTED_EOF, 0, 0, 0, 0, all);
    EXPECT(vob_read(bare.bytes, BARE - 1, all, tape, TAPE), VOB_UNEXPECTED_EOF, 0, 0, 0, 108, all);
    EXPECT(vob_read(bare.bytes, BARE, all, tape, 36), VOB_NO_ROOM, 0, 37, 36, 112, all);
    EXPECT(vob_read(bare.bytes, BARE, all, tape, 0), VOB_NO_ROOM, 0, 37, 0, 112, all);
    EXPECT(vob_read(vob_bytes(NULL), 0, all, vob_words(NULL), 0), VOB_UNEXPECTED_EOF, 0, 0, 0, 0, all);
    EXPECT(vob_read(vob_bytes(bare.bytes), BARE, all, vob_words(NULL), 0), VOB_NO_ROOM, 0, 37, 0, 112, all);
    EXPECT(vob_read((const uint8_t *)"VOC", 3, all, tape, TAPE), VOB_INVALID_MAGIC, 0, 0, 0, 3, all);
    EXPECT(vob_read((const uint8_t *)"VOB\x19\0\0\0", 7, all, tape, TAPE), VOB_UNSUPPORTED_VERSION, 0, 25, 0, 7, all);
    const struct pack overlong = named("\xc0\x80");
    EXPECT(vob_read(overlong.bytes, overlong.length, all, tape, TAPE), VOB_INVALID_UTF8, 0, 0, 0, 13, all - 2);
    struct pack longer = bare;
    put_zeros(&longer, 2);
    EXPECT(vob_read(longer.bytes, longer.length, all, tape, TAPE), VOB_TRAILING_BYTES, 0, 2, 0, 112, all);
    struct pack host = bare;
    host.bytes[80] = 1;
    EXPECT(vob_read(host.bytes, host.length, all, tape, TAPE), VOB_HOST_CALLS, 0, 1, 0, 84, all - 144);
    /* A count above the bytes left, and one whose charge can't be paid, are not yet host calls. */
    EXPECT(vob_read(host.bytes, 84, all, tape, TAPE), VOB_UNEXPECTED_EOF, 0, 0, 0, 84, all);
    EXPECT(vob_read(host.bytes, 85, 144, tape, TAPE), VOB_HOST_CALLS, 0, 1, 0, 84, 0);
    EXPECT(vob_read(host.bytes, host.length, 143, tape, TAPE), VOB_ALLOCATION_BUDGET_EXCEEDED, VOB_VECTOR, 144, 143, 84, 143);
    EXPECT(vob_externs(host.bytes, host.length, 80, 150, tape, TAPE), VOB_HOST_CALLS, 0, 1, 0, 84, 6);
    EXPECT(vob_externs(host.bytes, 84, 80, 0, tape, TAPE), VOB_UNEXPECTED_EOF, 0, 0, 0, 84, 0);
    EXPECT_NUMBER(unwritten(0), TAPE);
}

static void budgets(void)
{
    const struct pack a = named("A");
    clear_tape();
    EXPECT(vob_read(a.bytes, a.length, 0, tape, TAPE), VOB_ALLOCATION_BUDGET_EXCEEDED, VOB_BYTE_STRING, 1, 0, 12, 0);
    EXPECT_NUMBER(unwritten(0), TAPE);
    EXPECT(vob_read(a.bytes, a.length, 1, tape, TAPE), VOB_TAKEN, 37, 113, 1, 0, 0);
    EXPECT_NUMBER(tape[0], 11);
    EXPECT_NUMBER(tape[1], 1);
    EXPECT(vob_read(a.bytes, a.length, UINT64_MAX, tape, TAPE), VOB_TAKEN, 37, 113, 1, UINT64_MAX - 1, 0);
}

static void lookups(void)
{
    const struct pack p = with_artifacts();
    const uint8_t *const ties = (const uint8_t *)"ties";
    EXPECT(vob_find_artifact(p.bytes, p.length, ties, 4), VOB_TAKEN, 112, 5, 0, 0, 0);
    EXPECT_NUMBER(memcmp(p.bytes + 112, "first", 5), 0);
    EXPECT(vob_find_artifact(p.bytes, p.length, (const uint8_t *)"accents", 7), VOB_TAKEN, 158, 0, 0, 0, 0);
    /* 3 artifacts of 56 bytes, names and payloads of 26. */
    EXPECT(vob_find_artifact(p.bytes, p.length, ties, 3), VOB_NO_SUCH_ARTIFACT, 0, 0, 0, p.length, VOB_STARTING_BUDGET - 194);
    EXPECT(vob_find_artifact(p.bytes, p.length, ties, 0), VOB_NO_SUCH_ARTIFACT, 0, 0, 0, p.length, VOB_STARTING_BUDGET - 194);
    EXPECT(vob_find_artifact(p.bytes, 2, ties, 4), VOB_UNEXPECTED_EOF, 0, 0, 0, 0, VOB_STARTING_BUDGET);
}

/* A bare pack with a struct of three fields; the first name starts at byte 27, each other 14 bytes after the end of
 * the one before it. */
static struct pack with_fields(const char *first, const char *second, const char *third)
{
    const char *const names[] = {first, second, third};
    struct pack p = {.length = 0};
    put(&p, "VOB\x18\0\0\0", 7);
    put_zeros(&p, 4);
    put_word(&p, 1);
    put_zeros(&p, 4);
    put_word(&p, 3);
    for (size_t i = 0; i < 3; i++) {
        put_text(&p, names[i]);
        put_zeros(&p, 10);
    }
    put_zeros(&p, 97);
    return p;
}

static void alike(void)
{
    const uint64_t all = VOB_STARTING_BUDGET;
    struct pack p = with_fields("\xc3\xa9", "e", "e\xcc\x81");
    EXPECT(vob_alike_names(p.bytes, p.length), VOB_TAKEN, 1, 27, 2, 58, 3);
    EXPECT(vob_alike_names(p.bytes, p.length - 1), VOB_UNEXPECTED_EOF, 0, 0, 0, p.length - 4, all - 396);
    /* Reading goes on comparing bytes. */
    EXPECT(vob_read(p.bytes, p.length, all, vob_words(NULL), 0), VOB_NO_ROOM, 0, 60, 0, p.length, all - 396);
    p = with_fields("e\xcc\x81", "e\xcc\x81", "\xc3\xa9");
    EXPECT(vob_alike_names(p.bytes, p.length), VOB_DUPLICATE_STRUCT_FIELD, 0, 44, 3, 73, all - 398);
    /* Marks keep their order, and a letter outside the range stays. */
    p = with_fields("\xc3\xaa\xcc\xa3", "\xe1\xbb\x87", "e\xcc\xa3\xcc\x82");
    EXPECT(vob_alike_names(p.bytes, p.length), VOB_TAKEN, 0, 0, 0, 0, 0);
    p = with_fields("\xc3\xaa\xcc\xa3", "\xe1\xbb\x87", "e\xcc\x82\xcc\xa3");
    EXPECT(vob_alike_names(p.bytes, p.length), VOB_TAKEN, 1, 27, 4, 62, 5);
    p = named("\xc3\xa9");
    EXPECT(vob_alike_names(p.bytes, p.length), VOB_TAKEN, 0, 0, 0, 0, 0);
    EXPECT(vob_alike_names(vob_bytes(NULL), 0), VOB_UNEXPECTED_EOF, 0, 0, 0, 0, all);
    EXPECT(vob_alike_names((const uint8_t *)"VOC", 3), VOB_INVALID_MAGIC, 0, 0, 0, 3, all);
}

static void section_calls(void)
{
    const struct pack a = named("A");
    const struct pack p = with_artifacts();
    clear_tape();
    EXPECT(vob_name(a.bytes, a.length, 7, 5, tape, TAPE), VOB_TAKEN, 2, 5, 1, 4, 0);
    EXPECT_NUMBER(tape[0], 11);
    EXPECT_NUMBER(tape[1], 1);
    EXPECT_NUMBER(unwritten(2), TAPE - 2);
    clear_tape();
    EXPECT(vob_name(a.bytes, a.length, 7, 0, tape, TAPE), VOB_ALLOCATION_BUDGET_EXCEEDED, VOB_BYTE_STRING, 1, 0, 12, 0);
    EXPECT(vob_name(a.bytes, a.length, 7, 5, tape, 1), VOB_NO_ROOM, 0, 2, 1, 12, 4);
    EXPECT(vob_name(a.bytes, a.length, a.length + 1, 5, tape, TAPE), VOB_UNEXPECTED_EOF, 0, 0, 0, a.length + 1, 5);
    EXPECT(vob_name(a.bytes, a.length, UINT64_MAX, 5, tape, TAPE), VOB_UNEXPECTED_EOF, 0, 0, 0, UINT64_MAX, 5);
    EXPECT_NUMBER(unwritten(0), TAPE);

    /* Words and bytes of each section of a bare pack, from its place on. */
    EXPECT(vob_structs(p.bytes, p.length, 11, 9, tape, TAPE), VOB_TAKEN, 1, 4, 0, 9, 0);
    EXPECT(vob_interfaces(p.bytes, p.length, 15, 9, tape, TAPE), VOB_TAKEN, 1, 4, 0, 9, 0);
    EXPECT(vob_named_types(p.bytes, p.length, 19, 9, tape, TAPE), VOB_TAKEN, 1, 4, 0, 9, 0);
    EXPECT(vob_itabs(p.bytes, p.length, 23, 9, tape, TAPE), VOB_TAKEN, 1, 4, 0, 9, 0);
    EXPECT(vob_runtime_types(p.bytes, p.length, 27, 9, tape, TAPE), VOB_TAKEN, 1, 4, 0, 9, 0);
    EXPECT(vob_well_known(p.bytes, p.length, 31, 9, tape, TAPE), VOB_TAKEN, 19, 37, 0, 9, 0);
    EXPECT(vob_constants(p.bytes, p.length, 68, 9, tape, TAPE), VOB_TAKEN, 1, 4, 0, 9, 0);
    EXPECT(vob_globals(p.bytes, p.length, 72, 9, tape, TAPE), VOB_TAKEN, 1, 4, 0, 9, 0);
    EXPECT(vob_functions(p.bytes, p.length, 76, 9, tape, TAPE), VOB_TAKEN, 1, 4, 0, 9, 0);
    EXPECT(vob_externs(p.bytes, p.length, 80, 9, tape, TAPE), VOB_TAKEN, 1, 4, 0, 9, 0);
    EXPECT(vob_entry(p.bytes, p.length, 84, 9, tape, TAPE), VOB_TAKEN, 1, 4, 0, 9, 0);
    EXPECT(vob_island_init(p.bytes, p.length, 88, 9, tape, TAPE), VOB_TAKEN, 1, 4, 0, 9, 0);
    EXPECT(vob_artifacts(p.bytes, p.length, 92, 200, tape, TAPE), VOB_TAKEN, 16, p.length - 108, 194, 6, 0);
    EXPECT_NUMBER(tape[0], 3);
    EXPECT(vob_files(p.bytes, p.length, p.length - 16, 9, tape, TAPE), VOB_TAKEN, 1, 4, 0, 9, 0);
    EXPECT(vob_function_locations(p.bytes, p.length, p.length - 12, 9, tape, TAPE), VOB_TAKEN, 1, 4, 0, 9, 0);
    EXPECT(vob_inline_sources(p.bytes, p.length, p.length - 8, 9, 0, tape, TAPE), VOB_TAKEN, 2, 8, 0, 9, 0);

    /* One function with inline sources, in a pack of no functions and of one. */
    struct pack q = {.length = 0};
    put_word(&q, 0);
    put_word(&q, 1);
    put_zeros(&q, 8);
    EXPECT(vob_inline_sources(q.bytes, q.length, 0, 32, 0, tape, TAPE), VOB_DEBUG_METADATA_LIMIT_EXCEEDED, VOB_INLINE_FUNCTIONS, 1, 0, 8, 32);
    EXPECT(vob_inline_sources(q.bytes, q.length, 0, 32, 1, tape, TAPE), VOB_TAKEN, 4, 16, 32, 0, 0);
}

static void sizes(void)
{
    EXPECT_NUMBER(vob_charge_size(0), 0);
    EXPECT_NUMBER(vob_charge_size(1), 96);
    EXPECT_NUMBER(vob_charge_size(21), 240);
    EXPECT_NUMBER(vob_charge_size(32), 8);
    EXPECT_NUMBER(vob_charge_size(33), 144);
    EXPECT_NUMBER(vob_charge_size(34), 0);
    EXPECT_NUMBER(vob_charge_size(UINT64_MAX), 0);
}

int main(void)
{
    whole_packs();
    budgets();
    lookups();
    alike();
    section_calls();
    sizes();
    printf("test.c: %s\n", failures ? "failed" : "ok");
    return failures != 0;
}
