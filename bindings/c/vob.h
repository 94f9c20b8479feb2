/*
 * vob.h: the proved reader of VOB 24 rule packs, for C and C++.
 *
 * `rt lib` in crates/exports proves the library and writes crates/exports/out/libexports.a; link that archive (x86-64 Linux).
 * bindings/c/example.c is a whole program, and ./bindings/run builds it.
 *
 * Every call ends, for every input, and answers as crates/vob24/specs/Calls.antt defines, vob_alike_names as
 * crates/alike/specs/Alike.antt. None keeps a pointer, allocates or touches a global, so that calls may run at the same time.
 * What the calls ask of a caller is what C asks of any:
 *
 *   - a pointer and its length are memory that is there; the pointer is not null, also where the length is 0 (a caller whose
 *     empty buffer is null passes vob_bytes(p) or vob_words(p));
 *   - the tape is aligned for uint32_t and shares no byte with the pack or a name;
 *   - the thread has 192 KB of stack left: no call needs more, whatever the pack (measured, and not proved).
 *
 * A refusal changes no lent memory. Where the answer is taken, the tape's counted words change and no others.
 */
#ifndef VOB_H
#define VOB_H

#include <stddef.h>
#include <stdint.h>

#ifdef __cplusplus
extern "C" {
#endif

/*
 * An answer. `number` is VOB_TAKEN or one of the 27 refusals below, which says what the values are:
 *
 *              value1     value2       value3    value4   value5
 *   taken      words      bytes taken  charged   left     0
 *   found      start      length       0         0        0        (vob_find_artifact)
 *   alike      1          start        length    start    length   (vob_alike_names: the earlier name, then the later)
 *   none       0          0            0         0        0        (vob_alike_names)
 *   refused    context    detail 1     detail 2  place    left
 *
 * words: how many words of the tape were written. charged and left: the cost of what was read, and the budget less it.
 * place: the offset in the pack after the last byte taken. left: the budget after the last charge that went through.
 */
typedef struct vob_answer {
    uint64_t number;
    uint64_t value1;
    uint64_t value2;
    uint64_t value3;
    uint64_t value4;
    uint64_t value5;
} vob_answer;

/* The refusals, with context (c) and details (d1, d2). Those that are not named are 0. */
enum {
    VOB_TAKEN = 0,
    VOB_INPUT_TOO_LARGE = 1,                /* d1 length, d2 maximum */
    VOB_UNEXPECTED_EOF = 2,
    VOB_INVALID_MAGIC = 3,
    VOB_UNSUPPORTED_VERSION = 4,            /* d1 version */
    VOB_ALLOCATION_BUDGET_EXCEEDED = 5,     /* c what for, d1 asked, d2 left */
    VOB_INVALID_UTF8 = 6,
    VOB_INVALID_BOOLEAN = 7,                /* d1 byte */
    VOB_INVALID_SLOT_TYPE = 8,              /* d1 byte */
    VOB_INVALID_VALUE_KIND = 9,             /* d1 byte */
    VOB_INVALID_PACKED_VALUE_META = 10,     /* d1 word */
    VOB_INVALID_PACKED_VALUE_RTTID = 11,    /* d1 word */
    VOB_INVALID_CHAN_DIR = 12,              /* d1 byte */
    VOB_INVALID_RUNTIME_TYPE = 13,          /* d1 tag */
    VOB_INVALID_CONSTANT = 14,
    VOB_INVALID_INSTRUCTION_METADATA = 15,
    VOB_DUPLICATE_STRUCT_FIELD = 16,        /* d1, d2 start and length of the repeat */
    VOB_DUPLICATE_INTERFACE_METHOD = 17,    /* d1, d2 start and length of the repeat */
    VOB_DUPLICATE_NAMED_METHOD = 18,        /* d1, d2 start and length of the repeat */
    VOB_DUPLICATE_RUNTIME_STRUCT_FIELD = 19, /* c start of the package, d1, d2 start and length of the repeat */
    VOB_INVALID_FUNCTION_METADATA = 20,     /* c 1 capture meta, 2 capture rttid, 3 parameter meta, 4 parameter rttid: d1 index,
                                               d2 word; c 5: d1 slot types, d2 local slots */
    VOB_INVALID_SOURCE_INTEGER = 21,
    VOB_MODULE_ARTIFACT_LIMIT_EXCEEDED = 22, /* c what, d1 length, d2 maximum */
    VOB_DEBUG_METADATA_LIMIT_EXCEEDED = 23, /* c what, d1 length, d2 maximum */
    VOB_TRAILING_BYTES = 24,                /* d1 bytes left */
    VOB_HOST_CALLS = 25,                    /* d1 externs; left is after their charge. A count above the bytes left is 2, one
                                               whose charge can't be paid 5 */
    VOB_NO_ROOM = 26,                       /* d1 words needed, d2 words lent */
    VOB_NO_SUCH_ARTIFACT = 27
};

/* The contexts of 5, 22 and 23: what a charge or a limit is for. */
enum {
    VOB_BYTE_STRING = 1,
    VOB_VECTOR = 2,
    VOB_STRUCT_FIELD_INDEX = 3,
    VOB_STRUCT_FIELD_KEY = 4,
    VOB_INTERFACE_METHOD_SET = 5,
    VOB_NAMED_METHOD_MAP = 6,
    VOB_RUNTIME_STRUCT_FIELD_SET = 7,
    VOB_MODULE_ARTIFACTS = 8,
    VOB_ARTIFACT_NAME = 9,
    VOB_ARTIFACT_PAYLOAD = 10,
    VOB_ARTIFACT_COUNT = 11,
    VOB_INLINE_FRAMES = 12,
    VOB_INLINE_FUNCTIONS = 13,
    VOB_INLINE_ENTRIES = 14
};

/* The Rust reader's own starting budget, under which vob_find_artifact and vob_alike_names read. */
#define VOB_STARTING_BUDGET UINT64_C(536870912)

/* The longest pack, in bytes. */
#define VOB_MAX_PACK_BYTES UINT64_C(134217728)

/* Where the first section, the name, starts: after magic and version. */
#define VOB_FIRST_SECTION UINT64_C(7)

/* The pointer, or where it is null another that may be passed with length 0. */
static inline const uint8_t *vob_bytes(const uint8_t *bytes)
{
    static const uint8_t none = 0;
    return bytes ? bytes : &none;
}

static inline uint32_t *vob_words(uint32_t *tape)
{
    static uint32_t none = 0;
    return tape ? tape : &none;
}

/*
 * Reads a whole pack under a budget in bytes, and writes its fields in file order to the tape: a number or bool is one
 * word, a 64-bit number low word then high, a text or payload start and length, a list its count then its items.
 *
 * A tape of as many words as the pack has bytes is always enough. With a shorter one, VOB_NO_ROOM tells how many words
 * are needed, so that a call with a tape of length 0 counts them.
 */
vob_answer vob_read(const uint8_t *pack, size_t pack_length, uint64_t budget, uint32_t *tape, size_t tape_length);

/*
 * Looks up the first artifact with exactly these name bytes: start and length of its payload in the pack, or the refusal.
 * Reads the whole pack under VOB_STARTING_BUDGET.
 */
vob_answer vob_find_artifact(const uint8_t *pack, size_t pack_length, const uint8_t *name, size_t name_length);

/*
 * Finds two names of one table that are the same letters, composed in one and decomposed in the other: start and length of
 * both in the pack, or that there are none, or the refusal. Reads the whole pack under VOB_STARTING_BUDGET.
 *
 * Names are compared with each letter from U+00C0 to U+017F replaced by its canonical decomposition, where it has one; all other
 * characters stay, and marks keep their order. A table is the fields of a struct other than "_", the method names of an interface,
 * its methods, the methods of a named type, or those of a runtime interface. Of several pairs the answer is the one whose later
 * name ends earliest in the pack, with the earlier name nearest to it. The two names never have the same bytes: a pack with such
 * a table is refused.
 */
vob_answer vob_alike_names(const uint8_t *pack, size_t pack_length);

/*
 * Each reads one section alone, from its place in the pack and under its own budget, and writes its words from the tape's
 * first word on. Bytes taken count from the place. Read in this order from VOB_FIRST_SECTION on, each from where the last
 * one left place and budget, they give the words of the whole pack.
 */
#define VOB_SECTION(call) \
    vob_answer call(const uint8_t *pack, size_t pack_length, uint64_t place, uint64_t budget, uint32_t *tape, size_t tape_length)

VOB_SECTION(vob_name);
VOB_SECTION(vob_structs);
VOB_SECTION(vob_interfaces);
VOB_SECTION(vob_named_types);
VOB_SECTION(vob_itabs);
VOB_SECTION(vob_runtime_types);
VOB_SECTION(vob_well_known);
VOB_SECTION(vob_constants);
VOB_SECTION(vob_globals);
VOB_SECTION(vob_functions);
VOB_SECTION(vob_externs);
VOB_SECTION(vob_entry);
VOB_SECTION(vob_island_init);
VOB_SECTION(vob_artifacts);
VOB_SECTION(vob_files);
VOB_SECTION(vob_function_locations);

#undef VOB_SECTION

/* The number of functions, the first word of vob_functions' tape, bounds the list of functions with inline sources. */
vob_answer vob_inline_sources(const uint8_t *pack, size_t pack_length, uint64_t place, uint64_t budget, uint64_t functions,
                              uint32_t *tape, size_t tape_length);

/* The size in bytes that an entry is charged, by its number in the table of sizes, 1 to 33; 0 for any other number. */
uint64_t vob_charge_size(uint64_t index);

#ifdef __cplusplus
}
#endif

#endif
