/*
 * example FILE: the name of a rule pack, how many entries each of its lists has, its cost, and whether two names print alike; where
 * they do, what the arbiter should do about it.
 *
 * The whole pack is read first: what it holds is valid, or the refusal says why not. The counts come from section calls, since
 * a section's words start at the tape's first word and a list opens with its count; on the whole pack's tape they would have to
 * be searched for, record by record.
 */
#include "vob.h"

#include <inttypes.h>
#include <stdio.h>
#include <stdlib.h>

typedef vob_answer section_call(const uint8_t *, size_t, uint64_t, uint64_t, uint32_t *, size_t);

/* The sections up to the inline sources, in file order; those without a label are no lists. */
static const struct {
    const char *label;
    section_call *call;
} sections[] = {
    {NULL, vob_name},
    {"structs", vob_structs},
    {"interfaces", vob_interfaces},
    {"named types", vob_named_types},
    {"itabs", vob_itabs},
    {"runtime types", vob_runtime_types},
    {NULL, vob_well_known},
    {"constants", vob_constants},
    {"globals", vob_globals},
    {"functions", vob_functions},
    {"externs", vob_externs},
    {NULL, vob_entry},
    {NULL, vob_island_init},
    {"artifacts", vob_artifacts},
    {"files", vob_files},
    {"function locations", vob_function_locations},
};

static int refused(vob_answer a)
{
    fprintf(stderr, "refused %" PRIu64 ": context %" PRIu64 ", details %" PRIu64 " %" PRIu64 ", at byte %" PRIu64 ", budget left %" PRIu64 "\n",
            a.number, a.value1, a.value2, a.value3, a.value4, a.value5);
    return 1;
}

static void count(const char *label, uint32_t n)
{
    printf("%-20s %" PRIu32 "\n", label, n);
}

static void name(const uint8_t *pack, uint64_t start, uint64_t length)
{
    fwrite(pack + start, 1, length, stdout);
}

static int print_alike(const uint8_t *pack, size_t length)
{
    const vob_answer a = vob_alike_names(pack, length);
    if (a.number != VOB_TAKEN)
        return refused(a);
    printf("%-20s ", "print alike");
    if (!a.value1) {
        puts("none");
        return 0;
    }
    name(pack, a.value2, a.value3);
    fputs(" and ", stdout);
    name(pack, a.value4, a.value5);
    printf("\n%-20s the %" PRIu64 " bytes from byte %" PRIu64 " on and the %" PRIu64 " bytes from byte %" PRIu64
           " on are names that print alike: they may be one field or method, sent in two forms; ask the pack's author to send one"
           " form, and do not pair by this pack before that is settled\n",
           "advice", a.value3, a.value2, a.value5, a.value4);
    return 0;
}

static int print(const uint8_t *pack, size_t length, uint32_t *tape)
{
    const vob_answer whole = vob_read(pack, length, VOB_STARTING_BUDGET, tape, length);
    if (whole.number != VOB_TAKEN)
        return refused(whole);
    /* The tape opens with the name: start and length. */
    printf("%-20s ", "name");
    name(pack, tape[0], tape[1]);
    putchar('\n');

    uint64_t place = VOB_FIRST_SECTION;
    uint64_t left = VOB_STARTING_BUDGET;
    uint64_t functions = 0;
    for (size_t i = 0; i < sizeof sections / sizeof *sections; i++) {
        const vob_answer a = sections[i].call(pack, length, place, left, tape, length);
        if (a.number != VOB_TAKEN)
            return refused(a);
        if (sections[i].label)
            count(sections[i].label, tape[0]);
        if (sections[i].call == vob_functions)
            functions = tape[0];
        place += a.value2;
        left = a.value4;
    }
    const vob_answer last = vob_inline_sources(pack, length, place, left, functions, tape, length);
    if (last.number != VOB_TAKEN)
        return refused(last);
    count("inline frames", tape[0]);
    printf("%-20s %" PRIu64 "\n", "cost", whole.value3);
    return print_alike(pack, length);
}

int main(int argc, char **argv)
{
    if (argc != 2) {
        fprintf(stderr, "usage: example FILE\n");
        return 2;
    }
    FILE *file = fopen(argv[1], "rb");
    /* One byte more than the longest pack, so that a longer file is refused and not cut; the tape has a word for each byte. */
    const size_t room = VOB_MAX_PACK_BYTES + 1;
    uint8_t *pack = malloc(room);
    const size_t length = file && pack ? fread(pack, 1, room, file) : 0;
    uint32_t *tape = malloc((length + 1) * sizeof *tape);
    int status = 2;
    if (!file || ferror(file))
        perror(argv[1]);
    else if (!pack || !tape)
        fprintf(stderr, "example: no memory\n");
    else
        status = print(pack, length, tape);
    free(tape);
    free(pack);
    if (file)
        fclose(file);
    return status;
}
