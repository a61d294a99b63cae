/* A host that makes programs by chance in stores of every small size, runs them in parts, damages any word of any store or of the record, in pauses too,
 * and calls every entry again: a refusal changes nothing, a number is one that the entry may answer, a run ends within its units and is then gone from the
 * record, what it leaves can be run on, and nothing outside the stores that were lent is written. damage [ROUNDS [SEED]]; it says how often each number
 * came, and stops at the first that is wrong. */
#include <stdio.h>
#include <stdlib.h>
#include <string.h>
#include "chaffwheel_stores.h"

enum { PLACES = 40, GUARD = 0xA5 };

static uint64_t state = 88172645463325252u;

static uint64_t any(void)
{
    state ^= state << 13;
    state ^= state >> 7;
    state ^= state << 17;
    return state;
}

static size_t below(size_t n)
{
    return n == 0 ? 0 : (size_t)(any() % n);
}

/* Every store stands between guards, in one block of memory that is compared as a whole. */
static unsigned char block[65536], before[65536];
static size_t used;

static void *store(size_t bytes)
{
    unsigned char *at = block + used + 64;
    used += 64 + (bytes + 15) / 16 * 16;
    return at;
}

static struct chaffwheel_stores m;
static uint8_t out[512];

#define MAKE(name, most) (m.name##_len = below((most) + 1), m.name = store(m.name##_len * sizeof *m.name), memset(m.name, 0, m.name##_len * sizeof *m.name))

static void lend(void)
{
    used = 0;
    memset(block, GUARD, sizeof block);
    memset(&m, 0, sizeof m);
    MAKE(constants, 2 * PLACES);
    MAKE(structs, 2 * PLACES);
    MAKE(functions, 2 * PLACES);
    MAKE(text, 4 * PLACES);
    MAKE(main_code, 4 * PLACES);
    MAKE(main_places, 4 * PLACES);
    MAKE(other_code, 4 * PLACES);
    MAKE(other_places, 4 * PLACES);
    MAKE(stack, 2 * PLACES);
    MAKE(cells, 2 * PLACES);
    MAKE(frames, 6);
    MAKE(copy, 3 * PLACES);
    MAKE(trace, 24);
}

static unsigned long seen[256], calls;
static uint32_t told;

static void stop(const char *what, const char *entry, uint32_t n)
{
    printf("WRONG: %s, in %s, which answered %u, call %lu\n", what, entry, (unsigned)n, calls);
    exit(1);
}

/* Whether all that lies outside the lent stores is as it was made. */
static void guarded(const char *entry, uint32_t n)
{
    const struct { const void *at; size_t bytes; } lent[] = {
#define LENT(name) { m.name, m.name##_len * sizeof *m.name }
        LENT(constants), LENT(structs), LENT(functions), LENT(text), LENT(main_code), LENT(main_places), LENT(other_code), LENT(other_places),
        LENT(stack), LENT(cells), LENT(frames), LENT(copy), LENT(trace),
    };
    size_t at = 0, i, j;
    for (i = 0; i < sizeof lent / sizeof *lent; i++) {
        size_t from = (size_t)((const unsigned char *)lent[i].at - block);
        for (j = at; j < from; j++)
            if (block[j] != GUARD) stop("something was written outside the stores", entry, n);
        at = from + lent[i].bytes;
    }
    for (j = at; j < sizeof block; j++)
        if (block[j] != GUARD) stop("something was written outside the stores", entry, n);
}

/* One call: its number is among those allowed, and a refusal has changed nothing. */
#define CALL(allowed, entry, call) \
    do { \
        uint64_t record[CHAFFWHEEL_VM]; \
        memcpy(before, block, sizeof block); \
        memcpy(record, m.vm, sizeof record); \
        memset(m.answer, 0, sizeof m.answer); \
        told = (call); \
        calls++; \
        seen[told & 255]++; \
        if (told != 0 && !strstr(allowed, numbered(told))) stop("a number that it may not answer", entry, told); \
        if (told != 0 && (memcmp(before, block, sizeof block) || memcmp(record, m.vm, sizeof record))) stop("a refusal changed something", entry, told); \
        guarded(entry, told); \
    } while (0)

/* One call that is refused by this number. */
#define REFUSED(number, entry, call) \
    do { \
        CALL(" " #number " ", entry, call); \
        if (told != number) stop("it is not refused", entry, told); \
    } while (0)

static const char *numbered(uint32_t n)
{
    static char text[16];
    sprintf(text, " %u ", (unsigned)n);
    return text;
}

static const char *const letters = "abcdefgh";

static void emit(void)
{
    static const uint8_t carried[] = { 0, 3, 4, 5, 6, 8, 9, 10, 11, 14, 15, 16, 17, 18, 19, 20, 21, 22, 26, 27, 28, 31, 34, 35, 36, 37, 37, 37 };
    uint8_t op = below(16) ? carried[below(sizeof carried)] : (uint8_t)any();
    uint16_t a = (uint16_t)below(5), b = (uint16_t)below(4);
    const uint8_t *name = (const uint8_t *)letters + below(6);
    size_t n = below(3);
    uint32_t place = (uint32_t)below(9);
    switch (below(12)) {
    case 0: CALL(" 19 25 22 21 ", "add_scalar", cw_add_scalar(&m, below(4) ? (below(2) ? 0x3FF0000000000000u : 0x7FE0000000000000u) : any())); break;
    case 1: CALL(" 19 25 22 21 ", "add_boolean", cw_add_boolean(&m, any() & 1)); break;
    case 2: CALL(" 19 25 22 21 ", "add_string", cw_add_string(&m, name, n)); break;
    case 3: CALL(" 19 25 22 21 ", "add_reference", cw_add_reference(&m, name, n)); break;
    case 4: CALL(" 19 25 22 21 ", "add_struct_info", cw_add_struct_info(&m, name, n)); break;
    case 5: CALL(" 19 25 22 21 ", "begin_function", cw_begin_function(&m, name, n)); break;
    case 6: CALL(" 19 25 ", "end_function", cw_end_function(&m)); break;
    case 7: CALL(" 19 25 23 ", "patch_u16_value_at", cw_patch_u16_value_at(&m, a, b)); break;
    default:
        if (op == 28 || op == 31 || op == 34) CALL(" 19 25 22 21 1 ", "add_op2", cw_add_op2(&m, op, a, b, place));
        else if (op == 0 || op == 3 || op == 4 || op == 26 || op == 27 || op == 35 || op == 36) CALL(" 19 25 22 21 1 ", "add_op1", cw_add_op1(&m, op, a, place));
        else CALL(" 19 25 22 21 1 ", "add_op", cw_add_op(&m, op, place));
    }
}

static void read_all(void)
{
    uint64_t kind = below(9), payload = below(3) ? below(64) : any();
    CALL(" 19 ", "current_offset", cw_current_offset(&m));
    CALL(" 19 14 ", "get_function_idx", cw_get_function_idx(&m, (const uint8_t *)letters, below(3)));
    CALL(" 19 7 ", "last_result", cw_last_result(&m));
    CALL(" 19 6 ", "stack_value", cw_stack_value(&m, below(PLACES)));
    if (told == 0) {
        kind = m.answer[0];
        payload = m.answer[1];
    }
    CALL(" 19 5 ", "block_header", cw_block_header(&m, kind, payload));
    CALL(" 19 5 6 ", "element", cw_element(&m, kind, payload, below(4)));
    CALL(" 19 17 5 ", "text", cw_text(&m, kind, payload, out, below(8)));
    CALL(" 19 17 16 ", "backtrace", cw_backtrace(&m));
    CALL(" 19 17 ", "save", cw_save(&m, out, sizeof out));
    CALL(" 19 1 3 17 ", "disassemble", cw_disassemble(&m, out, sizeof out));
}

/* When the frames were entered: never before their callers, nor at more units than these. */
static void entered_within(uint64_t units, const char *entry)
{
    uint64_t at = 0;
    size_t i;
    for (i = 0; i < m.vm[CHAFFWHEEL_FRAMES]; i++) {
        if (m.frames[i].entered < at || m.frames[i].entered > units) stop("a frame entered at another time", entry, told);
        at = m.frames[i].entered;
    }
}

/* What an answer of a part says, against the units that the run was given. */
static void within(uint64_t given, const char *entry)
{
    if (m.answer[CHAFFWHEEL_SPENT] > given) stop("more units spent than given", entry, told);
    if (m.answer[CHAFFWHEEL_RETURNS] > m.answer[CHAFFWHEEL_SPENT]) stop("more root Returns than units", entry, told);
    entered_within(m.answer[CHAFFWHEEL_SPENT], entry);
    if (m.answer[CHAFFWHEEL_OUTCOME] != CHAFFWHEEL_PAUSED) return;
    if (m.vm[CHAFFWHEEL_RUN_ON] != 1 || m.vm[CHAFFWHEEL_RUN_GIVEN] != given) stop("the record has another run", entry, told);
    if (m.vm[CHAFFWHEEL_RUN_SPENT] != m.answer[CHAFFWHEEL_SPENT]) stop("the record has other units", entry, told);
    if (m.vm[CHAFFWHEEL_RUN_RETURNS] != m.answer[CHAFFWHEEL_RETURNS]) stop("the record has other root Returns", entry, told);
}

/* What a run that is over has left: nothing of it in the record; after a fault the stack of its start. */
static void over(const char *entry, uint64_t stack, const uint64_t *words)
{
    size_t i;
    for (i = CHAFFWHEEL_RUN_ON; i <= CHAFFWHEEL_RUN_SAVED; i++)
        if (m.vm[i] != 0) stop("a run that is over is still in the record", entry, told);
    if (m.answer[CHAFFWHEEL_OUTCOME] == CHAFFWHEEL_FAULT) {
        uint64_t fault = m.answer[CHAFFWHEEL_FAULT_NUMBER];
        if ((fault < 1 || fault > 14) && !(fault == 26 && m.vm[CHAFFWHEEL_STRICT] == 1)) stop("no number of a fault", entry, (uint32_t)fault);
        if (m.vm[CHAFFWHEEL_STACK] != stack || memcmp(words, m.stack, 2 * stack * sizeof *words)) stop("the stack is not that of the start", entry, told);
        if (m.vm[CHAFFWHEEL_FRAMES] != 1) stop("not one frame", entry, told);
        if (m.frames[0].entered != 0) stop("the frame of recovery was entered", entry, told);
        seen[64 + fault]++;
    }
    REFUSED(18, "continue without a run", cw_continue(&m, below(9)));
    REFUSED(18, "abandon without a run", cw_abandon(&m));
}

/* What a host does in a pause: it looks, or tries what is refused. */
static void pause_for(uint64_t given)
{
    switch (below(8)) {
    case 7: REFUSED(25, "set_strict in a pause", cw_set_strict(&m, any() & 1)); break;
    case 0: read_all(); break;
    case 1: REFUSED(25, "begin in a pause", cw_begin(&m)); break;
    case 2: REFUSED(25, "new in a pause", cw_new(&m)); break;
    case 3: REFUSED(25, "load in a pause", cw_load(&m, out, below(4))); break;
    case 4:
        emit();
        if (told != 25) stop("a program is emitted in a pause", "emission", told);
        break;
    case 5:
        if (given == 0) break;
        CALL(" 17 22 ", "continue with too many units", cw_continue(&m, UINT64_MAX - given + 1));
        if (told == 0) stop("more than 64 bits of units are taken", "continue", told);
        break;
    }
}

/* A run in parts, units dealt out by chance, none among them, or abandoned. Where the backtrace store is too short it stays under way. */
static void run(void)
{
    uint64_t given = 0, stack = m.vm[CHAFFWHEEL_STACK], words[2 * PLACES];
    memcpy(words, m.stack, m.stack_len * sizeof *words);
    if (below(4) == 0) CALL(" 19 25 ", "set_strict", cw_set_strict(&m, any() & 1));
    CALL(" 19 25 17 ", "begin", cw_begin(&m));
    if (told != 0) return;
    within(given, "begin");
    while (m.answer[CHAFFWHEEL_OUTCOME] == CHAFFWHEEL_PAUSED) {
        uint64_t units = below(2) ? below(4) : below(60);
        pause_for(given);
        if (below(8) == 0) {
            CALL(" 17 ", "abandon", cw_abandon(&m));
            if (told == 0 && (m.answer[CHAFFWHEEL_FAULT_NUMBER] != 13 || m.answer[CHAFFWHEEL_SPENT] != given)) stop("not abandoned so", "abandon", told);
        } else {
            CALL(" 17 ", "continue", cw_continue(&m, units));
            given += told == 0 ? units : 0;
        }
        if (told != 0) return;
        within(given, "a part");
    }
    over("a part", stack, words);
    CALL(" ", "begin again", cw_begin(&m));
    if (m.answer[CHAFFWHEEL_OUTCOME] == CHAFFWHEEL_PAUSED) CALL(" 17 ", "abandon", cw_abandon(&m));
}

/* The parts of a run on a machine that may be damaged, or have none under way. */
static void parts(void)
{
    CALL(" 19 18 17 22 ", "continue, perhaps damaged", cw_continue(&m, below(60)));
    CALL(" 19 25 17 ", "begin, perhaps damaged", cw_begin(&m));
    CALL(" 19 18 17 ", "abandon, perhaps damaged", cw_abandon(&m));
}

/* Any word of the record, or any byte of any store. */
static void damage(void)
{
#define HIT(name) if (m.name##_len && below(10) == 0) { ((unsigned char *)m.name)[below(m.name##_len * sizeof *m.name)] = (unsigned char)any(); return; }
    HIT(constants) HIT(structs) HIT(functions) HIT(text) HIT(main_code) HIT(other_code) HIT(stack) HIT(cells) HIT(frames) HIT(copy)
    m.vm[below(CHAFFWHEEL_VM)] = below(2) ? any() : below(PLACES);
}

int main(int argc, char **argv)
{
    unsigned long rounds = argc > 1 ? strtoul(argv[1], NULL, 10) : 2000, i, j;
    if (argc > 2) state ^= strtoull(argv[2], NULL, 10) * 0x9E3779B97F4A7C15u;
    for (i = 0; i < rounds; i++) {
        lend();
        CALL(" 21 ", "new", cw_new(&m));
        for (j = below(60); j > 0; j--) emit();
        for (j = below(4); j > 0; j--) run();
        if (below(2)) {
            /* a run is under way when the damage is done */
            for (j = below(9); j > 0; j--) emit();
            CALL(" 19 25 17 ", "begin", cw_begin(&m));
        }
        read_all();
        for (j = below(4); j > 0; j--) damage();
        read_all();
        parts();
        run();
        emit();
    }
    printf("%lu rounds, %lu calls; answered 0: %lu", rounds, calls, seen[0]);
    for (i = 1; i < 64; i++)
        if (seen[i]) printf(", %lu: %lu", i, seen[i]);
    printf("; faults");
    for (i = 65; i < 64 + 27; i++)
        if (seen[i]) printf(" %lu: %lu", i - 64, seen[i]);
    printf("\n");
    return 0;
}
