/* The order of refusals at the boundary: short answers and short records, with machines in good order and damaged ones, with a run under way and without.
 * Each line is a call and the number that it must return; no call may change a store. Prints what is otherwise, and how many calls were made. */
#include <inttypes.h>
#include <stdio.h>
#include "machine.h"

enum { LOAD_CONSTANT = 0, BUILD_LIST = 36, RETURN = 37 }; /* opcodes: docs/RULES.md */

static int calls, wrong;
static uint64_t none[1]; /* lent with a count of 0: an answer without a word */

/* what the stores and the record hold, in a number */
static uint64_t sum_of(uint64_t h, const void *p, size_t n)
{
    for (const uint8_t *b = p; n--; b++)
        h = (h ^ *b) * 1099511628211u;
    return h;
}

#define SUM(name) h = sum_of(h, m->name, m->name##_len * sizeof *m->name)

static uint64_t sum(const struct chaffwheel_stores *m)
{
    uint64_t h = sum_of(14695981039346656037u, m->vm, sizeof m->vm);
    SUM(constants), SUM(structs), SUM(functions), SUM(text), SUM(main_code), SUM(main_places), SUM(other_code), SUM(other_places);
    SUM(stack), SUM(cells), SUM(frames), SUM(copy), SUM(trace), SUM(heights);
    return h;
}

#define MUST(want, call) do { \
    uint64_t before = sum(m); \
    uint32_t got = (call); \
    calls++; \
    if (got != (uint32_t)(want) || sum(m) != before) \
        wrong++, printf("line %d: %" PRIu32 " for %d%s\n", __LINE__, got, (want), sum(m) != before ? ", and a store has changed" : ""); \
} while (0)

#define LEND(name) m->name, m->name##_len
#define VM m->vm, CHAFFWHEEL_VM
#define ANSWER m->answer, CHAFFWHEEL_ANSWER
#define SHORT none, 0
#define CODE LEND(main_code), LEND(main_places), LEND(other_code), LEND(other_places)
#define PROGRAM LEND(constants), LEND(structs), LEND(functions), LEND(text), CODE

/* The functions that judge the program's functions, each with an answer that is too short: those that write code, those that look, and those of a run. */
static void emits_short(struct chaffwheel_stores *m, int want)
{
    static const uint8_t name[] = { 'f' };
    MUST(want, chaffwheel_add_op(VM, RETURN, 0, LEND(functions), CODE, SHORT));
    MUST(want, chaffwheel_add_op1(VM, LOAD_CONSTANT, 0, 0, LEND(functions), CODE, SHORT));
    MUST(want, chaffwheel_add_op2(VM, LOAD_CONSTANT, 0, 0, 0, LEND(functions), CODE, SHORT));
    MUST(want, chaffwheel_add_op3(VM, LOAD_CONSTANT, 0, 0, 0, 0, LEND(functions), CODE, SHORT));
    MUST(want, chaffwheel_patch_u16_value_at(VM, 0, 0, LEND(functions), LEND(main_code), LEND(other_code), SHORT));
    MUST(want, chaffwheel_begin_function(VM, name, 1, LEND(functions), LEND(text), SHORT));
}

static void looks_short(struct chaffwheel_stores *m, int want)
{
    static const uint8_t name[] = { 'f' };
    uint8_t out[4096];
    MUST(want, chaffwheel_current_offset(VM, LEND(functions), SHORT));
    MUST(want, chaffwheel_get_function_idx(VM, name, 1, LEND(functions), LEND(text), SHORT));
    MUST(want, chaffwheel_save(VM, PROGRAM, out, sizeof out, SHORT));
    MUST(want, chaffwheel_disassemble(VM, LEND(functions), LEND(text), LEND(main_code), LEND(other_code), out, sizeof out, SHORT));
    MUST(want, chaffwheel_backtrace(VM, LEND(functions), LEND(text), CODE, LEND(stack), LEND(frames), LEND(trace), SHORT));
}

#define BEGIN(copy_len, answer_len) \
    chaffwheel_begin(VM, PROGRAM, LEND(stack), LEND(cells), LEND(frames), m->copy, copy_len, m->answer, answer_len)
#define CONTINUE(units, trace_len, answer_len) \
    chaffwheel_continue(units, VM, PROGRAM, LEND(stack), LEND(cells), LEND(frames), LEND(copy), m->trace, trace_len, m->answer, answer_len)
#define ABANDON(trace_len, answer_len) \
    chaffwheel_abandon(VM, PROGRAM, LEND(stack), LEND(cells), LEND(frames), LEND(copy), m->trace, trace_len, m->answer, answer_len)

/* Short are the answer, or the copy or backtrace store, or both; and the units may be too many. */
static void runs_short(struct chaffwheel_stores *m, int begin, int go_on)
{
    MUST(begin, BEGIN(m->copy_len, 4));
    MUST(begin, BEGIN(m->stack_len - 1, 5));
    MUST(begin, BEGIN(2, 0));
    MUST(go_on, CONTINUE(100, m->trace_len, 4));
    MUST(go_on, CONTINUE(100, CHAFFWHEEL_ENTRY * m->frames_len - 1, 5));
    MUST(go_on, CONTINUE(UINT64_MAX, 0, 0));
    MUST(go_on, ABANDON(m->trace_len, 4));
    MUST(go_on, ABANDON(CHAFFWHEEL_ENTRY * m->frames_len - 1, 5));
    MUST(go_on, ABANDON(0, 0));
}

static void all_short(struct chaffwheel_stores *m, int emits, int looks, int begin, int go_on)
{
    emits_short(m, emits), looks_short(m, looks), runs_short(m, begin, go_on);
}

/* the functions that do not judge the functions */
static void others_short(struct chaffwheel_stores *m, int constants, int structs, int counts)
{
    static const uint8_t name[] = { 's' };
    MUST(constants, chaffwheel_add_scalar(VM, 0, LEND(constants), LEND(text), SHORT));
    MUST(constants, chaffwheel_add_boolean(VM, true, LEND(constants), LEND(text), SHORT));
    MUST(constants, chaffwheel_add_string(VM, name, 1, LEND(constants), LEND(text), SHORT));
    MUST(constants, chaffwheel_add_reference(VM, name, 1, LEND(constants), LEND(text), SHORT));
    MUST(structs, chaffwheel_add_struct_info(VM, name, 1, LEND(structs), LEND(text), SHORT));
    MUST(counts, chaffwheel_end_function(VM, SHORT));
}

/* the readers, of a machine whose last result is the list at this header and whose stack has one value */
static void readers_short(struct chaffwheel_stores *m, uint64_t list, int cells, int stack)
{
    uint8_t out[16];
    MUST(17, chaffwheel_last_result(VM, m->answer, 1));
    MUST(stack, chaffwheel_stack_value(VM, 0, LEND(stack), m->answer, 1));
    MUST(cells, chaffwheel_block_header(VM, CHAFFWHEEL_LIST, list, LEND(cells), m->answer, 2));
    MUST(cells, chaffwheel_element(VM, CHAFFWHEEL_LIST, list, 0, LEND(cells), m->answer, 1));
    MUST(17, chaffwheel_text(VM, CHAFFWHEEL_STRING, (uint64_t)6 << 32, LEND(text), out, sizeof out, SHORT));
    MUST(19, chaffwheel_text(VM, CHAFFWHEEL_STRING, (uint64_t)999 << 32, LEND(text), out, sizeof out, SHORT));
    MUST(19, chaffwheel_element(VM, CHAFFWHEEL_NONE, 0, 0, LEND(cells), SHORT));
}

/* a list of two constants is the last result, and a constant is left on the stack */
static uint32_t make(struct chaffwheel_stores *m)
{
    uint32_t no = cw_new(m);
    no = no ? no : cw_add_scalar(m, 0);
    no = no ? no : cw_add_struct_info(m, (const uint8_t *)"s", 1);
    for (int i = 0; i < 3; i++)
        no = no ? no : cw_add_op1(m, LOAD_CONSTANT, 0, 0);
    no = no ? no : cw_add_op1(m, BUILD_LIST, 2, 0);
    no = no ? no : cw_add_op(m, RETURN, 0);
    return no ? no : cw_whole_run(m, 100);
}

/* 20 comes before 17, and its offset is written where there is a word for it */
static void loading(struct chaffwheel_stores *m)
{
    static const uint8_t good[] = { 0, 0, 1, 6, '<', 'm', 'a', 'i', 'n', '>', 0 }, broken[] = { 0, 0, 0 };
    for (size_t words = 0; words < CHAFFWHEEL_VM; words += 5) {
        MUST(17, chaffwheel_load(good, sizeof good, m->vm, words, PROGRAM, LEND(frames), ANSWER));
        m->answer[0] = 99;
        MUST(20, chaffwheel_load(broken, sizeof broken, m->vm, words, PROGRAM, LEND(frames), ANSWER));
        if (m->answer[0] != 2)
            wrong++, printf("line %d: offset %" PRIu64 "\n", __LINE__, m->answer[0]);
    }
    MUST(17, chaffwheel_load(good, sizeof good, VM, PROGRAM, LEND(frames), SHORT));
    MUST(20, chaffwheel_load(broken, sizeof broken, VM, PROGRAM, LEND(frames), SHORT));
    MUST(17, chaffwheel_load(good, sizeof good, VM, PROGRAM, m->frames, 0, SHORT));
    MUST(17, chaffwheel_new(VM, LEND(functions), m->text, 0, LEND(frames), SHORT));
}

/* With a run under way 25 comes before all else, where the record is long enough to say so; a shorter one is refused as if it were not there. */
static void loading_in_a_run(struct chaffwheel_stores *m)
{
    static const uint8_t good[] = { 0, 0, 1, 6, '<', 'm', 'a', 'i', 'n', '>', 0 }, broken[] = { 0, 0, 0 };
    MUST(25, chaffwheel_load(good, sizeof good, VM, PROGRAM, LEND(frames), ANSWER));
    MUST(25, chaffwheel_load(broken, sizeof broken, VM, PROGRAM, m->frames, 0, SHORT));
    MUST(25, chaffwheel_check(good, sizeof good, VM, PROGRAM, LEND(frames), LEND(heights), ANSWER));
    MUST(25, chaffwheel_check(broken, sizeof broken, VM, PROGRAM, m->frames, 0, m->heights, 0, SHORT));
    MUST(25, chaffwheel_new(VM, LEND(functions), LEND(text), LEND(frames), ANSWER));
    MUST(25, chaffwheel_new(VM, LEND(functions), m->text, 0, m->frames, 0, SHORT));
    MUST(20, chaffwheel_load(broken, sizeof broken, m->vm, CHAFFWHEEL_VM - 1, PROGRAM, LEND(frames), ANSWER));
    MUST(17, chaffwheel_load(good, sizeof good, m->vm, CHAFFWHEEL_VM - 1, PROGRAM, LEND(frames), ANSWER));
    MUST(20, chaffwheel_check(broken, sizeof broken, m->vm, CHAFFWHEEL_VM - 1, PROGRAM, LEND(frames), LEND(heights), ANSWER));
    MUST(17, chaffwheel_new(m->vm, CHAFFWHEEL_VM - 1, LEND(functions), LEND(text), LEND(frames), ANSWER));
}

/* the check: 20, 17 (the record, the answer, the heights), 21 (the program's stores, the frames), 40, each before the next; 20 and 40 tell more */
static void checking(struct chaffwheel_stores *m)
{
    /* a Return that finds no value; the same behind a byte that is no opcode; and three zeros, which are no image */
    static const uint8_t low[] = { 0, 0, 1, 6, '<', 'm', 'a', 'i', 'n', '>', 1, RETURN, 1, 0 };
    static const uint8_t cut[] = { 0, 0, 1, 6, '<', 'm', 'a', 'i', 'n', '>', 2, 99, RETURN, 2, 0 }, broken[] = { 0, 0, 0 };
#define CHECK(image, words, frames_len, heights_len, answer_len) \
    chaffwheel_check(image, sizeof image, m->vm, words, PROGRAM, m->frames, frames_len, m->heights, heights_len, m->answer, answer_len)
    for (size_t words = 0; words < CHAFFWHEEL_VM; words += 5)
        for (size_t heights = 0; heights < 2; heights++)
            for (size_t told = 0; told < 3; told++) {
                m->answer[0] = 99;
                MUST(20, CHECK(broken, words, 0, heights, told));
                if (m->answer[0] != (told ? 2 : 99))
                    wrong++, printf("line %d: offset %" PRIu64 "\n", __LINE__, m->answer[0]);
                MUST(17, CHECK(low, words, 0, heights, told));
            }
    MUST(17, CHECK(low, CHAFFWHEEL_VM, 0, 0, 2));
    MUST(17, CHECK(low, CHAFFWHEEL_VM, 0, 1, 1));
    MUST(21, CHECK(low, CHAFFWHEEL_VM, 0, 1, 2));
    MUST(21, chaffwheel_check(low, sizeof low, VM, LEND(constants), LEND(structs), LEND(functions), LEND(text), m->main_code, 0, LEND(main_places),
        LEND(other_code), LEND(other_places), LEND(frames), LEND(heights), ANSWER));
    m->answer[0] = m->answer[1] = 99;
    MUST(40, CHECK(low, CHAFFWHEEL_VM, 1, 1, 2));
    if (m->answer[CHAFFWHEEL_RULE] != 6 || m->answer[CHAFFWHEEL_FUNCTION] != 0)
        wrong++, printf("line %d: rule %" PRIu64 " function %" PRIu64 "\n", __LINE__, m->answer[0], m->answer[1]);
    MUST(40, CHECK(cut, CHAFFWHEEL_VM, 1, 1, 2));
    if (m->answer[CHAFFWHEEL_RULE] != 1 || m->answer[CHAFFWHEEL_FUNCTION] != 0)
        wrong++, printf("line %d: rule %" PRIu64 " function %" PRIu64 "\n", __LINE__, m->answer[0], m->answer[1]);
#undef CHECK
}

/* one word of the machine is changed, the calls are made, and it is put back */
#define DAMAGED(place, word, ...) do { __typeof__(place) kept = (place); (place) = (word); __VA_ARGS__; (place) = kept; } while (0)

/* A run under way in good order: with short answers, and with each of its words damaged. An entry that emits looks whether a run is under way and at no other
 * word of it; the parts of a run judge them all. */
static void in_a_run(struct chaffwheel_stores *m, uint64_t list)
{
    uint64_t *run = m->vm;
    all_short(m, 25, 17, 25, 17), others_short(m, 25, 25, 25), readers_short(m, list, 17, 17);
    MUST(22, cw_continue(m, UINT64_MAX - run[CHAFFWHEEL_RUN_GIVEN] + 1));
    MUST(22, cw_continue(m, UINT64_MAX));
    MUST(25, cw_begin(m));
    MUST(25, cw_set_strict(m, true));
    MUST(25, cw_set_strict(m, false)); /* what it is already */
    loading_in_a_run(m);
    DAMAGED(run[CHAFFWHEEL_RUN_ON], 2, all_short(m, 19, 19, 19, 19), others_short(m, 19, 19, 19));
    DAMAGED(run[CHAFFWHEEL_RUN_ON], 0, all_short(m, 17, 17, 19, 19), others_short(m, 17, 17, 17));
    DAMAGED(run[CHAFFWHEEL_RUN_GIVEN], run[CHAFFWHEEL_RUN_SPENT] - 1, all_short(m, 25, 17, 19, 19), others_short(m, 25, 25, 25));
    DAMAGED(run[CHAFFWHEEL_RUN_SPENT], run[CHAFFWHEEL_RUN_GIVEN] + 1, runs_short(m, 19, 19));
    DAMAGED(run[CHAFFWHEEL_RUN_SPENT], run[CHAFFWHEEL_RUN_GIVEN] + 1, MUST(19, cw_set_strict(m, true)));
    DAMAGED(run[CHAFFWHEEL_RUN_RETURNS], run[CHAFFWHEEL_RUN_SPENT] + 1, runs_short(m, 19, 19));
    DAMAGED(run[CHAFFWHEEL_RUN_MARK], run[CHAFFWHEEL_CELLS] + 1, runs_short(m, 19, 19));
    DAMAGED(run[CHAFFWHEEL_RUN_MARK], 0, runs_short(m, 19, 19)); /* the last result is a list, which lies in the mark's cells */
    DAMAGED(run[CHAFFWHEEL_RUN_SAVED], m->stack_len / 2 + 1, runs_short(m, 19, 19));
    DAMAGED(m->copy[0], 9, runs_short(m, 19, 19)); /* no kind of a value */
    MUST(19, BEGIN(0, 5)); /* the copy of the run under way is not in what is lent */
    DAMAGED(m->frames[0].position, 99, runs_short(m, 19, 19)); /* past the code */
    DAMAGED(m->frames[0].entered, run[CHAFFWHEEL_RUN_SPENT] + 1, {
        runs_short(m, 19, 19); /* entered at more units than are spent; a backtrace judges the frames, and not the run */
        MUST(17, chaffwheel_backtrace(VM, LEND(functions), LEND(text), CODE, LEND(stack), LEND(frames), m->trace, CHAFFWHEEL_ENTRY - 1, ANSWER));
    });
}

/* Begins a run behind what has run and gives it one unit, of two that it needs. */
static uint32_t make_run(struct chaffwheel_stores *m)
{
    uint32_t no = cw_add_op1(m, LOAD_CONSTANT, 0, 0);
    no = no ? no : cw_add_op(m, RETURN, 0);
    no = no ? no : cw_begin(m);
    return no ? no : cw_continue(m, 1);
}

int main(void)
{
    struct chaffwheel_stores stores, *m = &stores;
    machine_init(m, 1);
    uint32_t no = make(m);
    if (no) {
        printf("refused %" PRIu32 "\n", no);
        return 1;
    }
    uint64_t list = m->vm[CHAFFWHEEL_LAST_PAYLOAD];
    uint8_t out[4096];
    all_short(m, 17, 17, 17, 18), others_short(m, 17, 17, 17), readers_short(m, list, 17, 17);
    MUST(18, cw_continue(m, UINT64_MAX));
    MUST(18, cw_abandon(m));
    /* no machine's record */
    DAMAGED(m->vm[CHAFFWHEEL_LAST_KIND], 6, all_short(m, 19, 19, 19, 19), others_short(m, 19, 19, 19));
    /* without a run its words are all 0 */
    for (size_t i = CHAFFWHEEL_RUN_GIVEN; i <= CHAFFWHEEL_RUN_SAVED; i++) {
        DAMAGED(m->vm[i], 1, all_short(m, 17, 17, 19, 19), others_short(m, 17, 17, 17));
        DAMAGED(m->vm[i], 1, MUST(19, cw_set_strict(m, true)));
    }
    /* the setting is 0 or 1 */
    DAMAGED(m->vm[CHAFFWHEEL_STRICT], 2, all_short(m, 19, 19, 19, 19), others_short(m, 19, 19, 19));
    DAMAGED(m->vm[CHAFFWHEEL_STRICT], 2, MUST(19, cw_set_strict(m, false)));
    DAMAGED(m->vm[CHAFFWHEEL_STRICT], 1, all_short(m, 17, 17, 17, 18), others_short(m, 17, 17, 17));
    MUST(19, chaffwheel_set_strict(true, m->vm, CHAFFWHEEL_VM - 1, PROGRAM, LEND(stack), LEND(cells), LEND(frames), LEND(copy)));
    /* counts past their stores, and words that are no value's */
    DAMAGED(m->vm[CHAFFWHEEL_FUNCTIONS], 257, all_short(m, 19, 19, 19, 19), others_short(m, 17, 17, 17));
    DAMAGED(m->vm[CHAFFWHEEL_FUNCTIONS], 0, all_short(m, 19, 19, 19, 19), others_short(m, 19, 19, 19));
    DAMAGED(m->vm[CHAFFWHEEL_CONSTANTS], 257, others_short(m, 19, 17, 17));
    DAMAGED(m->structs[1], 1, others_short(m, 17, 19, 17));
    DAMAGED(m->vm[CHAFFWHEEL_CELLS], 2049, readers_short(m, list, 19, 17));
    DAMAGED(m->vm[CHAFFWHEEL_STACK], 1025, readers_short(m, list, 17, 19));
    DAMAGED(m->stack[0], 9, readers_short(m, list, 17, 19));
    DAMAGED(m->frames[0].base, 1, {
        runs_short(m, 19, 19);
        MUST(19, chaffwheel_backtrace(VM, LEND(functions), LEND(text), CODE, LEND(stack), LEND(frames), m->trace, 0, SHORT));
    });
    /* a callee entered before its caller: two frames of main, the second at its start */
    DAMAGED(m->vm[CHAFFWHEEL_FRAMES], 2, DAMAGED(m->frames[0].entered, 1, {
        runs_short(m, 19, 19);
        MUST(19, chaffwheel_backtrace(VM, LEND(functions), LEND(text), CODE, LEND(stack), LEND(frames), m->trace, 0, SHORT));
        DAMAGED(m->frames[1].entered, 1, runs_short(m, 17, 18));
    }));
    /* the listing: 1 or 3 as met first */
    DAMAGED(m->main_code[0], 38, {
        MUST(1, chaffwheel_disassemble(VM, LEND(functions), LEND(text), LEND(main_code), LEND(other_code), out, sizeof out, SHORT));
        MUST(17, chaffwheel_save(VM, PROGRAM, out, sizeof out, SHORT));
    });
    DAMAGED(m->main_code[12], LOAD_CONSTANT, {
        MUST(3, chaffwheel_disassemble(VM, LEND(functions), LEND(text), LEND(main_code), LEND(other_code), out, sizeof out, SHORT));
    });
    loading(m);
    checking(m);
    no = make_run(m);
    if (no || m->answer[CHAFFWHEEL_OUTCOME] != CHAFFWHEEL_PAUSED) {
        printf("no run is under way, refused %" PRIu32 "\n", no);
        return 1;
    }
    in_a_run(m, list);
    machine_free(m);
    printf("%d calls, %d wrong\n", calls, wrong);
    return wrong != 0;
}
