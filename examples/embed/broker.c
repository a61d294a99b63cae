/* A broker that runs a rule over a reading, meets a fault behind the rule's Return, and counts the reading once: docs/EMBEDDING.md.
 * The rule is examples/story.rule: it adds 1 to the last result, returns that, then divides by a constant that is 0 by mistake.
 * It is checked before it is installed, and a rule that is broken is refused there: the one that was installed stays.
 * The mended rule is also run in parts: the broker answers its operator between them, and gives more units or abandons it.
 * Then a rule that jumps over a Return, where the place of the fault would tell a lie and the number of root Returns does not, and one with calls, of
 * which the operator is told since when they are under way.
 * At the end a rule that answers with a list, and what the broker reads of it. */
#include <inttypes.h>
#include <math.h>
#include <stdio.h>
#include <string.h>
#include "machine.h"

/* a refusal ends the function: nothing was done, and the caller is told why */
#define TRY(call) do { uint32_t no = (call); if (no) return no; } while (0)

enum { LOAD_CONSTANT = 0, DIVIDE = 11, JUMP_IF_FALSE = 26, CALL = 28, BUILD_LIST = 36, RETURN = 37 }; /* opcodes: docs/RULES.md */

/* What a broker writes down of a run. */
struct journal {
    double before, after; /* the last result that the rule was given, and the one that it left; NAN: none */
    uint32_t refused;     /* 0: it ran */
    uint64_t outcome, spent, fault;
    uint64_t returns;     /* root Returns that the run completed */
    uint64_t brought;     /* how many of them only return what the broker brought: they are the first */
    uint64_t place;       /* after a fault: of main's frame, which is the last entry. It helps to find the mistake, and decides nothing */
};

static uint64_t bits_of(double x)
{
    uint64_t bits;
    memcpy(&bits, &x, sizeof bits);
    return bits;
}

static double scalar_of(uint64_t bits)
{
    double x;
    memcpy(&x, &bits, sizeof x);
    return x;
}

/* Constant i of an image whose constants are scalars: a kind byte and 8 bytes each, behind the count. */
static void bring(uint8_t *image, size_t i, double x)
{
    uint64_t bits = bits_of(x);
    for (size_t k = 0; k < 8; k++)
        image[2 + 9 * i + k] = (uint8_t)(bits >> (8 * k));
}

/* The last result, or `otherwise`: the story's rules return scalars, and a machine that is newly loaded has none (7). */
static double last_scalar(struct chaffwheel_stores *m, double otherwise)
{
    return !cw_last_result(m) && m->answer[0] == CHAFFWHEEL_SCALAR ? scalar_of(m->answer[1]) : otherwise;
}

/* The place of an entry of the backtrace, counted from the innermost frame. */
static uint64_t place_of(const struct chaffwheel_stores *m, uint64_t entry)
{
    return m->trace[CHAFFWHEEL_ENTRY * entry + CHAFFWHEEL_ENTRY_PLACE];
}

/* What the broker writes down of a run that is over; `before` is the last result that the rule was given. */
static struct journal written(struct chaffwheel_stores *m, double before, uint32_t refused)
{
    struct journal j = { .before = before, .after = before, .refused = refused };
    if (refused)
        return j; /* nothing ran, no store changed */
    j.outcome = m->answer[CHAFFWHEEL_OUTCOME], j.spent = m->answer[CHAFFWHEEL_SPENT], j.returns = m->answer[CHAFFWHEEL_RETURNS];
    if (j.outcome == CHAFFWHEEL_FAULT) {
        uint64_t entries = m->answer[CHAFFWHEEL_TRACE_LENGTH];
        j.fault = m->answer[CHAFFWHEEL_FAULT_NUMBER], j.place = place_of(m, entries - 1);
    }
    j.after = last_scalar(m, before); /* the answer is this value's from here on */
    return j;
}

/* Runs the machine as it stands, with all its units at once. */
static struct journal run(struct chaffwheel_stores *m, double before, uint64_t units)
{
    return written(m, before, cw_whole_run(m, units));
}

/* The operator asks in a pause how far the rule is, and for another rule, which has to wait. Nothing of this disturbs the run. */
static void answer_operator(struct chaffwheel_stores *m, const uint8_t *image, size_t len)
{
    uint64_t spent = m->answer[CHAFFWHEEL_SPENT], returns = m->answer[CHAFFWHEEL_RETURNS];
    uint64_t place = cw_backtrace(m) ? 0 : place_of(m, m->answer[CHAFFWHEEL_TOLD] - 1);
    uint32_t refused = cw_check(m, image, len);
    printf("    paused, spent %" PRIu64 ", returns %" PRIu64 ", main at place %" PRIu64, spent, returns, place);
    printf("; another rule is refused %" PRIu32 "\n", refused);
}

/* The same in parts of so many units, the operator answered before each; when as many as `most` are given and it is still paused it is abandoned. */
static struct journal run_in_parts(struct chaffwheel_stores *m, double before, uint64_t part, uint64_t most, const uint8_t *image, size_t len)
{
    uint64_t given = 0;
    uint32_t refused = cw_begin(m);
    while (!refused && m->answer[CHAFFWHEEL_OUTCOME] == CHAFFWHEEL_PAUSED) {
        answer_operator(m, image, len);
        refused = given < most ? cw_continue(m, part) : cw_abandon(m);
        given += part;
    }
    return written(m, before, refused);
}

/* The whole rule, on a machine that is newly loaded: it has no last result, so the broker brings the one to start from, as constant 0. The rule
 * begins by returning it (lines 9 and 10 of story.rule): that is the first root Return, and counts no reading. */
static struct journal whole_rule(struct chaffwheel_stores *m, uint8_t *image, size_t len, double before, uint64_t units)
{
    bring(image, 0, before);
    uint32_t refused = cw_check(m, image, len); /* refused, nothing is installed: the machine is the one from before */
    struct journal j = refused ? written(m, before, refused) : run(m, before, units);
    j.brought = 1;
    return j;
}

static struct journal whole_rule_in_parts(struct chaffwheel_stores *m, uint8_t *image, size_t len, double before, uint64_t part, uint64_t most)
{
    bring(image, 0, before);
    uint32_t refused = cw_check(m, image, len);
    struct journal j = refused ? written(m, before, refused) : run_in_parts(m, before, part, most, image, len);
    j.brought = 1;
    return j;
}

/* The rest of the rule, mended: it is emitted at the end of main, where the machine that faulted stands. */
static uint32_t emit_rest(struct chaffwheel_stores *m)
{
    TRY(cw_add_scalar(m, bits_of(2)));
    uint16_t homes = (uint16_t)m->answer[0];
    TRY(cw_add_op1(m, LOAD_CONSTANT, 1, 15)); /* one */
    TRY(cw_add_op1(m, LOAD_CONSTANT, homes, 16));
    return cw_add_op(m, DIVIDE, 17);
}

static struct journal rest_of_rule(struct chaffwheel_stores *m, double before, uint64_t units)
{
    struct journal j = { .before = before, .after = before, .refused = emit_rest(m) };
    return j.refused ? j : run(m, before, units);
}

/* A rule that jumps: its first constant decides which of two ways it returns 1, and it passes over the other. Instruction i has place i. */
static uint32_t emit_jump_rule(struct chaffwheel_stores *m)
{
    TRY(cw_new(m));
    TRY(cw_add_boolean(m, false));                /* constant 0 */
    TRY(cw_add_scalar(m, bits_of(1)));            /* constant 1 */
    TRY(cw_add_op1(m, LOAD_CONSTANT, 0, 1));
    TRY(cw_add_op1(m, JUMP_IF_FALSE, 4, 2));      /* over the 4 bytes of places 3 and 4 */
    TRY(cw_add_op1(m, LOAD_CONSTANT, 1, 3));
    TRY(cw_add_op(m, RETURN, 4));                 /* never runs */
    TRY(cw_add_op1(m, LOAD_CONSTANT, 1, 5));
    return cw_add_op(m, RETURN, 6);
}

static struct journal jump_rule(struct chaffwheel_stores *m, uint64_t units)
{
    struct journal j = { .before = NAN, .after = NAN, .refused = emit_jump_rule(m) };
    return j.refused ? j : run(m, NAN, units);
}

/* A rule with calls: main calls f, f calls g. Instruction i has place i. */
static uint32_t emit_call_rule(struct chaffwheel_stores *m)
{
    static const uint8_t name[] = { 'f', 'g' };
    TRY(cw_new(m));
    TRY(cw_add_scalar(m, bits_of(1)));            /* constant 0 */
    TRY(cw_add_op1(m, LOAD_CONSTANT, 0, 1));
    TRY(cw_add_op2(m, CALL, 1, 1, 2));
    TRY(cw_add_op(m, RETURN, 3));
    TRY(cw_begin_function(m, name, 1));           /* function 1 */
    TRY(cw_add_op1(m, LOAD_CONSTANT, 0, 4));
    TRY(cw_add_op2(m, CALL, 2, 1, 5));
    TRY(cw_add_op(m, RETURN, 6));
    TRY(cw_begin_function(m, name + 1, 1));       /* function 2 */
    TRY(cw_add_op1(m, LOAD_CONSTANT, 0, 7));
    return cw_add_op(m, RETURN, 8);
}

/* The operator asks in a pause which calls are under way, and since when: each frame tells the units that were spent when it was entered. */
static uint32_t show_call_rule(struct chaffwheel_stores *m)
{
    TRY(emit_call_rule(m));
    TRY(cw_begin(m));
    TRY(cw_continue(m, 5));
    printf("a rule with calls, paused with %" PRIu64 " units spent\n", m->answer[CHAFFWHEEL_SPENT]);
    TRY(cw_backtrace(m));
    for (uint64_t i = 0; i < m->answer[CHAFFWHEEL_TOLD]; i++) {
        const uint64_t *entry = m->trace + CHAFFWHEEL_ENTRY * i;
        printf("    function %" PRIu64 " at place %" PRIu64 ", since unit %" PRIu64 "\n", entry[CHAFFWHEEL_ENTRY_FUNCTION],
            entry[CHAFFWHEEL_ENTRY_PLACE], entry[CHAFFWHEEL_ENTRY_ENTERED]);
    }
    return cw_abandon(m);
}

/* A rule that a vendor broke: its Return finds no value where the jump was taken. It is emitted on a machine aside, and its image saved. */
static uint32_t broken_rule(uint8_t *image, size_t room, size_t *len)
{
    struct chaffwheel_stores aside, *m = &aside;
    machine_init(m, 1);
    uint32_t no = cw_new(m);
    no = no ? no : cw_add_boolean(m, false);           /* constant 0 */
    no = no ? no : cw_add_op1(m, LOAD_CONSTANT, 0, 1);
    no = no ? no : cw_add_op1(m, JUMP_IF_FALSE, 3, 2); /* over the 3 bytes of place 3, which push the value */
    no = no ? no : cw_add_op1(m, LOAD_CONSTANT, 0, 3);
    no = no ? no : cw_add_op(m, RETURN, 4);
    no = no ? no : cw_save(m, image, room);
    *len = no ? 0 : m->answer[0];
    machine_free(m);
    return no;
}

/* The broken rule is refused before it is installed, by day, and the rule that was there still runs. */
static int refused_by_day(struct chaffwheel_stores *m)
{
    uint8_t image[256];
    size_t len;
    if (broken_rule(image, sizeof image, &len))
        return 0;
    uint32_t no = cw_check(m, image, len);
    printf("a broken rule, checked before it is installed\n");
    printf("    refused %" PRIu32 ": rule %" PRIu64 ", function %" PRIu64 "\n", no, m->answer[CHAFFWHEEL_RULE], m->answer[CHAFFWHEEL_FUNCTION]);
    return no == 40 && m->answer[CHAFFWHEEL_RULE] == 6 && m->answer[CHAFFWHEEL_FUNCTION] == 0;
}

/* A rule that is emitted: it returns a list of the reading and its unit of measure, and leaves a text on the stack. */
static uint32_t emit_list_rule(struct chaffwheel_stores *m)
{
    const uint8_t unit[] = { 'm', '3' };
    TRY(cw_new(m));
    TRY(cw_add_scalar(m, bits_of(42)));           /* constant 0 */
    TRY(cw_add_string(m, unit, sizeof unit));     /* constant 1 */
    TRY(cw_add_op1(m, LOAD_CONSTANT, 0, 1));
    TRY(cw_add_op1(m, LOAD_CONSTANT, 1, 1));
    TRY(cw_add_op1(m, BUILD_LIST, 2, 1));
    TRY(cw_add_op(m, RETURN, 2));
    return cw_add_op1(m, LOAD_CONSTANT, 1, 3);
}

/* Prints any value. An element lies below its header, so this ends whatever the stores hold. */
static void show_value(struct chaffwheel_stores *m, uint64_t kind, uint64_t payload)
{
    uint8_t bytes[256];
    uint32_t no = 0;
    if (kind == CHAFFWHEEL_SCALAR)
        printf("%g", scalar_of(payload));
    else if (kind == CHAFFWHEEL_BOOLEAN)
        printf(payload ? "true" : "false");
    else if (kind == CHAFFWHEEL_STRING || kind == CHAFFWHEEL_REFERENCE) {
        no = cw_text(m, kind, payload, bytes, sizeof bytes);
        if (!no)
            printf("\"%.*s\"", (int)m->answer[0], (const char *)bytes);
    } else if (!(no = cw_block_header(m, kind, payload))) {
        uint64_t count = m->answer[0];
        printf("[");
        for (uint64_t i = 0; i < count && !(no = cw_element(m, kind, payload, i)); i++) {
            printf(i ? ", " : "");
            show_value(m, m->answer[0], m->answer[1]);
        }
        printf("]");
    }
    if (no)
        printf("refused %" PRIu32, no);
}

/* What the list rule leaves, read out: the last result, and a value of the stack. */
static uint32_t show_list_rule(struct chaffwheel_stores *m)
{
    TRY(emit_list_rule(m));
    TRY(cw_whole_run(m, 100));
    printf("a rule that answers with a list, and leaves %" PRIu64 " value on the stack\n", m->vm[CHAFFWHEEL_STACK]);
    TRY(cw_last_result(m));
    printf("    last result ");
    show_value(m, m->answer[0], m->answer[1]);
    TRY(cw_stack_value(m, 0));
    printf(", the stack's ");
    show_value(m, m->answer[0], m->answer[1]);
    printf("\n");
    return 0;
}

/* Has the reading counted? A root Return that was completed is never undone, and the run tells how many it completed: that number alone decides.
 * No place can: behind a jump it is that of code that was passed over. Nor can the last result: a rule may return once more what was there. */
static int counted(const struct journal *j)
{
    return !j->refused && j->returns > j->brought;
}

static void show_last(const char *when, double x)
{
    if (x != x)
        printf("%s none", when);
    else
        printf("%s %g", when, x);
}

static void show_answer(const struct journal *j)
{
    if (j->refused)
        printf("    refused %" PRIu32 ": nothing ran\n", j->refused);
    else if (j->outcome == CHAFFWHEEL_FAULT)
        printf("    fault %" PRIu64 ", spent %" PRIu64 ", returns %" PRIu64 ", main at place %" PRIu64 "\n", j->fault, j->spent, j->returns, j->place);
    else
        printf("    %s, spent %" PRIu64 ", returns %" PRIu64 "\n", j->outcome == CHAFFWHEEL_VALUE ? "value" : "continue", j->spent, j->returns);
    show_last("    last result before", j->before);
    show_last(", after", j->after);
    printf(": this run has%s counted\n", counted(j) ? "" : " not");
}

static void show(const char *what, const struct journal *j)
{
    printf("%s\n", what);
    show_answer(j);
}

int main(int argc, char **argv)
{
    uint8_t image[16384];
    FILE *f = argc == 2 ? fopen(argv[1], "rb") : NULL;
    if (!f) {
        fprintf(stderr, "usage: broker examples/story.img\n");
        return 2;
    }
    size_t len = fread(image, 1, sizeof image, f);
    fclose(f);

    struct chaffwheel_stores m;
    machine_init(&m, 1);

    struct journal first = whole_rule(&m, image, len, 41, 1000000);
    printf("the rule is checked and installed: its greatest height is %" PRIu32 "\n", m.heights[0]);
    show("the rule as it was written, from 41", &first);

    int by_day = refused_by_day(&m);

    struct journal rest = rest_of_rule(&m, first.after, 1000000);
    show("the rest, mended, on the same machine: right, this run has nothing to count", &rest);

    bring(image, 2, 2); /* the mended rule: homes is 2 */
    struct journal once = whole_rule(&m, image, len, first.before, 1000000);
    show("mended, the whole rule from the last result BEFORE the fault: right", &once);

    struct journal twice = whole_rule(&m, image, len, first.after, 1000000);
    show("mended, the whole rule from the last result AFTER the fault: wrong, it counts twice", &twice);

    struct journal again = whole_rule(&m, image, len, 41, 5);
    show("the mended rule with 5 units: its one Return is that of the number brought", &again);

    printf("the mended rule in parts of 4 units, the operator answered between them\n");
    struct journal parts = whole_rule_in_parts(&m, image, len, 41, 4, 12);
    show_answer(&parts);

    printf("the same, abandoned when 4 units were given\n");
    struct journal given_up = whole_rule_in_parts(&m, image, len, 41, 4, 4);
    show_answer(&given_up);

    struct journal passed = jump_rule(&m, 2);
    show("a rule that jumps, with 2 units: main is at the place of a Return that never ran", &passed);

    struct journal jumped = jump_rule(&m, 4);
    show("the same on a new machine, with 4 units", &jumped);

    uint32_t refused = show_call_rule(&m);
    refused = refused ? refused : show_list_rule(&m);

    machine_free(&m);
    int story = counted(&first) && first.after == 42 && !counted(&rest) && rest.after == 42 && counted(&once) && once.after == 42
        && counted(&twice) && twice.after == 43 && !counted(&again) && again.after == 41;
    int dealt = counted(&parts) && parts.spent == once.spent && parts.after == 42 && !counted(&given_up) && given_up.fault == 13 && given_up.spent == 4;
    int jump = passed.place == 4 && passed.returns == 0 && !counted(&passed) && jumped.returns == 1 && counted(&jumped) && jumped.after == 1;
    return !refused && by_day && story && dealt && jump ? 0 : 1;
}
