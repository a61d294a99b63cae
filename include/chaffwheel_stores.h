/* The stores of a machine in one struct, which the host fills once, and every function of chaffwheel.h over it: cw_X(m, ..) is chaffwheel_X with
 * m's stores lent. Each call is one line that lends; nothing is kept or judged here, and none of it is proved. What a function does and refuses
 * stands at chaffwheel_X. Every cw_ function leaves what it tells in m->answer.
 *
 * cw_stores_from lays the stores into one block of memory of the host's. A host that wants other sizes starts from a struct of zeros, sets each
 * pointer to memory of its own that it has written, and each _len to the count of its elements (words, bytes or frames, not places):
 * docs/EMBEDDING.md, "What the host lends". Then cw_new, cw_load or cw_check makes the machine: they find
 * the record all zeros, as it is to be before its first use. heights is lent to cw_check alone: a host that does not call it leaves it as it is. */
#ifndef CHAFFWHEEL_STORES_H
#define CHAFFWHEEL_STORES_H

#include <string.h>
#include "chaffwheel.h"

#define CHAFFWHEEL_STORE(type, name) type *name; size_t name##_len

struct chaffwheel_stores {
    uint64_t vm[CHAFFWHEEL_VM];
    uint64_t answer[CHAFFWHEEL_ANSWER];
    /* the program */
    CHAFFWHEEL_STORE(uint64_t, constants);
    CHAFFWHEEL_STORE(uint64_t, structs); /* two words to a struct, like constants and functions */
    CHAFFWHEEL_STORE(uint64_t, functions);
    CHAFFWHEEL_STORE(uint8_t, text);
    CHAFFWHEEL_STORE(uint8_t, main_code);
    CHAFFWHEEL_STORE(uint32_t, main_places);
    CHAFFWHEEL_STORE(uint8_t, other_code);
    CHAFFWHEEL_STORE(uint32_t, other_places);
    /* the machine */
    CHAFFWHEEL_STORE(uint64_t, stack);
    CHAFFWHEEL_STORE(uint64_t, cells);
    CHAFFWHEEL_STORE(chaffwheel_frame, frames);
    CHAFFWHEEL_STORE(uint64_t, copy);
    CHAFFWHEEL_STORE(uint64_t, trace); /* CHAFFWHEEL_ENTRY words to a frame */
    /* the check: each function's greatest height */
    CHAFFWHEEL_STORE(uint32_t, heights);
};

/* ---- room for the stores. The runner's sizes, in places; a machine of scale n has n times as many of each. */
enum {
    CW_CONSTANTS = 256, CW_STRUCTS = 256, CW_FUNCTIONS = 256, CW_TEXT = 16384, CW_MAIN_CODE = 8192, CW_OTHER_CODE = 8192,
    CW_STACK = 1024, CW_CELLS = 2048, CW_FRAMES = 256, CW_HEIGHTS = 256
};

/* How many bytes the stores of a machine take; the block is aligned for uint64_t, as calloc's is. */
static inline size_t cw_stores_size(size_t scale)
{
    size_t words = 2 * (CW_CONSTANTS + CW_STRUCTS + CW_FUNCTIONS + 2 * CW_STACK + CW_CELLS) + CHAFFWHEEL_ENTRY * CW_FRAMES;
    size_t places = CW_MAIN_CODE + CW_OTHER_CODE + CW_HEIGHTS;
    size_t bytes = CW_TEXT + CW_MAIN_CODE + CW_OTHER_CODE;
    return scale * (words * sizeof(uint64_t) + CW_FRAMES * sizeof(chaffwheel_frame) + places * sizeof(uint32_t) + bytes);
}

/* Makes stores of that scale of a block of cw_stores_size(scale) bytes that the host has written, with zeros if you like: cw_stores_from(m,
 * calloc(1, cw_stores_size(1)), 1). The block is the host's to free, when m is used no more. */
static inline void cw_stores_from(struct chaffwheel_stores *m, void *block, size_t scale)
{
    uint64_t *words = (uint64_t *)block;
    size_t i;
    for (i = 0; i < CHAFFWHEEL_VM; i++)
        m->vm[i] = 0;
    for (i = 0; i < CHAFFWHEEL_ANSWER; i++)
        m->answer[i] = 0;
#define CW_TAKE(name, from, count) (m->name = (from), m->name##_len = (count) * scale)
    CW_TAKE(constants, words, 2 * CW_CONSTANTS);
    CW_TAKE(structs, m->constants + m->constants_len, 2 * CW_STRUCTS);
    CW_TAKE(functions, m->structs + m->structs_len, 2 * CW_FUNCTIONS);
    CW_TAKE(stack, m->functions + m->functions_len, 2 * CW_STACK);
    CW_TAKE(copy, m->stack + m->stack_len, 2 * CW_STACK);
    CW_TAKE(cells, m->copy + m->copy_len, 2 * CW_CELLS);
    CW_TAKE(trace, m->cells + m->cells_len, CHAFFWHEEL_ENTRY * CW_FRAMES);
    CW_TAKE(frames, (chaffwheel_frame *)(void *)(m->trace + m->trace_len), CW_FRAMES);
    CW_TAKE(main_places, (uint32_t *)(void *)(m->frames + m->frames_len), CW_MAIN_CODE);
    CW_TAKE(other_places, m->main_places + m->main_places_len, CW_OTHER_CODE);
    CW_TAKE(heights, m->other_places + m->other_places_len, CW_HEIGHTS);
    CW_TAKE(text, (uint8_t *)(void *)(m->heights + m->heights_len), CW_TEXT);
    CW_TAKE(main_code, m->text + m->text_len, CW_MAIN_CODE);
    CW_TAKE(other_code, m->main_code + m->main_code_len, CW_OTHER_CODE);
#undef CW_TAKE
}

#define CW_LEND(name) m->name, m->name##_len
#define CW_VM m->vm, CHAFFWHEEL_VM
#define CW_ANSWER m->answer, CHAFFWHEEL_ANSWER
#define CW_CODE CW_LEND(main_code), CW_LEND(main_places), CW_LEND(other_code), CW_LEND(other_places)
#define CW_PROGRAM CW_LEND(constants), CW_LEND(structs), CW_LEND(functions), CW_LEND(text), CW_CODE

/* ---- making a machine, and running it */

static inline uint32_t cw_new(struct chaffwheel_stores *m)
{
    return chaffwheel_new(CW_VM, CW_LEND(functions), CW_LEND(text), CW_LEND(frames), CW_ANSWER);
}

static inline uint32_t cw_load(struct chaffwheel_stores *m, CHAFFWHEEL_SLICE(const uint8_t, image))
{
    return chaffwheel_load(image, image_len, CW_VM, CW_PROGRAM, CW_LEND(frames), CW_ANSWER);
}

static inline uint32_t cw_check(struct chaffwheel_stores *m, CHAFFWHEEL_SLICE(const uint8_t, image))
{
    return chaffwheel_check(image, image_len, CW_VM, CW_PROGRAM, CW_LEND(frames), CW_LEND(heights), CW_ANSWER);
}

static inline uint32_t cw_set_strict(struct chaffwheel_stores *m, bool strict)
{
    return chaffwheel_set_strict(strict, CW_VM, CW_PROGRAM, CW_LEND(stack), CW_LEND(cells), CW_LEND(frames), CW_LEND(copy));
}

static inline uint32_t cw_begin(struct chaffwheel_stores *m)
{
    return chaffwheel_begin(CW_VM, CW_PROGRAM, CW_LEND(stack), CW_LEND(cells), CW_LEND(frames), CW_LEND(copy), CW_ANSWER);
}

static inline uint32_t cw_continue(struct chaffwheel_stores *m, uint64_t units)
{
    return chaffwheel_continue(units, CW_VM, CW_PROGRAM, CW_LEND(stack), CW_LEND(cells), CW_LEND(frames), CW_LEND(copy), CW_LEND(trace), CW_ANSWER);
}

static inline uint32_t cw_abandon(struct chaffwheel_stores *m)
{
    return chaffwheel_abandon(CW_VM, CW_PROGRAM, CW_LEND(stack), CW_LEND(cells), CW_LEND(frames), CW_LEND(copy), CW_LEND(trace), CW_ANSWER);
}

/* Whether a run is under way: it is to be given more units, or abandoned. */
static inline bool cw_is_under_way(const struct chaffwheel_stores *m)
{
    return m->vm[CHAFFWHEEL_RUN_ON] != 0;
}

/* A whole run, for a host that has nothing to do between its parts: begun, continued once with these units, and abandoned where it is then paused. The
 * answer is the last call's. Refused as the first of the three that is; behind the beginning the run is then under way. */
static inline uint32_t cw_whole_run(struct chaffwheel_stores *m, uint64_t units)
{
    uint32_t refused = cw_begin(m);
    if (!refused && m->answer[CHAFFWHEEL_OUTCOME] == CHAFFWHEEL_PAUSED)
        refused = cw_continue(m, units);
    if (!refused && m->answer[CHAFFWHEEL_OUTCOME] == CHAFFWHEEL_PAUSED)
        refused = cw_abandon(m);
    return refused;
}

/* ---- the same rule for many readings: what a host may write between runs (docs/EMBEDDING.md, "Many readings"). These two are the host's own
 * writes, and no calls: the next run judges what it is lent, whatever was written. While a run is under way nothing that is lent may be altered: both
 * are then false, and write nothing. */

/* Puts the machine back to the start of main, with an empty stack. The last result stays: it is what the rule counted so far; and so does the setting
 * (cw_set_strict). The cells are free
 * again unless the last result is a list or struct, which lies in them. */
static inline bool cw_rewind(struct chaffwheel_stores *m)
{
    if (cw_is_under_way(m))
        return false;
    m->vm[CHAFFWHEEL_STACK] = 0;
    m->vm[CHAFFWHEEL_FRAMES] = 1;
    m->frames[0].function = 0;
    m->frames[0].position = 0;
    m->frames[0].base = 0;
    m->frames[0].entered = 0;
    if (m->vm[CHAFFWHEEL_LAST_KIND] != CHAFFWHEEL_LIST && m->vm[CHAFFWHEEL_LAST_KIND] != CHAFFWHEEL_STRUCT)
        m->vm[CHAFFWHEEL_CELLS] = 0;
    return true;
}

/* A number as its 64 bits, and back. */
static inline uint64_t cw_bits_of(double number)
{
    uint64_t bits;
    memcpy(&bits, &number, sizeof bits);
    return bits;
}

static inline double cw_number_of(uint64_t bits)
{
    double number;
    memcpy(&number, &bits, sizeof number);
    return number;
}

/* Makes constant i the number of these 64 bits; false too if the program has no such constant, and then nothing is written. */
static inline bool cw_set_scalar(struct chaffwheel_stores *m, size_t i, uint64_t bits)
{
    if (cw_is_under_way(m) || i >= m->vm[CHAFFWHEEL_CONSTANTS] || i >= m->constants_len / 2)
        return false;
    m->constants[2 * i] = CHAFFWHEEL_SCALAR;
    m->constants[2 * i + 1] = bits;
    return true;
}

/* the backtrace goes to m->trace */
static inline uint32_t cw_backtrace(struct chaffwheel_stores *m)
{
    return chaffwheel_backtrace(CW_VM, CW_LEND(functions), CW_LEND(text), CW_CODE, CW_LEND(stack), CW_LEND(frames), CW_LEND(trace), CW_ANSWER);
}

static inline uint32_t cw_save(struct chaffwheel_stores *m, CHAFFWHEEL_SLICE(uint8_t, out))
{
    return chaffwheel_save(CW_VM, CW_PROGRAM, out, out_len, CW_ANSWER);
}

static inline uint32_t cw_disassemble(struct chaffwheel_stores *m, CHAFFWHEEL_SLICE(uint8_t, out))
{
    return chaffwheel_disassemble(CW_VM, CW_LEND(functions), CW_LEND(text), CW_LEND(main_code), CW_LEND(other_code), out, out_len, CW_ANSWER);
}

/* ---- readers */

static inline uint32_t cw_last_result(struct chaffwheel_stores *m)
{
    return chaffwheel_last_result(CW_VM, CW_ANSWER);
}

static inline uint32_t cw_stack_value(struct chaffwheel_stores *m, size_t i)
{
    return chaffwheel_stack_value(CW_VM, i, CW_LEND(stack), CW_ANSWER);
}

static inline uint32_t cw_block_header(struct chaffwheel_stores *m, uint64_t kind, uint64_t payload)
{
    return chaffwheel_block_header(CW_VM, kind, payload, CW_LEND(cells), CW_ANSWER);
}

static inline uint32_t cw_element(struct chaffwheel_stores *m, uint64_t kind, uint64_t payload, size_t i)
{
    return chaffwheel_element(CW_VM, kind, payload, i, CW_LEND(cells), CW_ANSWER);
}

static inline uint32_t cw_text(struct chaffwheel_stores *m, uint64_t kind, uint64_t payload, CHAFFWHEEL_SLICE(uint8_t, out))
{
    return chaffwheel_text(CW_VM, kind, payload, CW_LEND(text), out, out_len, CW_ANSWER);
}

/* ---- emission */

static inline uint32_t cw_add_op(struct chaffwheel_stores *m, uint8_t op, uint32_t place)
{
    return chaffwheel_add_op(CW_VM, op, place, CW_LEND(functions), CW_CODE, CW_ANSWER);
}

static inline uint32_t cw_add_op1(struct chaffwheel_stores *m, uint8_t op, uint16_t a, uint32_t place)
{
    return chaffwheel_add_op1(CW_VM, op, a, place, CW_LEND(functions), CW_CODE, CW_ANSWER);
}

static inline uint32_t cw_add_op2(struct chaffwheel_stores *m, uint8_t op, uint16_t a, uint16_t b, uint32_t place)
{
    return chaffwheel_add_op2(CW_VM, op, a, b, place, CW_LEND(functions), CW_CODE, CW_ANSWER);
}

static inline uint32_t cw_add_op3(struct chaffwheel_stores *m, uint8_t op, uint16_t a, uint16_t b, uint16_t d, uint32_t place)
{
    return chaffwheel_add_op3(CW_VM, op, a, b, d, place, CW_LEND(functions), CW_CODE, CW_ANSWER);
}

static inline uint32_t cw_current_offset(struct chaffwheel_stores *m)
{
    return chaffwheel_current_offset(CW_VM, CW_LEND(functions), CW_ANSWER);
}

static inline uint32_t cw_patch_u16_value_at(struct chaffwheel_stores *m, uint16_t offset, uint16_t arg)
{
    return chaffwheel_patch_u16_value_at(CW_VM, offset, arg, CW_LEND(functions), CW_LEND(main_code), CW_LEND(other_code), CW_ANSWER);
}

static inline uint32_t cw_add_scalar(struct chaffwheel_stores *m, uint64_t bits)
{
    return chaffwheel_add_scalar(CW_VM, bits, CW_LEND(constants), CW_LEND(text), CW_ANSWER);
}

static inline uint32_t cw_add_boolean(struct chaffwheel_stores *m, bool value)
{
    return chaffwheel_add_boolean(CW_VM, value, CW_LEND(constants), CW_LEND(text), CW_ANSWER);
}

static inline uint32_t cw_add_string(struct chaffwheel_stores *m, CHAFFWHEEL_SLICE(const uint8_t, bytes))
{
    return chaffwheel_add_string(CW_VM, bytes, bytes_len, CW_LEND(constants), CW_LEND(text), CW_ANSWER);
}

static inline uint32_t cw_add_reference(struct chaffwheel_stores *m, CHAFFWHEEL_SLICE(const uint8_t, name))
{
    return chaffwheel_add_reference(CW_VM, name, name_len, CW_LEND(constants), CW_LEND(text), CW_ANSWER);
}

static inline uint32_t cw_add_struct_info(struct chaffwheel_stores *m, CHAFFWHEEL_SLICE(const uint8_t, name))
{
    return chaffwheel_add_struct_info(CW_VM, name, name_len, CW_LEND(structs), CW_LEND(text), CW_ANSWER);
}

static inline uint32_t cw_begin_function(struct chaffwheel_stores *m, CHAFFWHEEL_SLICE(const uint8_t, name))
{
    return chaffwheel_begin_function(CW_VM, name, name_len, CW_LEND(functions), CW_LEND(text), CW_ANSWER);
}

static inline uint32_t cw_end_function(struct chaffwheel_stores *m)
{
    return chaffwheel_end_function(CW_VM, CW_ANSWER);
}

static inline uint32_t cw_get_function_idx(struct chaffwheel_stores *m, CHAFFWHEEL_SLICE(const uint8_t, name))
{
    return chaffwheel_get_function_idx(CW_VM, name, name_len, CW_LEND(functions), CW_LEND(text), CW_ANSWER);
}

#undef CW_LEND
#undef CW_VM
#undef CW_ANSWER
#undef CW_CODE
#undef CW_PROGRAM

#endif
