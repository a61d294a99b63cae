/* Chaffwheel for a host in C: a machine over stores that the host lends. C99; C++ may include it too.
 *
 * The functions are those of crates/embed; each is proved to meet its contract there. docs/EMBEDDING.md shows how a broker uses them, and what
 * this boundary assumes. The library allocates nothing, keeps nothing between calls, and holds no pointer after a call has returned: all
 * stores are the host's. chaffwheel_stores.h gathers them in a struct and lends them, so that a call is `cw_continue(m, units)`.
 *
 * A rule is run in parts: chaffwheel_begin copies the stack, chaffwheel_continue gives units and goes on, as often as the host likes, and
 * chaffwheel_abandon ends a run that nobody will wait for. While a run is under way its program stays as it is: what would change it is refused 25.
 *
 * Each function returns CHAFFWHEEL_OK, or the number of its refusal (the names are below). A refusal changes no store; only 20 writes its offset
 * to answer[0], and 40 the rule and the function to answer[0] and answer[1].
 *
 * Their order, at all but chaffwheel_new, chaffwheel_load and chaffwheel_check: 19 where vm has fewer than 17 words, its last result is not exactly the words of a
 * value or of none, its word CHAFFWHEEL_RUN_ON or CHAFFWHEEL_STRICT is neither 0 nor 1, or a value that is handed in is not exactly the words of a value; then
 * the function's own 19; then 18 or 25, at the functions that tell them; then 17 where answer has fewer words than the function tells; then the other
 * refusals that stand at the function, in order. At chaffwheel_disassemble 1 or 3 come before that 17 too. The library judges what it is lent, in time linear in what is
 * taken, the bytes of struct names counted once for each name (docs/EMBEDDING.md, "What it costs"); a reader judges what it reads and nothing else.
 */
#ifndef CHAFFWHEEL_H
#define CHAFFWHEEL_H

#include <stdbool.h>
#include <stddef.h>
#include <stdint.h>

#ifdef __cplusplus
extern "C" {
#endif

/* The version: the last of the three moves with each change, the first where a host has to be changed. */
#define CHAFFWHEEL_VERSION_MAJOR 0
#define CHAFFWHEEL_VERSION_MINOR 6
#define CHAFFWHEEL_VERSION_PATCH 0
#define CHAFFWHEEL_VERSION (CHAFFWHEEL_VERSION_MAJOR * 10000 + CHAFFWHEEL_VERSION_MINOR * 100 + CHAFFWHEEL_VERSION_PATCH)

/* A lent slice: a pointer and a count of elements, as two arguments. The count must be true. `const`: it is only read. */
#define CHAFFWHEEL_SLICE(type, name) type *name, size_t name##_len

/* A call frame. Frames stand in their store with the root first. `entered` is how many units the run had spent when the frame was entered, the Call's own
 * included: 0 in the root, and in every frame that stands when a run is begun. */
typedef struct chaffwheel_frame {
    uint64_t function;
    uint64_t position;
    uint64_t base;
    uint64_t entered;
} chaffwheel_frame;

/* A machine's record, in words: how much of each store is taken, the last result, the run that is under way, and whether the machine is strict. The host
 * keeps it between calls.
 * BEFORE ITS FIRST USE IT IS ALL ZEROS: chaffwheel_new, chaffwheel_load and chaffwheel_check look whether a run is under way in it (25). Where none is,
 * the words of the run are all 0. */
enum {
    CHAFFWHEEL_CONSTANTS = 0,
    CHAFFWHEEL_STRUCTS = 1,
    CHAFFWHEEL_FUNCTIONS = 2,
    CHAFFWHEEL_TEXT = 3,
    CHAFFWHEEL_CURRENT = 4,      /* the function that is being emitted: 0, or the newest */
    CHAFFWHEEL_STACK = 5,
    CHAFFWHEEL_FRAMES = 6,
    CHAFFWHEEL_CELLS = 7,
    CHAFFWHEEL_LAST_KIND = 8,    /* CHAFFWHEEL_NONE: no last result */
    CHAFFWHEEL_LAST_PAYLOAD = 9,
    CHAFFWHEEL_RUN_ON = 10,      /* 1: a run is under way; else 0 */
    CHAFFWHEEL_RUN_GIVEN = 11,   /* the units that it was given in all */
    CHAFFWHEEL_RUN_SPENT = 12,   /* those that it has spent: at most as many */
    CHAFFWHEEL_RUN_RETURNS = 13, /* the root Returns that it has completed */
    CHAFFWHEEL_RUN_MARK = 14,    /* the cells that were taken at the last of them, or at its start */
    CHAFFWHEEL_RUN_SAVED = 15,   /* the values that stand in the copy of its starting stack */
    CHAFFWHEEL_STRICT = 16,      /* 1: arithmetic that leaves the finite numbers is fault 26; else 0, as a machine is made */
    CHAFFWHEEL_VM = 17           /* words of a record */
};

/* The kind of a value, and what its payload is. */
enum {
    CHAFFWHEEL_SCALAR = 0,       /* the 64 bits of a double; of any NaN 7FF8000000000000 */
    CHAFFWHEEL_BOOLEAN = 1,      /* 0 or 1 */
    CHAFFWHEEL_STRING = 2,       /* where its text starts, and 2^32 times its length */
    CHAFFWHEEL_REFERENCE = 3,    /* likewise: a function's name */
    CHAFFWHEEL_LIST = 4,         /* its header's cell */
    CHAFFWHEEL_STRUCT = 5,       /* its header's cell */
    CHAFFWHEEL_NONE = 7          /* of a last result: there is none; the payload is 0 */
};

/* What a part of a run answers, in words: beginning, continuing and abandoning alike. */
enum {
    CHAFFWHEEL_OUTCOME = 0,      /* one of the four below */
    CHAFFWHEEL_SPENT = 1,        /* units, of the whole run; so far, with CHAFFWHEEL_PAUSED */
    CHAFFWHEEL_RETURNS = 2,      /* root Returns that the run completed, likewise. 0: NOTHING HAS COUNTED */
    /* with CHAFFWHEEL_VALUE; both are 0 with CHAFFWHEEL_CONTINUE and CHAFFWHEEL_PAUSED */
    CHAFFWHEEL_KIND = 3,
    CHAFFWHEEL_PAYLOAD = 4,
    /* with CHAFFWHEEL_FAULT: the same words */
    CHAFFWHEEL_FAULT_NUMBER = 3, /* 1 to 14, or 26 */
    CHAFFWHEEL_TRACE_LENGTH = 4, /* the entries of its backtrace */
    CHAFFWHEEL_ANSWER = 5        /* words of an answer: enough for every function */
};
/* The first three end the run. The fourth: its units do not reach, and it is under way; give it more, or abandon it. */
enum { CHAFFWHEEL_VALUE = 1, CHAFFWHEEL_CONTINUE = 2, CHAFFWHEEL_FAULT = 3, CHAFFWHEEL_PAUSED = 4 };

/* An entry of a backtrace, in words: a frame's function, its place, and how many units the run had spent when it was entered. The innermost frame is the
 * first entry, main's the last. */
enum {
    CHAFFWHEEL_ENTRY_FUNCTION = 0,
    CHAFFWHEEL_ENTRY_PLACE = 1,
    CHAFFWHEEL_ENTRY_ENTERED = 2,
    CHAFFWHEEL_ENTRY = 3         /* words of an entry */
};

/* What the other functions answer, in words: a value that is shown; the header of a list or struct; and in the first word alone how many bytes or
 * entries were written, the number of what was emitted, or of a refusal 20 its offset. */
enum { CHAFFWHEEL_SHOWN_KIND = 0, CHAFFWHEEL_SHOWN_PAYLOAD = 1 };
enum { CHAFFWHEEL_HEADER_COUNT = 0, CHAFFWHEEL_HEADER_STRUCT = 1, CHAFFWHEEL_HEADER_DEPTH = 2 };
enum { CHAFFWHEEL_TOLD = 0 };

/* The numbers that come back: of a fault (1 to 14, and 26), and of a refusal. docs/NUMBERS.md says what to do about each. */
enum {
    CHAFFWHEEL_OK = 0,
    CHAFFWHEEL_UNKNOWN_OPCODE = 1,
    CHAFFWHEEL_NOT_CARRIED = 2,
    CHAFFWHEEL_CODE_CUT = 3,
    CHAFFWHEEL_TOO_FEW_VALUES = 4,
    CHAFFWHEEL_WRONG_KIND = 5,
    CHAFFWHEEL_OUT_OF_RANGE = 6,
    CHAFFWHEEL_NO_LAST_RESULT = 7,
    CHAFFWHEEL_ZERO_DIVISOR = 8,
    CHAFFWHEEL_STACK_FULL = 9,
    CHAFFWHEEL_FRAMES_FULL = 10,
    CHAFFWHEEL_CELLS_FULL = 11,
    CHAFFWHEEL_TOO_DEEP = 12,
    CHAFFWHEEL_UNITS_SPENT = 13,
    CHAFFWHEEL_NO_FUNCTION = 14,
    CHAFFWHEEL_NO_PLACE = 16,
    CHAFFWHEEL_STORE_SHORT = 17,
    CHAFFWHEEL_NO_RUN = 18,
    CHAFFWHEEL_NOT_IN_ORDER = 19,
    CHAFFWHEEL_BROKEN_IMAGE = 20,
    CHAFFWHEEL_NO_ROOM = 21,
    CHAFFWHEEL_LIMIT = 22,
    CHAFFWHEEL_PATCH_OUTSIDE = 23,
    CHAFFWHEEL_UNDER_WAY = 25,
    CHAFFWHEEL_NOT_FINITE = 26,
    CHAFFWHEEL_NOT_PASSED = 40
};

/* What a number means, in a sentence; the same as docs/NUMBERS.md has, and not proved. */
static inline const char *chaffwheel_text_of_number(uint64_t number)
{
    switch (number) {
    case CHAFFWHEEL_OK: return "nothing is wrong";
    case CHAFFWHEEL_UNKNOWN_OPCODE: return "the code has a byte that is no opcode";
    case CHAFFWHEEL_NOT_CARRIED: return "the code has an opcode that this machine does not carry";
    case CHAFFWHEEL_CODE_CUT: return "the code ends inside an instruction";
    case CHAFFWHEEL_TOO_FEW_VALUES: return "an instruction found too few values on the stack";
    case CHAFFWHEEL_WRONG_KIND: return "a value has the wrong kind: a number was wanted and a text was there, or the like";
    case CHAFFWHEEL_OUT_OF_RANGE: return "a number asks for something that is not there: a constant, a slot, a function, a struct, a field, an element";
    case CHAFFWHEEL_NO_LAST_RESULT: return "there is no last result";
    case CHAFFWHEEL_ZERO_DIVISOR: return "a division by zero";
    case CHAFFWHEEL_STACK_FULL: return "the stack is full";
    case CHAFFWHEEL_FRAMES_FULL: return "the call frames are full";
    case CHAFFWHEEL_CELLS_FULL: return "the cells for lists and structs are full";
    case CHAFFWHEEL_TOO_DEEP: return "a list or struct is nested deeper than 64";
    case CHAFFWHEEL_UNITS_SPENT: return "the units are spent";
    case CHAFFWHEEL_NO_FUNCTION: return "no function has that name";
    case CHAFFWHEEL_NO_PLACE: return "a frame stands outside its code, so that it has no place";
    case CHAFFWHEEL_STORE_SHORT: return "a store that was lent for a result or a copy is too short";
    case CHAFFWHEEL_NO_RUN: return "no run is under way that could be continued or abandoned";
    case CHAFFWHEEL_NOT_IN_ORDER: return "the machine's records are not in good order";
    case CHAFFWHEEL_BROKEN_IMAGE: return "the image breaks a rule of its format";
    case CHAFFWHEEL_NO_ROOM: return "a store has too little room for the program";
    case CHAFFWHEEL_LIMIT: return "a limit would be exceeded";
    case CHAFFWHEEL_PATCH_OUTSIDE: return "a patch lies outside the code of the current function";
    case CHAFFWHEEL_UNDER_WAY: return "a run is under way, and until it is over the program stays and no other is begun";
    case CHAFFWHEEL_NOT_FINITE: return "on a strict machine finite numbers gave a result that is not finite";
    case CHAFFWHEEL_NOT_PASSED: return "the rule does not pass the check";
    default: return "a number that does not come back";
    }
}

/* The opcodes, for emission; those that are not carried can be emitted and listed, and are fault 2 in a run. */
enum {
    CHAFFWHEEL_OP_LOAD_CONSTANT = 0,
    CHAFFWHEEL_OP_APPLY_PREFIX = 1, /* not carried */
    CHAFFWHEEL_OP_SET_UNIT_CONSTANT = 2, /* not carried */
    CHAFFWHEEL_OP_GET_LOCAL = 3,
    CHAFFWHEEL_OP_GET_UPVALUE = 4,
    CHAFFWHEEL_OP_GET_LAST_RESULT = 5,
    CHAFFWHEEL_OP_NEGATE = 6,
    CHAFFWHEEL_OP_FACTORIAL = 7, /* not carried */
    CHAFFWHEEL_OP_ADD = 8,
    CHAFFWHEEL_OP_SUBTRACT = 9,
    CHAFFWHEEL_OP_MULTIPLY = 10,
    CHAFFWHEEL_OP_DIVIDE = 11,
    CHAFFWHEEL_OP_POWER = 12, /* not carried */
    CHAFFWHEEL_OP_CONVERT_TO = 13, /* not carried */
    CHAFFWHEEL_OP_LESS_THAN = 14,
    CHAFFWHEEL_OP_GREATER_THAN = 15,
    CHAFFWHEEL_OP_LESS_OR_EQUAL = 16,
    CHAFFWHEEL_OP_GREATOR_OR_EQUAL = 17,
    CHAFFWHEEL_OP_EQUAL = 18,
    CHAFFWHEEL_OP_NOT_EQUAL = 19,
    CHAFFWHEEL_OP_LOGICAL_AND = 20,
    CHAFFWHEEL_OP_LOGICAL_OR = 21,
    CHAFFWHEEL_OP_LOGICAL_NEG = 22,
    CHAFFWHEEL_OP_ADD_DATETIME = 23, /* not carried */
    CHAFFWHEEL_OP_SUB_DATETIME = 24, /* not carried */
    CHAFFWHEEL_OP_DIFF_DATETIME = 25, /* not carried */
    CHAFFWHEEL_OP_JUMP_IF_FALSE = 26,
    CHAFFWHEEL_OP_JUMP = 27,
    CHAFFWHEEL_OP_CALL = 28,
    CHAFFWHEEL_OP_FFI_CALL_FUNCTION = 29, /* not carried */
    CHAFFWHEEL_OP_FFI_CALL_PROCEDURE = 30, /* not carried */
    CHAFFWHEEL_OP_CALL_CALLABLE = 31,
    CHAFFWHEEL_OP_PRINT_STRING = 32, /* not carried */
    CHAFFWHEEL_OP_JOIN_STRING = 33, /* not carried */
    CHAFFWHEEL_OP_BUILD_STRUCT_INSTANCE = 34,
    CHAFFWHEEL_OP_ACCESS_STRUCT_FIELD = 35,
    CHAFFWHEEL_OP_BUILD_LIST = 36,
    CHAFFWHEEL_OP_RETURN = 37
};

/* ---- making a machine, and running it */

/* Makes a machine over a new program: function 0, <main>, with no code. Writes vm, functions, text, and frames[0].
 * Refused 25: vm has 17 words or more and a run is under way in it. 17: vm has fewer than 17 words, or answer none. 21: the text store has fewer than 6
 * bytes, the function store no place, or the frame store none. */
uint32_t chaffwheel_new(
    CHAFFWHEEL_SLICE(uint64_t, vm), CHAFFWHEEL_SLICE(uint64_t, functions), CHAFFWHEEL_SLICE(uint8_t, text),
    CHAFFWHEEL_SLICE(chaffwheel_frame, frames), CHAFFWHEEL_SLICE(uint64_t, answer));

/* Makes a machine over the program of an image: an empty stack, no last result, one frame, at the start of main. Writes vm, the program's stores and
 * frames[0].
 * Refused 25, before all else: vm has 17 words or more and a run is under way in it. 20: the image breaks a rule; answer[0], where there is one, is the
 * offset of the first item that does. 17: vm has fewer than 17 words, or answer none. 22: a limit. 21: a store is too small for the program, or the
 * frame store has no place. */
uint32_t chaffwheel_load(
    CHAFFWHEEL_SLICE(const uint8_t, image), CHAFFWHEEL_SLICE(uint64_t, vm),
    CHAFFWHEEL_SLICE(uint64_t, constants), CHAFFWHEEL_SLICE(uint64_t, structs), CHAFFWHEEL_SLICE(uint64_t, functions),
    CHAFFWHEEL_SLICE(uint8_t, text), CHAFFWHEEL_SLICE(uint8_t, main_code), CHAFFWHEEL_SLICE(uint32_t, main_places),
    CHAFFWHEEL_SLICE(uint8_t, other_code), CHAFFWHEEL_SLICE(uint32_t, other_places),
    CHAFFWHEEL_SLICE(chaffwheel_frame, frames), CHAFFWHEEL_SLICE(uint64_t, answer));

/* Checks an image before its rule is installed, and makes a machine over its program, as chaffwheel_load does, if it keeps the six rules of
 * docs/RULES.md ("The check"). Writes vm, the program's stores and frames[0], and to heights[f] the greatest height of each function f: so many
 * values a frame of it has on the stack at most. On that machine, whatever the units, faults 1 to 4 and 14 never come, and 6 only from GetUpvalue or
 * a field.
 * Refused 25, before all else: vm has 17 words or more and a run is under way in it. 20: the bytes are no image; answer[0], where there is one, is the
 * offset of the first item that breaks a rule of the format. 17: vm has fewer than 17 words, answer fewer than 2, or heights fewer than there are
 * functions. 22: a limit. 21: a store is too small for the program, or the frame store has no place. 40: a rule of the check is broken;
 * answer[CHAFFWHEEL_RULE] is the first, 1 to 6, answer[CHAFFWHEEL_FUNCTION] the lowest function that breaks it (of rule 4 the one that is called). A
 * refused image leaves the machine that is there as it is. */
enum { CHAFFWHEEL_RULE = 0, CHAFFWHEEL_FUNCTION = 1 };
uint32_t chaffwheel_check(
    CHAFFWHEEL_SLICE(const uint8_t, image), CHAFFWHEEL_SLICE(uint64_t, vm),
    CHAFFWHEEL_SLICE(uint64_t, constants), CHAFFWHEEL_SLICE(uint64_t, structs), CHAFFWHEEL_SLICE(uint64_t, functions),
    CHAFFWHEEL_SLICE(uint8_t, text), CHAFFWHEEL_SLICE(uint8_t, main_code), CHAFFWHEEL_SLICE(uint32_t, main_places),
    CHAFFWHEEL_SLICE(uint8_t, other_code), CHAFFWHEEL_SLICE(uint32_t, other_places),
    CHAFFWHEEL_SLICE(chaffwheel_frame, frames), CHAFFWHEEL_SLICE(uint32_t, heights), CHAFFWHEEL_SLICE(uint64_t, answer));

/* Makes the machine strict, or not strict. On a strict machine Add, Subtract, Multiply and Divide fault 26 where both operands are finite and the result
 * is not; on one that is not strict they go on with infinity or NaN, as binary64 has it. A machine is not strict as it is made, loaded or checked; runs,
 * faults and abandoning leave the setting as it is. Writes the word CHAFFWHEEL_STRICT of vm, and nothing else; it tells nothing, and so has no answer.
 * Refused 19: the program, the machine or the run is not in good order. 25: a run is under way, whatever the setting is. */
uint32_t chaffwheel_set_strict(
    bool strict, CHAFFWHEEL_SLICE(uint64_t, vm),
    CHAFFWHEEL_SLICE(const uint64_t, constants), CHAFFWHEEL_SLICE(const uint64_t, structs), CHAFFWHEEL_SLICE(const uint64_t, functions),
    CHAFFWHEEL_SLICE(const uint8_t, text), CHAFFWHEEL_SLICE(const uint8_t, main_code), CHAFFWHEEL_SLICE(const uint32_t, main_places),
    CHAFFWHEEL_SLICE(const uint8_t, other_code), CHAFFWHEEL_SLICE(const uint32_t, other_places),
    CHAFFWHEEL_SLICE(const uint64_t, stack), CHAFFWHEEL_SLICE(const uint64_t, cells), CHAFFWHEEL_SLICE(const chaffwheel_frame, frames),
    CHAFFWHEEL_SLICE(const uint64_t, copy));

/* Begins a run of the machine of vm, where it stands. It reads the program's stores, stack, cells and frames, writes the starting stack to the front of
 * copy, 0 to `entered` of each frame that is taken, the machine as it then is to vm, and the answer, and takes no units. A run that stands at or past the
 * end of its code is over at once: CHAFFWHEEL_CONTINUE, 0 units, and the last result stays. Every other is then under way, CHAFFWHEEL_PAUSED, and until it
 * is over the host alters nothing that it lends, the copy among it, and hands back the record that it got last.
 * answer has 5 words. Refused 19: the program or the machine is not in good order. 25: a run is under way. 17: answer is shorter, or copy has fewer
 * places than stack. */
uint32_t chaffwheel_begin(
    CHAFFWHEEL_SLICE(uint64_t, vm),
    CHAFFWHEEL_SLICE(const uint64_t, constants), CHAFFWHEEL_SLICE(const uint64_t, structs), CHAFFWHEEL_SLICE(const uint64_t, functions),
    CHAFFWHEEL_SLICE(const uint8_t, text), CHAFFWHEEL_SLICE(const uint8_t, main_code), CHAFFWHEEL_SLICE(const uint32_t, main_places),
    CHAFFWHEEL_SLICE(const uint8_t, other_code), CHAFFWHEEL_SLICE(const uint32_t, other_places),
    CHAFFWHEEL_SLICE(const uint64_t, stack), CHAFFWHEEL_SLICE(const uint64_t, cells), CHAFFWHEEL_SLICE(chaffwheel_frame, frames),
    CHAFFWHEEL_SLICE(uint64_t, copy), CHAFFWHEEL_SLICE(uint64_t, answer));

/* Gives the run under way so many units more and goes on with them and those that were left: to its end, to a fault, or to an instruction that cannot
 * be paid for. There it is paused (CHAFFWHEEL_PAUSED) in front of that instruction, of which nothing is done or spent. It writes stack, cells and frames,
 * after a fault the backtrace to the front of trace (CHAFFWHEEL_ENTRY words to an entry, the innermost frame first), the machine as it then is to vm, and the
 * answer. However the units are dealt out, the end is that of one run given their sum. After a fault vm is a machine that can go on: the stack
 * of the start, one frame at the end of main, and the last result of the last root Return that was completed. THE LAST RESULT IS NOT PUT BACK:
 * docs/EMBEDDING.md. Whether the run has counted is told by answer[CHAFFWHEEL_RETURNS] and by nothing else. A place of the backtrace cannot tell it: behind
 * a jump it is the place of code that was passed over.
 * answer has 5 words. Refused 19: the program, the machine or the run is not in good order. 18: no run is under way. 17: answer is shorter, or trace has
 * fewer places than frames. 22: the units given in all would be above 64 bits. Nothing has run then, and a run that was under way still is. */
uint32_t chaffwheel_continue(
    uint64_t units, CHAFFWHEEL_SLICE(uint64_t, vm),
    CHAFFWHEEL_SLICE(const uint64_t, constants), CHAFFWHEEL_SLICE(const uint64_t, structs), CHAFFWHEEL_SLICE(const uint64_t, functions),
    CHAFFWHEEL_SLICE(const uint8_t, text), CHAFFWHEEL_SLICE(const uint8_t, main_code), CHAFFWHEEL_SLICE(const uint32_t, main_places),
    CHAFFWHEEL_SLICE(const uint8_t, other_code), CHAFFWHEEL_SLICE(const uint32_t, other_places),
    CHAFFWHEEL_SLICE(uint64_t, stack), CHAFFWHEEL_SLICE(uint64_t, cells), CHAFFWHEEL_SLICE(chaffwheel_frame, frames),
    CHAFFWHEEL_SLICE(const uint64_t, copy), CHAFFWHEEL_SLICE(uint64_t, trace), CHAFFWHEEL_SLICE(uint64_t, answer));

/* Abandons the run under way: fault 13, with all the units that it was given as spent, the backtrace of one run given as many, and the machine that a
 * fault leaves. Whether it has counted is told by answer[CHAFFWHEEL_RETURNS], as after any fault.
 * answer has 5 words. Refused 19, 18, 17 as chaffwheel_continue is; the run is then still under way. */
uint32_t chaffwheel_abandon(
    CHAFFWHEEL_SLICE(uint64_t, vm),
    CHAFFWHEEL_SLICE(const uint64_t, constants), CHAFFWHEEL_SLICE(const uint64_t, structs), CHAFFWHEEL_SLICE(const uint64_t, functions),
    CHAFFWHEEL_SLICE(const uint8_t, text), CHAFFWHEEL_SLICE(const uint8_t, main_code), CHAFFWHEEL_SLICE(const uint32_t, main_places),
    CHAFFWHEEL_SLICE(const uint8_t, other_code), CHAFFWHEEL_SLICE(const uint32_t, other_places),
    CHAFFWHEEL_SLICE(uint64_t, stack), CHAFFWHEEL_SLICE(const uint64_t, cells), CHAFFWHEEL_SLICE(chaffwheel_frame, frames),
    CHAFFWHEEL_SLICE(const uint64_t, copy), CHAFFWHEEL_SLICE(uint64_t, trace), CHAFFWHEEL_SLICE(uint64_t, answer));

/* The backtrace of the machine's frames, as a fault's; answer[0] is how many entries it has. The stack store is lent for its length alone: a
 * frame's base may not lie past it.
 * Refused 19. 17: answer has no word, or out has fewer places than there are frames. 16: the place of a frame lies outside its code. */
uint32_t chaffwheel_backtrace(
    CHAFFWHEEL_SLICE(const uint64_t, vm), CHAFFWHEEL_SLICE(const uint64_t, functions), CHAFFWHEEL_SLICE(const uint8_t, text),
    CHAFFWHEEL_SLICE(const uint8_t, main_code), CHAFFWHEEL_SLICE(const uint32_t, main_places),
    CHAFFWHEEL_SLICE(const uint8_t, other_code), CHAFFWHEEL_SLICE(const uint32_t, other_places),
    CHAFFWHEEL_SLICE(const uint64_t, stack), CHAFFWHEEL_SLICE(const chaffwheel_frame, frames),
    CHAFFWHEEL_SLICE(uint64_t, out), CHAFFWHEEL_SLICE(uint64_t, answer));

/* The image of the program, to the front of out; answer[0] is its length. Refused 19. 17: answer has no word, or out is too short. */
uint32_t chaffwheel_save(
    CHAFFWHEEL_SLICE(const uint64_t, vm),
    CHAFFWHEEL_SLICE(const uint64_t, constants), CHAFFWHEEL_SLICE(const uint64_t, structs), CHAFFWHEEL_SLICE(const uint64_t, functions),
    CHAFFWHEEL_SLICE(const uint8_t, text), CHAFFWHEEL_SLICE(const uint8_t, main_code), CHAFFWHEEL_SLICE(const uint32_t, main_places),
    CHAFFWHEEL_SLICE(const uint8_t, other_code), CHAFFWHEEL_SLICE(const uint32_t, other_places),
    CHAFFWHEEL_SLICE(uint8_t, out), CHAFFWHEEL_SLICE(uint64_t, answer));

/* The listing of the program, to the front of out; answer[0] is its length. Refused 19, then 1 or 3 as met first. 17: answer has no word, or out is
 * too short. */
uint32_t chaffwheel_disassemble(
    CHAFFWHEEL_SLICE(const uint64_t, vm), CHAFFWHEEL_SLICE(const uint64_t, functions), CHAFFWHEEL_SLICE(const uint8_t, text),
    CHAFFWHEEL_SLICE(const uint8_t, main_code), CHAFFWHEEL_SLICE(const uint8_t, other_code),
    CHAFFWHEEL_SLICE(uint8_t, out), CHAFFWHEEL_SLICE(uint64_t, answer));

/* ---- readers: what a host reads of a machine. A value that is shown is answer[0], its kind, and answer[1], its payload. A value that is handed in
 * is two such words: those of an answer, of the record, or of the stack. Words that are not exactly a value's are refused 19: an unknown kind (so
 * CHAFFWHEEL_NONE too), a boolean other than 0 and 1, another NaN than 7FF8000000000000, bits above a header's cell. An answer that is too short is
 * refused 17, behind every 19 and before the rest. */

/* The last result. answer has 2 words. Refused 17. 7: there is none. */
uint32_t chaffwheel_last_result(CHAFFWHEEL_SLICE(const uint64_t, vm), CHAFFWHEEL_SLICE(uint64_t, answer));

/* The value at place i, from the bottom of the stack. answer has 2 words. Refused 19: the stack that is taken goes past its store, or the place does not
 * hold exactly a value's words. 17. 6: there is no such place. */
uint32_t chaffwheel_stack_value(
    CHAFFWHEEL_SLICE(const uint64_t, vm), size_t i, CHAFFWHEEL_SLICE(const uint64_t, stack), CHAFFWHEEL_SLICE(uint64_t, answer));

/* The header of a list or struct: answer[0] is how many elements it has, answer[1] the struct's number (0 of a list), answer[2] the depth.
 * Refused 19: the cells that are taken go past their store, or the value does not lie in them whole. 17: answer has fewer than 3 words. 5: it is no list
 * or struct. */
uint32_t chaffwheel_block_header(
    CHAFFWHEEL_SLICE(const uint64_t, vm), uint64_t kind, uint64_t payload,
    CHAFFWHEEL_SLICE(const uint64_t, cells), CHAFFWHEEL_SLICE(uint64_t, answer));

/* Element i of a list, or field i of a struct. answer has 2 words. Refused 19: as above, or the element is not exactly a value's words, or does not lie
 * below its header, so that a host that follows elements comes to an end. 17. 5: it is no list or struct. 6: there is no such element. */
uint32_t chaffwheel_element(
    CHAFFWHEEL_SLICE(const uint64_t, vm), uint64_t kind, uint64_t payload, size_t i,
    CHAFFWHEEL_SLICE(const uint64_t, cells), CHAFFWHEEL_SLICE(uint64_t, answer));

/* The bytes of a string or a function reference, to the front of out; answer[0] is how many they are. No byte 0 is put behind them.
 * Refused 19: the text that is taken goes past its store, or the value's text past the text that is taken. 17: answer has no word, or out
 * is too short. 5: it is no string or reference. */
uint32_t chaffwheel_text(
    CHAFFWHEEL_SLICE(const uint64_t, vm), uint64_t kind, uint64_t payload,
    CHAFFWHEEL_SLICE(const uint8_t, text), CHAFFWHEEL_SLICE(uint8_t, out), CHAFFWHEEL_SLICE(uint64_t, answer));

/* ---- emission: a program is written, to the end of the current function. vm takes the new counts. A name or text is copied. Of each function answer
 * has one word; 17 where it has none. While a run is under way each is refused 25, but for the two that only read. */

/* Appends an opcode and its operands, each byte with the place. Refused 19, 25, 17, 22, 21, 1. */
uint32_t chaffwheel_add_op(
    CHAFFWHEEL_SLICE(uint64_t, vm), uint8_t op, uint32_t place, CHAFFWHEEL_SLICE(uint64_t, functions),
    CHAFFWHEEL_SLICE(uint8_t, main_code), CHAFFWHEEL_SLICE(uint32_t, main_places),
    CHAFFWHEEL_SLICE(uint8_t, other_code), CHAFFWHEEL_SLICE(uint32_t, other_places), CHAFFWHEEL_SLICE(uint64_t, answer));
uint32_t chaffwheel_add_op1(
    CHAFFWHEEL_SLICE(uint64_t, vm), uint8_t op, uint16_t a, uint32_t place, CHAFFWHEEL_SLICE(uint64_t, functions),
    CHAFFWHEEL_SLICE(uint8_t, main_code), CHAFFWHEEL_SLICE(uint32_t, main_places),
    CHAFFWHEEL_SLICE(uint8_t, other_code), CHAFFWHEEL_SLICE(uint32_t, other_places), CHAFFWHEEL_SLICE(uint64_t, answer));
uint32_t chaffwheel_add_op2(
    CHAFFWHEEL_SLICE(uint64_t, vm), uint8_t op, uint16_t a, uint16_t b, uint32_t place, CHAFFWHEEL_SLICE(uint64_t, functions),
    CHAFFWHEEL_SLICE(uint8_t, main_code), CHAFFWHEEL_SLICE(uint32_t, main_places),
    CHAFFWHEEL_SLICE(uint8_t, other_code), CHAFFWHEEL_SLICE(uint32_t, other_places), CHAFFWHEEL_SLICE(uint64_t, answer));
uint32_t chaffwheel_add_op3(
    CHAFFWHEEL_SLICE(uint64_t, vm), uint8_t op, uint16_t a, uint16_t b, uint16_t d, uint32_t place, CHAFFWHEEL_SLICE(uint64_t, functions),
    CHAFFWHEEL_SLICE(uint8_t, main_code), CHAFFWHEEL_SLICE(uint32_t, main_places),
    CHAFFWHEEL_SLICE(uint8_t, other_code), CHAFFWHEEL_SLICE(uint32_t, other_places), CHAFFWHEEL_SLICE(uint64_t, answer));

/* answer[0] is the length of the current function's code. Refused 19, 17. */
uint32_t chaffwheel_current_offset(
    CHAFFWHEEL_SLICE(const uint64_t, vm), CHAFFWHEEL_SLICE(const uint64_t, functions), CHAFFWHEEL_SLICE(uint64_t, answer));

/* Overwrites two bytes of the current function's code, low byte first. Refused 19, 25, 17, 23. */
uint32_t chaffwheel_patch_u16_value_at(
    CHAFFWHEEL_SLICE(uint64_t, vm), uint16_t offset, uint16_t arg, CHAFFWHEEL_SLICE(const uint64_t, functions),
    CHAFFWHEEL_SLICE(uint8_t, main_code), CHAFFWHEEL_SLICE(uint8_t, other_code), CHAFFWHEEL_SLICE(uint64_t, answer));

/* Append a constant: a scalar's 64 bits (kept as they are), a boolean, a string, a function reference. answer[0] is its number.
 * Refused 19, 25, 17, 22, 21. */
uint32_t chaffwheel_add_scalar(
    CHAFFWHEEL_SLICE(uint64_t, vm), uint64_t bits,
    CHAFFWHEEL_SLICE(uint64_t, constants), CHAFFWHEEL_SLICE(uint8_t, text), CHAFFWHEEL_SLICE(uint64_t, answer));
uint32_t chaffwheel_add_boolean(
    CHAFFWHEEL_SLICE(uint64_t, vm), bool value,
    CHAFFWHEEL_SLICE(uint64_t, constants), CHAFFWHEEL_SLICE(uint8_t, text), CHAFFWHEEL_SLICE(uint64_t, answer));
uint32_t chaffwheel_add_string(
    CHAFFWHEEL_SLICE(uint64_t, vm), CHAFFWHEEL_SLICE(const uint8_t, bytes),
    CHAFFWHEEL_SLICE(uint64_t, constants), CHAFFWHEEL_SLICE(uint8_t, text), CHAFFWHEEL_SLICE(uint64_t, answer));
uint32_t chaffwheel_add_reference(
    CHAFFWHEEL_SLICE(uint64_t, vm), CHAFFWHEEL_SLICE(const uint8_t, name),
    CHAFFWHEEL_SLICE(uint64_t, constants), CHAFFWHEEL_SLICE(uint8_t, text), CHAFFWHEEL_SLICE(uint64_t, answer));

/* answer[0] is the number of a struct name, which is added where it is not known. A place of the struct store has two words: the name, and a number
 * of the order of names. Refused 19, 25, 17, 22, 21. */
uint32_t chaffwheel_add_struct_info(
    CHAFFWHEEL_SLICE(uint64_t, vm), CHAFFWHEEL_SLICE(const uint8_t, name),
    CHAFFWHEEL_SLICE(uint64_t, structs), CHAFFWHEEL_SLICE(uint8_t, text), CHAFFWHEEL_SLICE(uint64_t, answer));

/* Begins a function without code, which is then current. answer[0] is its number. Refused 19, 25, 17, 22, 21. */
uint32_t chaffwheel_begin_function(
    CHAFFWHEEL_SLICE(uint64_t, vm), CHAFFWHEEL_SLICE(const uint8_t, name),
    CHAFFWHEEL_SLICE(uint64_t, functions), CHAFFWHEEL_SLICE(uint8_t, text), CHAFFWHEEL_SLICE(uint64_t, answer));

/* Makes main current. Refused 19, 25, 17. */
uint32_t chaffwheel_end_function(CHAFFWHEEL_SLICE(uint64_t, vm), CHAFFWHEEL_SLICE(uint64_t, answer));

/* answer[0] is the newest function of a name. Refused 19, 17, 14. */
uint32_t chaffwheel_get_function_idx(
    CHAFFWHEEL_SLICE(const uint64_t, vm), CHAFFWHEEL_SLICE(const uint8_t, name),
    CHAFFWHEEL_SLICE(const uint64_t, functions), CHAFFWHEEL_SLICE(const uint8_t, text), CHAFFWHEEL_SLICE(uint64_t, answer));

#ifdef __cplusplus
}
#endif

#endif
