/* mpc: explicit model predictive control, as a library whose every answer is proved.
 *
 * From the file of a plant the library makes the file of its controller, checks such files, lays a controller out as a table in memory of
 * the caller's, and replies from that table with the exact first move of the cheapest admissible input sequence.
 *
 * Sizes and pointers. Lengths of files and texts are in bytes, those of blocks in words of 64 bits, those of counts and moves in elements.
 * No pointer may be null, also where the length beside it is 0, each must be aligned for its type, and no output may overlap an input or
 * another output. The library keeps no pointer and has no state of its own: calls may run in several threads at once.
 *
 * Memory. mpc_reply, mpc_version and mpc_layout_version take no memory from the heap. The others take it by malloc and realloc and give all
 * of it back by free before they return; where it runs out they answer MPC_NO_MEMORY. No call waits for another, starts a thread, reads a
 * file, or prints. mpc_reply may be called in a signal handler; the calls that take memory may not.
 *
 * Machine. Words are those of the machine, little-endian ones of 64 bits: a block belongs to the kind of machine that laid it out.
 */
#ifndef MPC_H
#define MPC_H

#include <stddef.h>
#include <stdint.h>

#ifdef __cplusplus
extern "C" {
#endif

/* ---- What the calls answer. A number means the same at every call; the first eleven are the exit statuses of the command mpc. */

/* The call did what it is for. mpc_reply and mpc_solve: the moves are written. */
#define MPC_DONE 0u
/* The number of workers isn't one from 1 to 32. */
#define MPC_USAGE 2u
/* A check of the plant's file fails. */
#define MPC_BAD_PLANT 3u
/* The Hessian of the plant's program isn't positive definite. */
#define MPC_NOT_DEFINITE 4u
/* A number that has to be formed needs more than 128 bits. */
#define MPC_TOO_WIDE 5u
/* The bytes aren't the file of a controller. */
#define MPC_BAD_FILE 6u
/* The controller doesn't meet a condition of optimality. */
#define MPC_REFUSED 7u
/* The file has more than 16,777,216 bytes. */
#define MPC_TOO_LONG 10u
/* Memory ran out. */
#define MPC_NO_MEMORY 11u
/* The controller is accepted, and its closed loop may lead to where it has no reply. */
#define MPC_UNSAFE 15u
/* The controller is accepted, and a number of its closed loop needs more than 128 bits. */
#define MPC_WIDE_LATER 16u

/* The text or the block has no room in what the caller gave: nothing but its size is written. */
#define MPC_TOO_SMALL 32u
/* No sequence of inputs is admissible from this state. */
#define MPC_INFEASIBLE 33u
/* A count is above the greatest one of its coordinate. */
#define MPC_OUTSIDE 34u
/* The words are no block, or none of a controller with so many coordinates and inputs. */
#define MPC_BAD_BLOCK 35u
/* A number that has to be formed at this state needs more than 128 bits. */
#define MPC_WIDE_STATE 36u
/* There isn't one count for each coordinate of the plant, or not one move for each of its inputs. */
#define MPC_OTHER_SIZES 37u

/* ---- Moves */

/* A fraction: its numerator and its denominator, each a signed number of 128 bits in two's complement, the low word first. The denominator is
 * above 0. The two may have common divisors. On a little-endian machine its bytes are those of struct { __int128 num, den; }. */
typedef struct mpc_fraction {
    uint64_t num_low;
    uint64_t num_high;
    uint64_t den_low;
    uint64_t den_high;
} mpc_fraction;

#ifdef __SIZEOF_INT128__
/* (What stands up to the next line of dashes is C for the caller's convenience, and no part of what is proved.) */
__extension__ typedef __int128 mpc_int128;
__extension__ typedef unsigned __int128 mpc_uint128;

/* The numerator. */
static inline mpc_int128 mpc_num(const mpc_fraction *fraction)
{
    return (mpc_int128)((mpc_uint128)fraction->num_high << 64 | fraction->num_low);
}

/* The denominator. */
static inline mpc_int128 mpc_den(const mpc_fraction *fraction)
{
    return (mpc_int128)((mpc_uint128)fraction->den_high << 64 | fraction->den_low);
}

/* A double near the fraction: numerator, denominator and quotient are each rounded once. */
static inline double mpc_value(const mpc_fraction *fraction)
{
    return (double)mpc_num(fraction) / (double)mpc_den(fraction);
}
#endif

/* ---- Versions */

/* The version of these calls: 1. A later library with this number has all of them, with the same meaning. */
uint32_t mpc_version(void);

/* The version of the block's layout: the first word of each block that mpc_table_load lays out, and of each that mpc_reply takes. */
uint64_t mpc_layout_version(void);

/* ---- Files and texts
 *
 * The three calls below are the commands mpc compile, mpc check and mpc safe: plant or file is what the command reads, text[0 .. *size - 1] is
 * what it writes, and the answer is its exit status. Where the answer isn't MPC_DONE, the text is the command's line on the refusal, as
 * "bad plant WrongShape A\n"; at MPC_USAGE and MPC_NO_MEMORY it is empty. No 0 byte ends a text.
 *
 * *size is written by each call: the length of the whole text. Where it is above text_len the answer is MPC_TOO_SMALL, and text stays as
 * it was; a call with more room makes the text again. Behind the text, text stays as it was.
 *
 * Proved: each answer has the cause that the command's status has, and each input has one status; the text is that of the command. */

/* Makes the file of the controller of a plant. workers is a number from 1 to 32, as with --workers. The file is the same for each of them, and
 * the library does the work of all in the caller's thread, since it starts none: the number is there for a library that does.
 *
 * Answers MPC_DONE, MPC_USAGE, MPC_BAD_PLANT, MPC_NOT_DEFINITE, MPC_TOO_WIDE, MPC_TOO_LONG, MPC_NO_MEMORY or MPC_TOO_SMALL.
 *
 * Proved: at MPC_DONE the text is the one file of the plant's controller, which the independent checker accepts, and which replies at
 * every state of the box, on the grid or between its states, with the first move of the cheapest admissible sequence. */
uint32_t mpc_compile(const uint8_t *plant, size_t plant_len, uint32_t workers, uint8_t *text, size_t text_len, uint64_t *size);

/* Checks the file of a controller, whoever made it: "accepted\n" where it meets all conditions of optimality, or the first that it doesn't meet.
 *
 * Answers MPC_DONE, MPC_BAD_FILE, MPC_NOT_DEFINITE, MPC_TOO_WIDE, MPC_REFUSED, MPC_TOO_LONG, MPC_NO_MEMORY or MPC_TOO_SMALL.
 *
 * Proved: at MPC_DONE the controller replies at every state of the box, and rightly. */
uint32_t mpc_check(const uint8_t *file, size_t file_len, uint8_t *text, size_t text_len, uint64_t *size);

/* Checks the file of a controller, and where its closed loop goes: "safe\n", or the first condition that isn't met, or the first step that leads
 * elsewhere.
 *
 * Answers MPC_DONE, MPC_BAD_FILE, MPC_NOT_DEFINITE, MPC_TOO_WIDE, MPC_REFUSED, MPC_UNSAFE, MPC_WIDE_LATER, MPC_TOO_LONG, MPC_NO_MEMORY or
 * MPC_TOO_SMALL.
 *
 * Proved: at MPC_DONE, from every state of the box with an admissible sequence, after every number of steps, the state is in the box and the
 * reply is the first move of the cheapest admissible sequence. */
uint32_t mpc_safe(const uint8_t *file, size_t file_len, uint8_t *text, size_t text_len, uint64_t *size);

/* ---- A table at rest
 *
 * A block has all that a controller's replies need, in words of 64 bits without a pointer: it can be mapped, copied, moved, and put into
 * memory that is only read. A block may be longer than the controller's words: those behind them are never read.
 *
 * Of use to a caller: block[0] is mpc_layout_version(), block[1] the words of the block, block[2] the coordinates of a state, n (at most 4),
 * block[3] the inputs, p (at most 3), block[4] .. block[4 + n - 1] the greatest counts, block[8] the nodes of the tree, block[9] the laws,
 * block[10] the height of the tree, and block[11] how many words a number of its rows and forms has: 1 where all of them fit, 2 otherwise. */

/* Writes to *words how many words the block of a controller has.
 *
 * Answers MPC_DONE, MPC_BAD_FILE or MPC_NO_MEMORY; *words is 0 where it isn't MPC_DONE.
 *
 * Proved: 12 words, and 6 block[11] for each node of the tree and for each input of each law. */
uint32_t mpc_table_size(const uint8_t *file, size_t file_len, uint64_t *words);

/* Reads the file of a controller, checks it as mpc_check does if check isn't 0, and lays it out in block. Writes to *words how many words
 * the block has.
 *
 * Answers MPC_DONE; MPC_TOO_SMALL, where *words is above block_words and block stays as it was; MPC_BAD_FILE or MPC_NO_MEMORY; and where it
 * checks MPC_NOT_DEFINITE, MPC_TOO_WIDE or MPC_REFUSED. *words is 0 where it is neither MPC_DONE nor MPC_TOO_SMALL. At MPC_NO_MEMORY block
 * stays as it was, or some of it is written, and mpc_reply answers MPC_BAD_BLOCK to it; at the other refusals it stays as it was.
 *
 * Proved: at MPC_DONE block has the controller of the file; where it was checked, that controller replies rightly at every state of the box. */
uint32_t mpc_table_load(const uint8_t *file, size_t file_len, uint32_t check, uint64_t *block, size_t block_words, uint64_t *words);

/* Replies to a state by a block of block_words words. The state is counts[0] .. counts[n - 1], one count for each coordinate: coordinate i is
 * its lowest value and counts[i] steps, as the plant's file says. The first move is written to moves[0] .. moves[p - 1], one number for each
 * input.
 *
 * Answers MPC_DONE, MPC_INFEASIBLE, MPC_OUTSIDE or MPC_BAD_BLOCK. But at MPC_DONE, moves stays as it was.
 *
 * Proved: from the block of a controller, with its n and p, the answer and the moves are those of the controller, and MPC_BAD_BLOCK doesn't
 * come; where the controller was checked they are right. Whatever the words are, only block[0 .. block_words - 1] is read, and the call
 * ends.
 *
 * Seen in the code: it goes down at most as many splits as the tree is high, block[10], each a product and a sum for each coordinate, and then
 * one form for each input. It takes no memory, waits for nobody, and calls no function that calls itself: its stack is the same, below
 * 4,096 bytes, for every block. */
uint32_t mpc_reply(const uint64_t *block, size_t block_words, const uint64_t *counts, size_t n, mpc_fraction *moves, size_t p);

/* ---- One state without a table */

/* Replies to a state of a plant, by one run of a dual active-set method; nothing is compiled. Counts and moves are as with mpc_reply.
 *
 * Answers MPC_DONE, MPC_INFEASIBLE, MPC_OUTSIDE, MPC_WIDE_STATE, MPC_OTHER_SIZES, MPC_BAD_PLANT, MPC_NOT_DEFINITE, MPC_TOO_WIDE or MPC_NO_MEMORY.
 * But at MPC_DONE, moves stays as it was.
 *
 * Proved: the answer and the moves are right, and so is each refusal; each move is in lowest terms. */
uint32_t mpc_solve(const uint8_t *plant, size_t plant_len, const uint64_t *counts, size_t n, mpc_fraction *moves, size_t p);

#ifdef __cplusplus
}
#endif

#endif
