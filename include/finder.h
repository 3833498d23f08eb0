/*
 * The special point finder for host programs in C11 or C++. Document 01, the customer's paper with the finder's rules, has every rule that is
 * named here.
 *
 * The library is crates/finder/out/libfinder.a (`rt lib --cpu x86-64` in crates/finder), for x86-64 with ELF and the System V calling convention; SSE2
 * is all that it asks of the processor. Link it with the C library: cc -std=c11 -Iinclude host.c crates/finder/out/libfinder.a
 *
 * Proved, for every input (crates/finder/src/lib.rt has the contracts): what each function answers and leaves in memory, as said beside it
 * below, and that it never traps, always ends, and touches no byte of its host's but the memory that it is lent. That holds where the host sees
 * to this:
 *
 * - Each pointer leads to memory of the length given, which nobody else writes during the call; that of `reply`, `place` and `written` is writable,
 *   and nobody else reads it. `place` and `written` are aligned for uint64_t.
 * - The reply buffer, `*place` and `*written` do not overlap, nor does any of them overlap the job. Lent memory is apart for the proof; a
 *   call whose buffers overlap is outside it.
 * - The floating-point control registers are as the calling convention has them at a program's start: rounding to nearest, subnormal numbers
 *   kept, exceptions masked. A program linked with -ffast-math may start otherwise.
 * - There are FINDER_STACK_BYTES bytes of stack below the stack pointer at the call.
 * - What it links for the symbols named below does as the C standard has it.
 *
 * A null pointer with the length 0 may be given for either buffer, as may any other: nothing is read or written through it. The proof leaves open
 * where an empty buffer lies; the comparison of job files gives null for many.
 *
 * There is no heap and no global state: the library has read-only data alone, keeps nothing between two calls, and calls may run at the same
 * time, also on the same job. It calls no function but its own and that of this line, which the host links (the compiler's back end calls
 * it):
 * Undefined symbols: memset
 * Floating-point exception flags of the thread may be raised after a call.
 */
#ifndef FINDER_H
#define FINDER_H

#include <stddef.h>
#include <stdint.h>

/*
 * The stack of a call. Measured, not proved: the comparison of job files has met at most 5,360 bytes, return address included, and the longest chain
 * of calls has 5,368 by the sizes of the frames; here is half as much again. A dynamic linker that looks `memset` up at its first call
 * takes a part of this stack too (no more in all where it was tried); linked statically or with -z now there is no such look-up.
 */
#define FINDER_STACK_BYTES 8192

/* The most bytes of a job file, and the most that the replies to one can have. */
#define FINDER_LONGEST_JOB 16384
#define FINDER_LONGEST_REPLIES 45646

/*
 * A job file is a list of commands, each a code (one byte) and its operands, and ends with FINDER_CODE_END. Numbers are little-endian; an f64 is
 * given by its bits, angles in radians.
 *
 *   code         operands                                                   answer
 *   END          none                                                       no reply at all
 *   PRECISION    precision                                                  none
 *   ALLOWANCE    allowance (byte)                                           none
 *   ARC          lon1, lat1, lon2, lat2                                     five slots
 *   CONE_IN_EQR  z, z0, radius; north (byte)                                kind, steps (bytes), z
 *   CONE_IN_PC   z, lon mod pi/2, z0, radius; east (byte), north (byte)     kind, steps (bytes), z
 *   PARALLEL     lon1, lat1, lon2, lat2, z                                  kind (byte), lon, lat
 *   TWO_ARCS     lon1, lat1, lon2, lat2, lon3, lat3, lon4, lat4             kind (byte), lon, lat
 *
 * All operands are f64 but for those with (byte). Each command but END gets a reply: its code, a status (one byte each), and the answer.
 * TWO_ARCS is document 02's, the customer's paper with requests: where the arc from 1 to 2 crosses that from 3 to 4.
 */
#define FINDER_CODE_END 0
#define FINDER_CODE_PRECISION 1
#define FINDER_CODE_ALLOWANCE 2
#define FINDER_CODE_ARC 3
#define FINDER_CODE_CONE_IN_EQR 4
#define FINDER_CODE_CONE_IN_PC 5
#define FINDER_CODE_PARALLEL 6
#define FINDER_CODE_TWO_ARCS 7
/* The first code past the table. */
#define FINDER_CODES 8

/* The bytes of the operands, after the code. */
#define FINDER_OPERANDS_END 0
#define FINDER_OPERANDS_PRECISION 8
#define FINDER_OPERANDS_ALLOWANCE 1
#define FINDER_OPERANDS_ARC 32
#define FINDER_OPERANDS_CONE_IN_EQR 25
#define FINDER_OPERANDS_CONE_IN_PC 34
#define FINDER_OPERANDS_PARALLEL 40
#define FINDER_OPERANDS_TWO_ARCS 64

/* The bytes of a reply, code and status included. */
#define FINDER_REPLY_END 0
#define FINDER_REPLY_PRECISION 2
#define FINDER_REPLY_ALLOWANCE 2
#define FINDER_REPLY_ARC 92
#define FINDER_REPLY_CONE_IN_EQR 12
#define FINDER_REPLY_CONE_IN_PC 12
#define FINDER_REPLY_PARALLEL 19
#define FINDER_REPLY_TWO_ARCS 19

/* What finder_run answers: 0, or the number of the file's refusal. */
#define FINDER_ACCEPTED 0
#define FINDER_REFUSAL_LENGTH 1    /* the file has no byte or more than FINDER_LONGEST_JOB; place 0 */
#define FINDER_REFUSAL_CODE 2      /* a command byte isn't in the table; its place */
#define FINDER_REFUSAL_CUT 3       /* operands are cut short, place of the command, or FINDER_CODE_END is missing, place: the length */
#define FINDER_REFUSAL_AFTER_END 4 /* bytes follow FINDER_CODE_END; place of the first */
#define FINDER_REFUSAL_BUFFER 5    /* the reply buffer is shorter than all replies; place: the length needed */

/*
 * The status of a reply: 0, or why the command is refused. Then the rest of its reply is zero, the settings stay, and the file goes on. No command
 * has the status 11.
 */
#define FINDER_STATUS_ACCEPTED 0
#define FINDER_STATUS_UNSET 6         /* an arc or a cone before both a precision and an allowance have been accepted */
#define FINDER_STATUS_NOT_FINITE 7    /* a float operand isn't finite */
#define FINDER_STATUS_FLAG 8          /* a north or east byte is neither 0 nor 1 */
#define FINDER_STATUS_RANGE 9         /* an operand is outside its range */
#define FINDER_STATUS_SPLIT 10        /* an arc's crossing with the height -T or T (2/3), needed to split it, gives no point */
#define FINDER_STATUS_NO_CANDIDATE 12 /* the cross product of two arcs' cross products has norm zero or NaN */

/*
 * The kind of a slot, a cone's answer, a parallel's or that for two arcs. Longitude and latitude stand at FINDER_KIND_FOUND and at
 * FINDER_KIND_FOUND_BY_HALVING, a cone's z at FINDER_KIND_FOUND, the steps of the walk at the kinds from 2 on in a slot or a cone's answer; all else
 * is zero. A longitude is at least 0 and below 2 pi, 6.283185307179586, or a NaN; it may be -0. A NaN is written 7FF8000000000000.
 *
 * FINDER_SLOT_EQUATOR never has FINDER_KIND_REJECTED: a second try follows there, and gives one of the last two kinds, which no other slot or answer
 * has. Its halvings are no steps. A point by halving is a special point of the arc as closely as another point found, or lies past an end by rounding
 * (measured, not proved). But where the arc begins or ends at the highest or lowest point of its circle, or follows the equator, it may be none: a
 * point beside that end, or anywhere on the arc.
 */
#define FINDER_KIND_NO_PIECE 0         /* the arc has no such piece */
#define FINDER_KIND_NO_WALK 1          /* longitudes equal or signs the same, no walk */
#define FINDER_KIND_REJECTED 2         /* the height is rejected after the walk */
#define FINDER_KIND_FOUND 3            /* a point */
#define FINDER_KIND_NOT_BETWEEN 4      /* the height is not strictly between the ends */
#define FINDER_KIND_NO_ROOT 5          /* neither root passes the tests; of two arcs: neither candidate does */
#define FINDER_KIND_FOUND_BY_HALVING 6 /* the height is rejected after the walk, and 60 halvings have led to a point */
#define FINDER_KIND_NONE_BY_HALVING 7  /* the same, and they have not */
#define FINDER_KINDS 8

/* The slots of an arc's answer, in their order. A slot is kind, steps (one byte each), lon, lat (f64). */
#define FINDER_SLOT_SOUTH_FIRST 0
#define FINDER_SLOT_SOUTH_SECOND 1
#define FINDER_SLOT_EQUATOR 2
#define FINDER_SLOT_NORTH_FIRST 3
#define FINDER_SLOT_NORTH_SECOND 4
#define FINDER_SLOTS 5
#define FINDER_SLOT_BYTES 18

#ifdef __cplusplus
extern "C" {
#endif

/*
 * Runs a job file of any length and content. Checks the length first, then command by command, then the reply buffer, and answers
 *
 * - FINDER_ACCEPTED, with `*place` the job's length and `*written` the bytes of the replies. These stand at the start of the reply buffer, in
 *   the order of their commands; past them the buffer keeps its bytes.
 * - Or the number of the first refusal, with `*place` as said there and `*written` 0. The reply buffer keeps its bytes.
 *
 * `*place` and `*written` are set on every call, and need not be before. To learn the length that a job's replies need, give an empty reply
 * buffer: where there are any, the answer is FINDER_REFUSAL_BUFFER, and `*place` the length. No job needs more than FINDER_LONGEST_REPLIES.
 */
uint8_t finder_run(const uint8_t *job, size_t job_length, uint8_t *reply, size_t reply_length, uint64_t *place, uint64_t *written);

/*
 * The bits of the square root of the f64 with these bits, IEEE 754's, nearest with ties to even, for all bits: of -0 it is -0, of +infinity itself,
 * of any other number with the sign bit and of every NaN it is the NaN 7FF8000000000000.
 */
uint64_t finder_root(uint64_t bits);

/*
 * How many binary digits of that root are told, from the leading 1 (document 02, ask 4): the fewest that, with zeros after them, are the exact root,
 * which is 1 to 27; 53 where none are; and 0 for a zero, negative, infinite or NaN argument. A count from 1 to 27 means that the root is exact and that
 * the last digit counted is a 1; one of 53 that the root is rounded.
 */
uint64_t finder_root_digits(uint64_t bits);

#ifdef __cplusplus
}
#endif

#endif
