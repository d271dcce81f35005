/*
 * Sinalvento: rule files to query plans, and plans read back, by functions that
 * are proved.
 *
 * For C99 or later, or C++, on x86-64 Linux. `tools/archive` proves the
 * functions below and writes target/staticlib/libsinalvento.a, which needs
 * nothing but the C library:
 *
 *     cc -std=c99 -I engine/include game.c target/staticlib/libsinalvento.a -o game
 *
 * docs/FORMAT.md tells the rule file and the plan byte by byte.
 *
 * engine/tests/declarations.rs holds what is declared here against the Rattle
 * source (crates/), the Rust crate (engine/src) and the archive.
 *
 * Licence: see NOTICE.
 */
#ifndef SINALVENTO_H
#define SINALVENTO_H

#include <stddef.h>
#include <stdint.h>

#ifdef __cplusplus
extern "C" {
#endif

/* The version of this header, of the archive and of the Rust crate. */
#define SINALVENTO_VERSION "0.1.0"
#define SINALVENTO_VERSION_MAJOR 0
#define SINALVENTO_VERSION_MINOR 1
#define SINALVENTO_VERSION_PATCH 0

/* The most bytes that a rule file may have. */
#define SINALVENTO_MAX_FILE 32768
/* The most bytes that a plan may have: a plan buffer of this size is always long enough. */
#define SINALVENTO_MAX_PLAN 16384
/* The fewest bytes that a compile's work area may have; the plan reader takes any. */
#define SINALVENTO_MIN_WORK 65536
/* A thread's stack of so many bytes is enough for any call (256 KiB). */
#define SINALVENTO_STACK 262144

/* Why a file (1 to 15, and 19) or a plan (15 to 18) was refused. Places run downwards. */
enum sinalvento_refusal {
    SINALVENTO_ACCEPTED = 0,
    /* lent memory */
    SINALVENTO_FILE_TOO_LONG = 1,  /* file above 32,768 bytes */
    SINALVENTO_WORK_TOO_SHORT = 2, /* work area below 65,536 bytes */
    /* reading: the first fault met front to back */
    SINALVENTO_ENDS = 3,      /* bytes end inside a count or record */
    SINALVENTO_COUNT = 4,     /* count above its section's limit */
    SINALVENTO_KIND = 5,      /* unknown kind, anchor or op */
    SINALVENTO_NAME_BYTE = 6, /* name that is not well-formed UTF-8 */
    SINALVENTO_FOLLOWS = 7,   /* bytes follow the last section */
    /* whole file: each is tried over the whole file before the next */
    SINALVENTO_NUMBER = 8,        /* number at or past its section's count (FFFF for none excepted) */
    SINALVENTO_CHILD = 9,         /* type's or node's child not lower than its parent */
    SINALVENTO_REPEAT = 10,       /* type repeats a name, or a Union a disc */
    SINALVENTO_DEPTH = 11,        /* type deeper than 32 */
    SINALVENTO_SHARED = 12,       /* node is a child more than once */
    SINALVENTO_NOT_CONSTANT = 13, /* Const binding of a node that isn't constant */
    SINALVENTO_PATH = 14,         /* Field binding with steps + depth of its type above 32,
                                     or fetched path above 31 steps */
    SINALVENTO_LITERAL = 19,      /* constant of the wrong kind for its key, field or payload */
    /* writing */
    SINALVENTO_PLAN_TOO_LONG = 15, /* plan longer than 16,384 bytes or than the plan buffer */
    /* reading a plan: the first of the two met front to back */
    SINALVENTO_PLAN_ENDS = 16, /* plan ends early */
    SINALVENTO_PLAN_BYTE = 17, /* byte of the plan without a meaning, path with more steps
                                  than a path holds, or bytes left over */
    /* a plan's levels, when all was read */
    SINALVENTO_PLAN_RULE = 18 /* level of the plan breaks a rule of every level */
};

/*
 * Compiles the rule file at `file` into the plan buffer at `plan`, by way of the
 * work area at `work`. Each pointer stands before its slice's length; a slice
 * of length 0 is not looked at. The plan buffer and the work area overlap
 * neither each other nor the file. What they hold before the call is of no
 * account. A file of length 0 means ten empty sections, as a new project has
 * them; its plan is ten zero bytes.
 *
 * Returns refusal * 65,536 + plan length: refusal 0 on acceptance, length 0 on
 * refusal. Afterwards the work area is all zero, and so is the plan buffer past
 * the plan, or whole after a refusal. The file is only read. No heap is used,
 * nothing is kept, and calls on different memory may run at once.
 *
 * Stack: a thread with SINALVENTO_STACK bytes is enough for every file, also
 * for one that is damaged or made to harm. It is measured, not proved.
 *
 * Time: everyday files take microseconds, the largest ones less than a
 * millisecond. A file can be made that takes seconds, and a call cannot be
 * broken off. So files of one's own can be compiled where they are loaded;
 * files from strangers belong on a thread that may wait. docs/BENCH.md has
 * the figures of both.
 */
uint64_t sinalvento_compile(const uint8_t *file, size_t file_len,
                            uint8_t *plan, size_t plan_len,
                            uint8_t *work, size_t work_len);

/*
 * Each part, range, guide and residual of a plan ends in the number of the node
 * of its rule file that made it (those of a Prefix stand behind its text), so
 * that an editor can lead from an entry to the pattern. docs/FORMAT.md tells which node that is.
 */

/*
 * Reads the plan at `plan` and writes it back to the same bytes at `out`, for
 * viewers and tools that draw plans. What is accepted can be taken apart by
 * docs/FORMAT.md without a further test: every count is followed by its items,
 * every kind is one that is told there, and the plan ends where it should. Every
 * plan that sinalvento_compile writes is accepted.
 *
 * Refused, in this order: by 15, before a byte is read, where the plan is longer
 * than 16,384 bytes or than `out`; by 16 where it ends early, or by 17 at a seek,
 * part, edge, guide, op, anchor, slot or code without a meaning, at a path with
 * more steps than a path holds, or where bytes are left over, whichever is met
 * first; by 18, when all was read, where a level breaks one of these rules:
 *
 *   - closers are at most parts;
 *   - narrowings = parts - closers + residuals + range + guide;
 *   - there are as many edges as folded comparisons;
 *   - a Composite seek has a part that isn't bytes;
 *   - a guide beside a range has the range's path;
 *   - a Bounded seek has an edge, and no guide.
 *
 * Slices, result and what is left in the lent memory are as sinalvento_compile's,
 * with `out` for the plan buffer. The work area may have any length, none
 * included: it is left zero, and nothing else is done with it. Stack: as above.
 * Time: it grows with the plan's length alone, whatever the bytes are.
 */
uint64_t sinalvento_read(const uint8_t *plan, size_t plan_len,
                         uint8_t *out, size_t out_len,
                         uint8_t *work, size_t work_len);

/* A result's refusal, or SINALVENTO_ACCEPTED. */
static inline enum sinalvento_refusal sinalvento_refusal_of(uint64_t result)
{
    return (enum sinalvento_refusal)(result >> 16);
}

/* A result's plan length. */
static inline size_t sinalvento_length_of(uint64_t result)
{
    return (size_t)(result & 0xFFFF);
}

#ifdef __cplusplus
}
#endif

#endif
