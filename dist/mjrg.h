/* mjrg: checks of MiniJava projects, for programs that hold the sources in memory.
 *
 * Link with libmjrg.a, built for Linux on x86-64-v2, and with the C library. dist/ carries it with this header; tools/library builds it.
 *
 * The functions keep nothing from one call to the next, open no file, start no thread and hand out no memory: all that they
 * write goes into buffers of the caller, and nothing is to be freed. Calls may run at the same time on different threads, each
 * with buffers of its own. Any bytes are taken: what can't be used is refused with a text.
 *
 * What each call writes is proved, for callers that keep to what follows, and nothing checks that they do. A caller has to see to it
 *   - that no pointer is NULL, also with a length of 0, and that behind each there are as many bytes as its length says,
 *     PTRDIFF_MAX at most;
 *   - that no buffer overlaps another one or bytes that the call reads, and that during the call nothing else writes any of them,
 *     or reads a buffer;
 *   - that 4 MiB of stack are free (the deepest phrases took 2.1 MiB);
 *   - that malloc, realloc and free come from one allocator, whose blocks are aligned to 16 bytes, or, if they are smaller,
 *     to the greatest power of two that divides their size;
 *   - that no call is made from a signal handler, or in the forked child of a process with threads. */
#ifndef MJRG_H
#define MJRG_H

#include <stddef.h>
#include <stdint.h>

#ifdef __cplusplus
extern "C" {
#endif

/* How a call ends: the program's exit statuses, and one more. */
enum {
    MJRG_CLEAN = 0,         /* there is no diagnostic, the chain is accepted, or what was asked for is written */
    MJRG_DIAGNOSTICS = 1,   /* the answer has diagnostics */
    MJRG_REFUSED = 2,       /* there is no answer: `err` has one line that says why, and all else is empty */
    MJRG_CHAIN_REFUSED = 3, /* the audit refuses the chain: `err` has one line that says why, and `out` is empty */
    MJRG_OUT_OF_MEMORY = 4, /* out of memory: nothing is written, and all lengths are 0 */
    MJRG_TOO_SMALL = 5      /* a buffer is too small for what it gets: nothing is written, and all lengths are reported */
};

/* The status, and how many bytes each text has. The texts have no zero byte at their end. Behind its text a buffer stays as it was. */
typedef struct {
    uint32_t status;
    size_t out_length;
    size_t err_length;
} mjrg_result;

/* The same of a call that makes a session, with how many bytes its file has: none if there is no session. */
typedef struct {
    uint32_t status;
    size_t session_length;
    size_t out_length;
    size_t err_length;
} mjrg_session_result;

/* Writes into `out` what `mjrg --version` prints. The status is MJRG_CLEAN or MJRG_TOO_SMALL. */
mjrg_result mjrg_version(uint8_t *out, size_t out_size);

/* Checks a project from its files alone, as `mjrg scratch --profile PROFILE FILE..` does: `out` gets what the program writes to
 * standard output, the answer, and `err` what it writes to standard error, a line for each diagnostic. Unless `messages` is 0 each
 * diagnostic has its sentence and its source line, as with --messages.
 *
 * `files` has the files in their order, one behind the other up to the end:
 *
 *     8 bytes   the length of the file's name, the most significant byte first
 *               the name: UTF-8, 1 to 255 bytes, no name twice
 *     8 bytes   the length of the file's text, the most significant byte first
 *               the text: any bytes
 *
 * There are 1 to 4,096 files. What is refused, in this order:
 *
 *     refused: no profile 3                              the profile is neither 1 nor 2
 *     refused: file 2: the length of its name is cut off file 2, counted from 0, is the first one that isn't whole,
 *     refused: file 2: its name is cut off               or whose name isn't UTF-8
 *     refused: file 2: its name isn't UTF-8
 *     refused: file 2: its length is cut off
 *     refused: file 2: its bytes are cut off
 *     refused: 3.2 NoFiles                               as the program refuses them
 *     refused: 3.3 TooManyFiles
 *     refused: 3.4 BadFileName(2)
 *     refused: 3.1 RepeatedFile(2) */
mjrg_result mjrg_scratch(const uint8_t *files, size_t files_size, uint32_t profile, uint32_t messages,
                         uint8_t *out, size_t out_size, uint8_t *err, size_t err_size);

/* Checks a project over a previous session, as `mjrg check` does with one worker: what can't have changed isn't run again. `session`
 * gets the file of the next session, the program's byte for byte; the caller keeps it, and hands it over with the next check. `out`
 * gets the answer, and `err` a line for each diagnostic and one on the session. If the program would begin a new chain with a note,
 * as behind a damaged file, the call is refused.
 *
 * `files` and `messages` are as for mjrg_scratch; `profile` and `form` are those of `--profile` and `--form`, 1 or 2. `past` is empty
 * for the first session of a chain. Else it has the files of the sessions before, from the last one of form 1 on (or from the first,
 * if there is none), one behind the other up to the end; the last of them is the previous session:
 *
 *     8 bytes   the length of the file, the most significant byte first
 *               the file
 *
 * A past is believed, as the program believes its cache. What is refused, in this order (the caller may call again with no past):
 *
 *     refused: no profile 3                              as by mjrg_scratch
 *     refused: no form 3                                 the form is neither 1 nor 2
 *     refused: ...                                       the files, as by mjrg_scratch
 *     refused: session file 2: its length is cut off     session file 2, counted from 0, is the first one that isn't whole
 *     refused: session file 2: its bytes are cut off
 *     refused: session file 2: 11.4 BadDigest            it is the file of no session over the one before
 *     refused: session file 2: number                    its session's number isn't the one after that of the session before
 *     refused: session file 2: full                      its session is the last that a chain can have */
mjrg_session_result mjrg_check(const uint8_t *files, size_t files_size, const uint8_t *past, size_t past_size, uint32_t profile,
                               uint32_t form, uint32_t messages, uint8_t *session, size_t session_size, uint8_t *out,
                               size_t out_size, uint8_t *err, size_t err_size);

/* Audits a chain of sessions without believing it, as `mjrg audit` does: `out` gets the answer of its last session, and `err` the
 * line on the chain. `chain` has all files of the chain, the first session's first, each behind its length as in a past. Unless
 * `sources` is empty it has files as for mjrg_scratch, and the last session has to be one of just these. The status is MJRG_CLEAN
 * if the chain is accepted, whether or not its answer has diagnostics. What is refused, in this order:
 *
 *     refused: ...                                       the sources, as by mjrg_scratch
 *     refused: session file 2: its length is cut off     as by mjrg_check
 *     refused: session file 2: its bytes are cut off
 *     refused: 14.13 OtherResult(1, 12)                  as the program refuses the chain: the status is MJRG_CHAIN_REFUSED */
mjrg_result mjrg_audit(const uint8_t *chain, size_t chain_size, const uint8_t *sources, size_t sources_size, uint8_t *out,
                       size_t out_size, uint8_t *err, size_t err_size);

#ifdef __cplusplus
}
#endif

#endif
