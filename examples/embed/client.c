/* Checks two sources that stand in memory, as an editor does, edits one of them and checks again over the first session, and audits
 * both sessions. Prints the lines on diagnostics and sessions, then the last answer, and ends with the status of the last check.
 *
 *     cc -I dist examples/embed/client.c dist/libmjrg.a -o client && ./client */
#include <stdio.h>
#include <string.h>

#include "mjrg.h"

struct source {
    const char *name;
    const char *text;
};

static const char COUNTER[] = "class Counter {\n"
                              "    public int next(int last) { return last + 1; }\n"
                              "}\n";

static const char EDITED[] = "class Counter {\n"
                             "    public int next(boolean again) { return 1; }\n"
                             "}\n";

static struct source sources[] = {
    {"Main.java", "class Main {\n"
                  "    public static void main(String[] a) {\n"
                  "        System.out.println(new Counter().next(true));\n"
                  "    }\n"
                  "}\n"},
    {"Counter.java", COUNTER},
};

/* What a call gets and gives. A larger project needs larger buffers: MJRG_TOO_SMALL says how large. */
static uint8_t files[4096], chain[131072], session[65536], out[65536], err[65536];

/* Puts a length and so many bytes there, and returns where they end. */
static uint8_t *put(uint8_t *at, const void *bytes, size_t length)
{
    for (int shift = 56; shift >= 0; shift -= 8)
        *at++ = (uint8_t)((uint64_t)length >> shift);
    memcpy(at, bytes, length);
    return at + length;
}

/* Packs the sources, and returns how many bytes they take. */
static size_t packed(void)
{
    uint8_t *end = files;
    for (size_t i = 0; i < sizeof sources / sizeof *sources; i++) {
        end = put(end, sources[i].name, strlen(sources[i].name));
        end = put(end, sources[i].text, strlen(sources[i].text));
    }
    return (size_t)(end - files);
}

/* Checks the sources over the session whose file stands here behind its length, or over none, and prints the lines on them. */
static mjrg_session_result check(const uint8_t *past, size_t past_length)
{
    mjrg_session_result result = mjrg_check(files, packed(), past, past_length, 1, 1, 1, session, sizeof session,
                                            out, sizeof out, err, sizeof err);
    if (result.status <= MJRG_REFUSED)
        fwrite(err, 1, result.err_length, stdout);
    return result;
}

int main(void)
{
    mjrg_session_result first = check(chain, 0);
    if (first.status > MJRG_DIAGNOSTICS)
        return (int)first.status;
    uint8_t *second_file = put(chain, session, first.session_length);
    sources[1].text = EDITED;
    mjrg_session_result second = check(chain, (size_t)(second_file - chain));
    if (second.status > MJRG_DIAGNOSTICS)
        return (int)second.status;
    uint8_t *end = put(second_file, session, second.session_length);
    mjrg_result audit = mjrg_audit(chain, (size_t)(end - chain), files, packed(), out, sizeof out, err, sizeof err);
    if (audit.status == MJRG_OUT_OF_MEMORY || audit.status == MJRG_TOO_SMALL)
        return (int)audit.status;
    fwrite(err, 1, audit.err_length, stdout);
    fwrite(out, 1, audit.out_length, stdout);
    return audit.status == MJRG_CLEAN ? (int)second.status : (int)audit.status;
}
