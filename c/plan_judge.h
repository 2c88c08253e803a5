/* plan_judge: a proved validator of PDDL plans, as a library for C.
 *
 * Texts go in as bytes with a length, and an answer comes out as a status and a text in a buffer of yours. Nothing is kept between calls, but for a task that you
 * ask plan_judge_keep to keep. To judge many plans of one task, put them into one call, or keep the task: the domain and the problem are then read once. A file
 * may hold many plans, with a line of dashes between two of them.
 *
 * What you owe, since no call can test it:
 *  - A pointer leads to as many bytes or files as its length says, and nobody changes them during the call. It is not NULL, not even where the length is 0.
 *  - The buffer `out` is yours alone during the call, and overlaps nothing else that the call is given.
 *  - malloc, realloc and free belong together, as those of the C library do. No call comes from a signal handler, or from the forked child of a process with
 *    threads.
 *  - A plan_judge_task is zeroed before it is first used, changed by nobody but these calls, and handed to one call at a time.
 *
 * Any thread may make any call, and several threads may call at once, even with the same texts, each with a buffer of its own. A task that is kept is used by
 * one call at a time: threads that share one take turns under a lock of yours, and threads that are to judge at once keep one each.
 */
#ifndef PLAN_JUDGE_H
#define PLAN_JUDGE_H

#include <stddef.h>
#include <stdint.h>

#ifdef __cplusplus
extern "C" {
#endif

/* How a call ended. */
enum {
    PLAN_JUDGE_MADE = 0,          /* the text is what was asked for; for plan_judge_explain: and all plans are valid; for plan_judge_keep: the task is kept */
    PLAN_JUDGE_REFUSED = 1,       /* the texts are refused, and the text is the line that says why; for plan_judge_explain: not all plans are valid */
    PLAN_JUDGE_MISUSED = 2,       /* an unknown number, a name of a file of plans that is not UTF-8, or a task that keeps nothing; no text */
    PLAN_JUDGE_OUT_OF_MEMORY = 3  /* memory ran out; no text */
};

/* The dialects: what a domain and a problem may use. */
enum { PLAN_JUDGE_STRIPS = 0, PLAN_JUDGE_IPC = 1, PLAN_JUDGE_ADL = 2 };

/* The formats of a report: lines for people, a table with tabs, JSON with a record on each line. An explanation is in lines or in JSON. */
enum { PLAN_JUDGE_LINES = 0, PLAN_JUDGE_TABLE = 1, PLAN_JUDGE_JSON = 2 };

/* What an explanation has besides: what each step changes, and warnings of what is probably not meant. Add them up, or pass 0. */
enum { PLAN_JUDGE_TRACE = 1, PLAN_JUDGE_WARNINGS = 2 };

/* A file of at most 16,777,216 bytes; a larger one is refused, and not looked at. It has a name, as reports and explanations show it,
 * and its bytes. Neither needs a 0 at its end. */
typedef struct plan_judge_file {
    const void *name;
    size_t name_length;
    const void *bytes;
    size_t length;
} plan_judge_file;

/* What is judged or explained. All of it stays yours. */
typedef struct plan_judge_texts {
    plan_judge_file domain;
    plan_judge_file problem;
    const plan_judge_file *plans; /* up to 64 files, each of which holds one plan or more */
    size_t plan_count;            /* how many files of plans there are */
    uint64_t seed;                /* any number; if the texts come from people whom you do not trust, one that they cannot guess */
    uint32_t dialect;             /* PLAN_JUDGE_STRIPS, PLAN_JUDGE_IPC or PLAN_JUDGE_ADL */
} plan_judge_texts;

/* Whether no pointer of these texts is NULL: for callers that cannot know. */
static inline int plan_judge_has_no_null(const plan_judge_texts *texts) {
    if (!texts || !texts->domain.name || !texts->domain.bytes || !texts->problem.name || !texts->problem.bytes || !texts->plans) return 0;
    for (size_t i = 0; i < texts->plan_count; i++)
        if (!texts->plans[i].name || !texts->plans[i].bytes) return 0;
    return 1;
}

/* What a call answers. If `length` is at most the capacity of the buffer, the text is at the front of it, with no 0 behind it. Else the buffer is as it was: make
 * the same call with a larger one. No byte of the buffer behind the text is changed. */
typedef struct plan_judge_answer {
    uint32_t status;
    size_t length;
} plan_judge_answer;

/* Judges all plans of all files. The text is the report that `plan_judge judge` prints, or the line that it prints if the texts are refused. */
plan_judge_answer plan_judge_judge(const plan_judge_texts *texts, uint32_t format, void *out, size_t capacity);

/* Explains why a text is refused or why plans fail. The text is the one that `plan_judge explain` prints, without colors. */
plan_judge_answer plan_judge_explain(const plan_judge_texts *texts, uint32_t format, uint32_t extras, void *out, size_t capacity);

/* A task that is kept: of a domain and a problem, as they were read. Begin with one that is zeroed, as `plan_judge_task task = {0};`, and keep the struct as long
 * as you need it, best without copying it: of several copies of a struct only one may be used from then on. It keeps nothing if `kept` is NULL; what `kept` leads
 * to is the library's. Each task that is kept has to be given back. */
typedef struct plan_judge_task {
    void *kept;
} plan_judge_task;

/* Reads the domain and the problem of these texts, in their dialect and with their seed, and keeps the task. The answer has a text only if they are refused: the
 * line that says why. The texts stay yours, and may change or go once the call returns. Their plans are not looked at, but `plans` must not be NULL even so.
 * What the struct kept before is given back. After any status but PLAN_JUDGE_MADE it keeps nothing. If the line did not fit, make the same call again. */
plan_judge_answer plan_judge_keep(const plan_judge_texts *texts, plan_judge_task *task, void *out, size_t capacity);

/* Judges all plans of up to 64 files against the task that is kept. The status and the text are those of plan_judge_judge for the texts that the task was read
 * from, with these files as their plans; memory apart, they do not depend on what was judged before. The task stays kept, after every status. The files stay
 * yours. PLAN_JUDGE_MISUSED is also the status if nothing is kept. */
plan_judge_answer plan_judge_judge_kept(plan_judge_task *task, const plan_judge_file *plans, size_t plan_count, uint32_t format, void *out, size_t capacity);

/* Gives a task back: frees its memory, and sets `kept` to NULL. If nothing is kept, it does nothing. */
void plan_judge_give_back(plan_judge_task *task);

#ifdef __cplusplus
}
#endif

#endif
