/* Makes many calls of the library in one process, and compares what they answer. check_library compiles this file, and writes the calls.

   usage: driver CALLS all|misuse|threads N|refuse|time N|kept N

   all      each call, with buffers of 0 bytes, of one byte less than the text and of its length; each that judges also against a kept task
   misuse   calls with unknown numbers, wrong names, and files that are too large
   threads  each call five times in each of N threads at once
   refuse   each call with each of its allocations refused in turn; only if this file was compiled with -DREFUSE
   time     the first call, N times
   kept     the first call, N times against a task that is kept

   Each text and each buffer is a block of its own, of just its length, so that valgrind and AddressSanitizer see what is read or written outside of it. */
#define _GNU_SOURCE
#include "plan_judge.h"

#include <pthread.h>
#include <stdio.h>
#include <stdlib.h>
#include <string.h>
#include <time.h>

#ifdef REFUSE
extern void *__libc_malloc(size_t);
extern void *__libc_calloc(size_t, size_t);
extern void *__libc_realloc(void *, size_t);
extern void __libc_free(void *);

/* How many allocations there were, which one is refused, and how many blocks are held. Only one thread runs then. */
static long made, refused = -1, held;

static int is_refused(void) {
    return ++made == refused;
}

void *malloc(size_t size) {
    void *block = is_refused() ? NULL : __libc_malloc(size);
    held += block != NULL;
    return block;
}

void *calloc(size_t count, size_t size) {
    void *block = __libc_calloc(count, size);
    held += block != NULL;
    return block;
}

void *realloc(void *old, size_t size) {
    void *block = is_refused() ? NULL : __libc_realloc(old, size);
    held += block != NULL && old == NULL;
    return block;
}

void free(void *block) {
    held -= block != NULL;
    __libc_free(block);
}
#endif

typedef struct call {
    char *name;
    int explains;
    uint32_t format, extras, status;
    plan_judge_texts texts;
    size_t length;
    char *text;
} call;

static call *calls;
static size_t call_count;
static long wrong;

static void fail(const call *it, const char *what) {
    __atomic_add_fetch(&wrong, 1, __ATOMIC_SEQ_CST);
    fprintf(stderr, "%s: %s\n", it->name, what);
}

static void *taken(size_t length, FILE *file) {
    char *block = malloc(length ? length : 1);
    if (!block || fread(block, 1, length, file) != length) exit(2);
    return block;
}

static uint64_t number(FILE *file) {
    uint64_t found;
    if (fread(&found, sizeof found, 1, file) != 1) exit(2);
    return found;
}

static plan_judge_file file_of(FILE *file) {
    plan_judge_file found;
    found.name_length = number(file);
    found.name = taken(found.name_length, file);
    found.length = number(file);
    found.bytes = taken(found.length, file);
    return found;
}

static void load(const char *path) {
    FILE *file = fopen(path, "rb");
    if (!file) exit(2);
    call_count = number(file);
    calls = calloc(call_count, sizeof *calls);
    for (size_t i = 0; i < call_count; i++) {
        call *it = &calls[i];
        size_t length = number(file);
        char *name = taken(length, file);
        it->name = strndup(name, length);
        free(name);
        it->explains = (int)number(file);
        it->format = (uint32_t)number(file);
        it->extras = (uint32_t)number(file);
        it->texts.dialect = (uint32_t)number(file);
        it->status = (uint32_t)number(file);
        it->texts.domain = file_of(file);
        it->texts.problem = file_of(file);
        it->texts.plan_count = number(file);
        plan_judge_file *plans = calloc(it->texts.plan_count ? it->texts.plan_count : 1, sizeof *plans);
        for (size_t k = 0; k < it->texts.plan_count; k++) plans[k] = file_of(file);
        it->texts.plans = plans;
        it->length = number(file);
        it->text = taken(it->length, file);
    }
    fclose(file);
}

static void unload(void) {
    for (size_t i = 0; i < call_count; i++) {
        call *it = &calls[i];
        for (size_t k = 0; k < it->texts.plan_count; k++) {
            free((void *)it->texts.plans[k].name);
            free((void *)it->texts.plans[k].bytes);
        }
        free((void *)it->texts.plans);
        free((void *)it->texts.domain.name);
        free((void *)it->texts.domain.bytes);
        free((void *)it->texts.problem.name);
        free((void *)it->texts.problem.bytes);
        free(it->name);
        free(it->text);
    }
    free(calls);
}

static plan_judge_answer made_by(const call *it, const plan_judge_texts *texts, void *out, size_t capacity) {
    return it->explains ? plan_judge_explain(texts, it->format, it->extras, out, capacity) : plan_judge_judge(texts, it->format, out, capacity);
}

static int is_all(const char *buffer, size_t length, char byte) {
    for (size_t i = 0; i < length; i++)
        if (buffer[i] != byte) return 0;
    return 1;
}

/* Compares what a call answered with a buffer of this capacity. */
static void look(const call *it, plan_judge_answer answer, const char *out, size_t capacity) {
    if (answer.status != it->status) fail(it, "another status");
    if (answer.length != it->length) fail(it, "another length");
    else if (capacity < it->length) {
        if (!is_all(out, capacity, 0x55)) fail(it, "a buffer that is too small was written to");
    } else if (memcmp(out, it->text, it->length) || !is_all(out + it->length, capacity - it->length, 0x55)) fail(it, "another text");
}

static char *buffer(size_t capacity) {
    char *out = malloc(capacity ? capacity : 1);
    memset(out, 0x55, capacity ? capacity : 1);
    return out;
}

/* Makes a call with a buffer of this capacity, and compares what is answered. */
static void compare(const call *it, size_t capacity) {
    char *out = buffer(capacity);
    look(it, made_by(it, &it->texts, out, capacity), out, capacity);
    free(out);
}

/* The same against a task that is kept. */
static void compare_judged(const call *it, plan_judge_task *task, size_t capacity) {
    char *out = buffer(capacity);
    void *kept = task->kept;
    look(it, plan_judge_judge_kept(task, it->texts.plans, it->texts.plan_count, it->format, out, capacity), out, capacity);
    if (task->kept != kept) fail(it, "another task is kept");
    free(out);
}

/* Keeps the task of a call, judges the plans of another call against it and then its own, and gives it back. If the task is refused, the call is. */
static void compare_kept(const call *it, const call *other) {
    plan_judge_task task = {0};
    char *out = buffer(it->length);
    plan_judge_answer answer = plan_judge_keep(&it->texts, &task, out, it->length);
    if (answer.status == PLAN_JUDGE_MADE) {
        if (answer.length || !task.kept || !is_all(out, it->length, 0x55)) fail(it, "a task is not kept as it should be");
        char few[100];
        plan_judge_judge_kept(&task, other->texts.plans, other->texts.plan_count, PLAN_JUDGE_LINES, few, sizeof few);
        compare_judged(it, &task, 0);
        if (it->length > 1) compare_judged(it, &task, it->length - 1);
        compare_judged(it, &task, it->length);
    } else {
        if (task.kept) fail(it, "a task is kept that was refused");
        look(it, answer, out, it->length);
    }
    plan_judge_give_back(&task);
    if (task.kept) fail(it, "a task is kept after it was given back");
    free(out);
}

static void compare_all(void) {
    for (size_t i = 0; i < call_count; i++) {
        compare(&calls[i], 0);
        if (calls[i].length > 1) compare(&calls[i], calls[i].length - 1);
        compare(&calls[i], calls[i].length);
        if (!calls[i].explains) compare_kept(&calls[i], &calls[(i + 1) % call_count]);
    }
}

static void *in_thread(void *start) {
    size_t first = *(size_t *)start;
    for (size_t i = 0; i < 5 * call_count; i++) {
        const call *it = &calls[(first + i) % call_count];
        compare(it, it->length + 7);
        if (!it->explains) compare_kept(it, it);
    }
    return NULL;
}

static void compare_in_threads(size_t count) {
    pthread_t threads[64];
    size_t starts[64];
    if (count > 64) exit(2);
    for (size_t i = 0; i < count; i++) {
        starts[i] = i * call_count / count;
        if (pthread_create(&threads[i], NULL, in_thread, &starts[i])) exit(2);
    }
    for (size_t i = 0; i < count; i++) pthread_join(threads[i], NULL);
}

/* A call that has no text and this status, and leaves its buffer as it was. */
static void misused(const call *it, const char *what, const plan_judge_texts *texts, uint32_t format, int explains, uint32_t extras) {
    char out[64];
    memset(out, 0x55, sizeof out);
    plan_judge_answer answer = explains ? plan_judge_explain(texts, format, extras, out, sizeof out) : plan_judge_judge(texts, format, out, sizeof out);
    if (answer.status != PLAN_JUDGE_MISUSED || answer.length || !is_all(out, sizeof out, 0x55)) fail(it, what);
}

static void refused_with(const call *it, const char *line, const plan_judge_texts *texts) {
    char out[200];
    for (int explains = 0; explains < 2; explains++) {
        plan_judge_answer answer = explains ? plan_judge_explain(texts, PLAN_JUDGE_LINES, 0, out, sizeof out) : plan_judge_judge(texts, PLAN_JUDGE_LINES, out, sizeof out);
        if (answer.status != PLAN_JUDGE_REFUSED || answer.length != strlen(line) || memcmp(out, line, answer.length)) fail(it, line);
    }
}

/* A call against a task that answers so, and leaves the task and its buffer as they were. */
static void judged_wrongly(const call *it, const char *what, plan_judge_task *task, const plan_judge_file *plans, size_t plan_count, uint32_t format) {
    char out[64];
    void *kept = task->kept;
    memset(out, 0x55, sizeof out);
    plan_judge_answer answer = plan_judge_judge_kept(task, plans, plan_count, format, out, sizeof out);
    if (answer.status != PLAN_JUDGE_MISUSED || answer.length || !is_all(out, sizeof out, 0x55) || task->kept != kept) fail(it, what);
}

static void kept_wrongly(const call *it, const char *line, plan_judge_task *task, const plan_judge_texts *texts, uint32_t status) {
    char out[64];
    memset(out, 0x55, sizeof out);
    plan_judge_answer answer = plan_judge_keep(texts, task, out, sizeof out);
    size_t length = strlen(line);
    if (answer.status != status || answer.length != length || memcmp(out, line, length) || !is_all(out + length, sizeof out - length, 0x55) || task->kept) fail(it, line);
}

/* A struct that keeps nothing, is given back again and again, or kept anew, and files of plans that a kept task is not judged against. */
static void misuse_kept(void) {
    const call *it = &calls[0];
    plan_judge_task task = {0};
    plan_judge_texts texts = it->texts;
    plan_judge_file plans[65];
    uint32_t unknown[] = {3, 4, 255, 256, 0x80000000u, 0xffffffffu};
    char out[200];
    for (int i = 0; i < 65; i++) plans[i] = texts.plans[0];
    judged_wrongly(it, "nothing was ever kept", &task, plans, 1, PLAN_JUDGE_LINES);
    for (int i = 0; i < 3; i++) plan_judge_give_back(&task);
    for (int i = 0; i < 3; i++)
        if (plan_judge_keep(&texts, &task, out, 0).status != PLAN_JUDGE_MADE || !task.kept) fail(it, "a task is not kept anew");
    compare_judged(it, &task, it->length);
    for (size_t i = 0; i < sizeof unknown / sizeof *unknown; i++) judged_wrongly(it, "an unknown format", &task, plans, 1, unknown[i]);
    plans[1].name = "a\xff";
    plans[1].name_length = 2;
    judged_wrongly(it, "a name that is not UTF-8", &task, plans, 2, PLAN_JUDGE_LINES);
    char *one = malloc(1);
    size_t lengths[] = {16777217, (size_t)1 << 40, SIZE_MAX / 2};
    for (int i = 0; i < 3; i++) {
        plan_judge_file large = {"large", 5, one, lengths[i]};
        plans[1] = large;
        plan_judge_answer answer = plan_judge_judge_kept(&task, plans, 2, PLAN_JUDGE_LINES, out, sizeof out);
        if (answer.status != PLAN_JUDGE_REFUSED || answer.length != 19 || memcmp(out, "large is too large\n", 19)) fail(it, "a large file of plans");
    }
    plans[1] = plans[0];
    plan_judge_answer answer = plan_judge_judge_kept(&task, plans, 65, PLAN_JUDGE_LINES, out, sizeof out);
    if (answer.status != PLAN_JUDGE_REFUSED || answer.length != 22 || memcmp(out, "more than 64 planners\n", 22)) fail(it, "65 files");
    if (plan_judge_judge_kept(&task, plans, 0, PLAN_JUDGE_LINES, out, 0).status != PLAN_JUDGE_MADE) fail(it, "no file");
    compare_judged(it, &task, it->length);

    /* What is refused is not kept, nor is what was kept before. */
    for (int i = 0; i < 3; i++) {
        plan_judge_file large = {"large", 5, one, lengths[i]};
        plan_judge_keep(&texts, &task, out, 0);
        texts.domain = large;
        kept_wrongly(it, "large is too large\n", &task, &texts, PLAN_JUDGE_REFUSED);
        texts.domain = it->texts.domain;
        texts.problem = large;
        kept_wrongly(it, "large is too large\n", &task, &texts, PLAN_JUDGE_REFUSED);
        texts.problem = it->texts.problem;
    }
    for (size_t i = 0; i < sizeof unknown / sizeof *unknown; i++) {
        plan_judge_keep(&texts, &task, out, 0);
        texts.dialect = unknown[i];
        kept_wrongly(it, "", &task, &texts, PLAN_JUDGE_MISUSED);
        texts.dialect = it->texts.dialect;
    }
    judged_wrongly(it, "nothing is kept any more", &task, plans, 1, PLAN_JUDGE_LINES);

    /* Plans are not looked at when a task is kept. */
    plan_judge_file large = {"a\xff", 2, one, SIZE_MAX / 2};
    texts.plans = &large;
    if (plan_judge_keep(&texts, &task, out, 0).status != PLAN_JUDGE_MADE) fail(it, "a task is not kept because of plans");
    for (int i = 0; i < 2; i++) plan_judge_give_back(&task);
    judged_wrongly(it, "a task that was given back", &task, plans, 1, PLAN_JUDGE_LINES);
    free(one);
}

static void misuse(void) {
    const call *it = &calls[0];
    plan_judge_file plans[65];
    plan_judge_texts texts = it->texts;
    char out[1];
    for (int i = 0; i < 65; i++) plans[i] = texts.plans[0];
    uint32_t unknown[] = {3, 4, 255, 256, 0x80000000u, 0xffffffffu};
    for (size_t i = 0; i < sizeof unknown / sizeof *unknown; i++) {
        texts.dialect = unknown[i];
        misused(it, "an unknown dialect", &texts, PLAN_JUDGE_LINES, 0, 0);
        misused(it, "an unknown dialect", &texts, PLAN_JUDGE_LINES, 1, 0);
        texts.dialect = it->texts.dialect;
        misused(it, "an unknown format", &texts, unknown[i], 0, 0);
        misused(it, "an unknown format", &texts, unknown[i], 1, 0);
        if (unknown[i] > 3) misused(it, "unknown extras", &texts, PLAN_JUDGE_LINES, 1, unknown[i]);
    }
    misused(it, "an explanation as a table", &texts, PLAN_JUDGE_TABLE, 1, 0);
    texts.plans = plans;
    texts.plan_count = 2;
    plans[1].name = "a\xff";
    plans[1].name_length = 2;
    misused(it, "a name that is not UTF-8", &texts, PLAN_JUDGE_LINES, 0, 0);
    plans[1] = plans[0];

    /* Of a file that is too large only the name is read: its bytes are one byte. */
    char *one = malloc(1);
    size_t lengths[] = {16777217, (size_t)1 << 40, SIZE_MAX / 2};
    for (int i = 0; i < 3; i++) {
        plan_judge_file large = {"large", 5, one, lengths[i]};
        texts.domain = large;
        refused_with(it, "large is too large\n", &texts);
        texts.domain = it->texts.domain;
        texts.problem = large;
        refused_with(it, "large is too large\n", &texts);
        texts.problem = it->texts.problem;
        plans[1] = large;
        refused_with(it, "large is too large\n", &texts);
        plans[1] = plans[0];
    }
    free(one);
    texts.plan_count = 65;
    plan_judge_answer answer = plan_judge_judge(&texts, PLAN_JUDGE_LINES, out, 0);
    if (answer.status != PLAN_JUDGE_REFUSED || answer.length != strlen("more than 64 planners\n")) fail(it, "65 files");
    texts.plan_count = 0;
    if (plan_judge_judge(&texts, PLAN_JUDGE_LINES, out, 0).status != PLAN_JUDGE_MADE) fail(it, "no file");

    /* Each pointer that may be NULL by mistake is found by plan_judge_has_no_null. */
    texts = it->texts;
    texts.plans = plans;
    texts.plan_count = 2;
    const void **pointers[] = {&texts.domain.name, &texts.domain.bytes, &texts.problem.name, &texts.problem.bytes, (const void **)&texts.plans,
                               &plans[0].name, &plans[0].bytes, &plans[1].name, &plans[1].bytes};
    if (!plan_judge_has_no_null(&texts) || plan_judge_has_no_null(NULL)) fail(it, "plan_judge_has_no_null");
    for (size_t i = 0; i < sizeof pointers / sizeof *pointers; i++) {
        const void *kept = *pointers[i];
        *pointers[i] = NULL;
        if (plan_judge_has_no_null(&texts)) fail(it, "a NULL is not found");
        *pointers[i] = kept;
    }
}

#ifdef REFUSE
/* Keeps the task of a call and judges its plans, with each allocation refused in turn. How many were, and how many calls said so, is added up. */
static void refuse_kept(const call *it, long *all, long *lacking) {
    char *out = malloc(it->length + 1);
    long before = held;
    for (long which = 1;; which++) {
        plan_judge_task task = {0};
        memset(out, 0x55, it->length + 1);
        made = 0, refused = which;
        plan_judge_answer kept = plan_judge_keep(&it->texts, &task, out, it->length), answer = kept;
        if (kept.status == PLAN_JUDGE_MADE) answer = plan_judge_judge_kept(&task, it->texts.plans, it->texts.plan_count, it->format, out, it->length);
        refused = -1;
        long count = made;
        int is_lack = answer.status == PLAN_JUDGE_OUT_OF_MEMORY && !answer.length && is_all(out, it->length + 1, 0x55);
        int is_whole = answer.status == it->status && answer.length == it->length && !memcmp(out, it->text, it->length);
        if (!(is_lack && count >= which) && !is_whole) fail(it, "another answer of a kept task after a refused allocation");
        if ((kept.status == PLAN_JUDGE_MADE) != (task.kept != NULL)) fail(it, "what is kept is not what the status says");
        if (task.kept) compare_judged(it, &task, it->length);
        plan_judge_give_back(&task);
        if (held != before) fail(it, "blocks of a kept task were not freed");
        if (count < which) break;
        ++*all, *lacking += is_lack;
    }
    free(out);
}

static void refuse(void) {
    long all = 0, lacking = 0;
    for (size_t i = 0; i < call_count; i++) {
        const call *it = &calls[i];
        char *out = malloc(it->length + 1);
        for (long which = 1;; which++) {
            memset(out, 0x55, it->length + 1);
            long before = held;
            made = 0, refused = which;
            plan_judge_answer answer = made_by(it, &it->texts, out, it->length);
            refused = -1;
            long count = made;
            if (held != before) fail(it, "blocks were not freed");
            int is_lack = answer.status == PLAN_JUDGE_OUT_OF_MEMORY && !answer.length && is_all(out, it->length + 1, 0x55);
            int is_whole = answer.status == it->status && answer.length == it->length && !memcmp(out, it->text, it->length);
            if (!(is_lack && count >= which) && !is_whole) fail(it, "another answer after a refused allocation");
            if (count < which) break;
            all++, lacking += is_lack;
        }
        free(out);
        if (!it->explains) refuse_kept(it, &all, &lacking);
    }
    printf("%ld allocations refused in turn, %ld calls said so, ", all, lacking);
}
#endif

static long resident(void) {
    long pages = 0, all = 0;
    FILE *file = fopen("/proc/self/statm", "r");
    if (!file || fscanf(file, "%ld %ld", &all, &pages) != 2) exit(2);
    fclose(file);
    return pages * 4;
}

/* Makes the first call again and again, against a task that is kept if there is one. */
static void time_calls(long count, plan_judge_task *task) {
    const call *it = &calls[0];
    char *out = malloc(it->length + 1);
    struct timespec begin, end;
    long before = resident();
    clock_gettime(CLOCK_MONOTONIC, &begin);
    for (long i = 0; i < count; i++) {
        plan_judge_answer answer = task ? plan_judge_judge_kept(task, it->texts.plans, it->texts.plan_count, it->format, out, it->length)
                                        : made_by(it, &it->texts, out, it->length);
        if (answer.length != it->length || memcmp(out, it->text, it->length)) fail(it, "another answer");
    }
    clock_gettime(CLOCK_MONOTONIC, &end);
    double seconds = (double)(end.tv_sec - begin.tv_sec) + (double)(end.tv_nsec - begin.tv_nsec) / 1e9;
    printf("%.2f microseconds a call, %ld KiB before and %ld KiB after, ", seconds * 1e6 / (double)count, before, resident());
    free(out);
}

static void time_kept(long count) {
    plan_judge_task task = {0};
    char out[1];
    plan_judge_keep(&calls[0].texts, &task, out, 0);
    time_calls(count, &task);
    plan_judge_give_back(&task);
}

int main(int count, char **words) {
    if (count < 3) return 2;
    load(words[1]);
    const char *what = words[2];
    size_t number_given = count > 3 ? strtoul(words[3], NULL, 10) : 0;
    if (!strcmp(what, "all")) compare_all();
    else if (!strcmp(what, "misuse")) misuse(), misuse_kept();
    else if (!strcmp(what, "threads")) compare_in_threads(number_given);
    else if (!strcmp(what, "time")) time_calls((long)number_given, NULL);
    else if (!strcmp(what, "kept")) time_kept((long)number_given);
#ifdef REFUSE
    else if (!strcmp(what, "refuse")) refuse();
#endif
    else return 2;
    printf("%zu calls, %ld wrong\n", call_count, wrong);
    unload();
    return wrong ? 1 : 0;
}
