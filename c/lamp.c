/* Judges the plans of the lamp. Build the library and this program as docs/LIBRARY.md says, and run it at the top of the repository. */
#include "plan_judge.h"

#include <stdio.h>
#include <string.h>

/* Reads a file into a buffer of 4096 bytes, and gives it with its name. */
static plan_judge_file load(const char *name, char *buffer) {
    FILE *file = fopen(name, "rb");
    size_t length = file ? fread(buffer, 1, 4096, file) : 0;
    if (file) fclose(file);
    return (plan_judge_file){name, strlen(name), buffer, length};
}

int main(void) {
    char domain[4096], problem[4096], plan[4096], twice[4096], report[4096];
    plan_judge_file plans[] = {load("examples/lamp/plan", plan), load("examples/lamp/twice", twice)};
    plan_judge_texts texts = {
        .domain = load("examples/lamp/domain.pddl", domain),
        .problem = load("examples/lamp/problem.pddl", problem),
        .plans = plans,
        .plan_count = 2,
        .dialect = PLAN_JUDGE_STRIPS,
    };
    plan_judge_answer answer = plan_judge_judge(&texts, PLAN_JUDGE_LINES, report, sizeof report);
    if (answer.length > sizeof report) return 4;
    fwrite(report, 1, answer.length, answer.status == PLAN_JUDGE_MADE ? stdout : stderr);
    return (int)answer.status;
}
