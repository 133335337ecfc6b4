#include "regions.h" /* In C: gcc -std=gnu11 -funsigned-char -fwrapv -fno-builtin -ftrivial-auto-var-init=zero -o handles handles.c */

/* Handles that are kept in objects of another region. Each job has a region of its own, and its entry
   in the table holds the handle. The entry is a reference like any other, so it is cleared before the
   deletion: the handle goes through a local. */
struct job {
    region own;
    int *result;
    struct job *sameregion next;
};

struct job *start(region table, struct job *jobs, int n) {
    struct job *j = ralloc(table, struct job);
    j->own = newregion();
    j->result = ralloc(j->own, int);
    *j->result = n * n;
    j->next = jobs;
    return j;
}

void finish(struct job *j) deletes {
    region own = j->own;
    j->own = NULL;
    j->result = NULL;
    deleteregion(own);
}

int main(void) deletes {
    region table = newregion();
    struct job *jobs = NULL;
    int i, sum = 0;
    for (i = 1; i <= 5; i++) jobs = start(table, jobs, i);
    while (jobs) {
        sum += *jobs->result;
        finish(jobs);
        jobs = jobs->next;
    }
    deleteregion(table);
    return sum;
}
