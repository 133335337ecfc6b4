/* Three tasks over one region: jobs are made in a box, taken out and done, and the box is closed. The choices say
   which task runs when: rc tasks tasks.c 0011. By some the box is closed while a task that waits still needs
   its job, first of them by 02. That is trapped. */
struct job {
    int number;
    struct job *sameregion next;
};

region box;
struct job *jobs;
int made;

void yield(void) deletes;

void start(void) {
    box = newregion();
}

/* Makes a job, and puts it before the others when it goes on. */
void task_0(void) deletes {
    struct job *j;
    if (!box) return;
    made++;
    j = ralloc(box, struct job);
    j->number = made;
    yield();
    j->next = jobs;
    jobs = j;
}

/* Takes the first job out, and does it when it goes on. */
void task_1(void) deletes {
    struct job *j = jobs;
    if (!j) return;
    jobs = j->next;
    yield();
    putchar('0' + j->number % 10);
}

/* Closes the box: the jobs end with their region. */
void task_2(void) deletes {
    region old = box;
    if (!old) return;
    box = NULL;
    jobs = NULL;
    deleteregion(old);
}
