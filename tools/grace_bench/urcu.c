/* What the proved program grace_bench does by the words `report N` and `wait R N`, with the quiescent-state flavour of
   liburcu in place of the proved calls. It writes the same line once it is done. */
#include <pthread.h>
#include <stdatomic.h>
#include <stdio.h>
#include <stdlib.h>
#include <string.h>
#include <urcu/urcu-qsbr.h>

enum { MOST_READERS = 16, NOT_UNDERSTOOD = 2, NO_THREAD = 6 };

static _Alignas(128) long generations[2];
static _Alignas(128) long *root = generations;
static _Alignas(128) atomic_int readers_there;
static _Alignas(128) atomic_int done;

/* One report: this thread is in no read-side section, and then reads the root anew. */
static long report(void)
{
    urcu_qsbr_quiescent_state();
    return *rcu_dereference(root);
}

/* Reports until it is told to end. */
static void *report_on(void *unused)
{
    (void)unused;
    urcu_qsbr_register_thread();
    atomic_fetch_add(&readers_there, 1);
    while (!atomic_load(&done))
        report();
    urcu_qsbr_unregister_thread();
    return NULL;
}

/* One thread reports so often, and nobody waits. */
static int report_alone(long times)
{
    urcu_qsbr_register_thread();
    for (long round = 0; round < times; round++)
        report();
    urcu_qsbr_unregister_thread();
    printf("report %ld\n", times);
    return 0;
}

/* This thread publishes and waits for so many grace periods beneath so many that report. */
static int wait_beside(int readers, long times)
{
    pthread_t threads[MOST_READERS];

    for (int each = 0; each < readers; each++)
        if (pthread_create(&threads[each], NULL, report_on, NULL))
            return NO_THREAD;
    while (atomic_load(&readers_there) < readers)
        ;
    for (long round = 0; round < times; round++) {
        rcu_assign_pointer(root, &generations[round & 1]);
        urcu_qsbr_synchronize_rcu();
    }
    atomic_store(&done, 1);
    for (int each = 0; each < readers; each++)
        pthread_join(threads[each], NULL);
    printf("wait %d %ld\n", readers, times);
    return 0;
}

int main(int count, char **words)
{
    if (count == 3 && !strcmp(words[1], "report"))
        return report_alone(atol(words[2]));
    if (count == 4 && !strcmp(words[1], "wait")) {
        int readers = atoi(words[2]);
        if (readers > 0 && readers <= MOST_READERS)
            return wait_beside(readers, atol(words[3]));
    }
    return NOT_UNDERSTOOD;
}
