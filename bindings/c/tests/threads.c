/* Two sessions on two threads at once, each through all dialogues: threads TIMES ([--line BYTES] [--numbers N] LINES REPLIES).. */
#define _POSIX_C_SOURCE 200809L
#include "dialogues.h"
#include <pthread.h>

struct work {
    const struct dialogue *found;
    int count, times;
    const char *fault;
};

static const char *run(const struct dialogue *it)
{
    hp_session session = HP_SESSION_INIT;
    size_t due = 0;
    if (hp_open(&session, it->numbers, it->line) != HP_OK)
        return "hp_open";
    for (size_t at = 0; at < it->given.length;) {
        size_t length = line_length(&it->given, at);
        hp_bytes reply;
        say(&session, it->given.bytes + at, length, &reply);
        at += length + 1;
        if (due + reply.length > it->due.length || memcmp(it->due.bytes + due, reply.bytes, reply.length) != 0)
            break;
        due += reply.length;
    }
    hp_close(&session);
    return due == it->due.length ? NULL : it->name;
}

static void *work(void *given)
{
    struct work *work = given;
    for (int i = 0; i < work->count * work->times && !work->fault; i++)
        work->fault = run(&work->found[i % work->count]);
    return NULL;
}

int main(int count, char **words)
{
    int times = count > 1 ? atoi(words[1]) : 0;
    struct dialogue *found = malloc((size_t)count * sizeof *found);
    pthread_t threads[2];
    if (times < 1 || !found)
        return 2;
    int n = dialogues(count, words, 2, found), status = 0;
    struct work works[2] = { { found, n, times, NULL }, { found, n, times, NULL } };
    for (int i = 0; i < 2; i++)
        if (pthread_create(&threads[i], NULL, work, &works[i]))
            return 2;
    for (int i = 0; i < 2; i++) {
        pthread_join(threads[i], NULL);
        if (works[i].fault) {
            fprintf(stderr, "thread %d: other replies than are due: %s\n", i, works[i].fault);
            status = 1;
        }
    }
    forget(found, n);
    return status;
}
