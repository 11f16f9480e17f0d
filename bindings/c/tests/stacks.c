/* Runs each dialogue, and lines nested deeper than any that is read, on a thread with a stack of that size:
 * stacks BYTES ([--line BYTES] [--numbers N] LINES REPLIES).. */
#define _POSIX_C_SOURCE 200809L
#include "dialogues.h"
#include <limits.h>
#include <pthread.h>

/* Deeper than any line that is read as JSON. */
#define DEEPEST 300

struct work {
    const struct dialogue *found;
    int count;
    const char *fault;
};

/* Says a line nested in arrays or in objects; returns whether its reply fits its status. */
static int nested(hp_session *session, const char *head, const char *open, char close, const char *tail, int depth)
{
    size_t length = strlen(head) + (strlen(open) + 1) * (size_t)depth + strlen(tail), at = 0;
    char *line = malloc(length + 1);
    hp_bytes reply;
    if (!line)
        return 0;
    at += (size_t)sprintf(line, "%s", head);
    for (int i = 0; i < depth; i++)
        at += (size_t)sprintf(line + at, "%s", open);
    memset(line + at, close, (size_t)depth);
    strcpy(line + at + depth, tail);
    uint8_t status = say(session, (const uint8_t *)line, length, &reply);
    free(line);
    return status != 255;
}

static const char *deep(void)
{
    hp_session session = HP_SESSION_INIT;
    const char *fault = NULL;
    if (hp_open(&session, 100, 1 << 20) != HP_OK)
        return "hp_open";
    for (int depth = 1; depth <= DEEPEST && !fault; depth++)
        if (!nested(&session, "", "[", ']', "", depth) || !nested(&session, "[\"observe\",0,0,", "{\"a\":", '}', "]", depth) ||
            !nested(&session, "[\"createIterator\",0,1,", "[", ']', "]", depth))
            fault = "a nested line";
    hp_close(&session);
    return fault;
}

static const char *run(const struct dialogue *it)
{
    hp_session session = HP_SESSION_INIT;
    size_t due = 0;
    if (hp_open(&session, it->numbers, it->line) != HP_OK)
        return "hp_open";
    for (size_t at = 0; at < it->given.length;) {
        size_t length = line_length(&it->given, at);
        hp_bytes reply;
        say(&session, it->given.bytes + at, length, &reply);
        at += length + 1;
        if (due + reply.length > it->due.length || memcmp(it->due.bytes + due, reply.bytes, reply.length) != 0)
            break;
        due += reply.length;
    }
    hp_close(&session);
    return due == it->due.length ? NULL : it->name;
}

static void *work(void *given)
{
    struct work *work = given;
    work->fault = deep();
    for (int i = 0; i < work->count && !work->fault; i++)
        work->fault = run(&work->found[i]);
    return NULL;
}

int main(int count, char **words)
{
    size_t bytes = count > 1 ? (size_t)atol(words[1]) : 0;
    struct dialogue *found = malloc((size_t)count * sizeof *found);
    pthread_attr_t small;
    pthread_t thread;
    if (!found || bytes < PTHREAD_STACK_MIN || pthread_attr_init(&small) || pthread_attr_setstacksize(&small, bytes))
        return 2;
    struct work works = { found, dialogues(count, words, 2, found), NULL };
    if (pthread_create(&thread, &small, work, &works))
        return 2;
    pthread_join(thread, NULL);
    pthread_attr_destroy(&small);
    if (works.fault)
        fprintf(stderr, "on a stack of %zu bytes: %s\n", bytes, works.fault);
    else
        printf("%d dialogues, and lines nested %d deep, on a stack of %zu bytes\n", works.count, DEEPEST, bytes);
    forget(found, works.count);
    return works.fault != NULL;
}
