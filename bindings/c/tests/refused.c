/* Each allocation of each dialogue refused in turn: refused STEP ([--line BYTES] [--numbers N] LINES REPLIES)..
 * Up to the refusal the replies are the expected ones. If the session goes on, the line is sent again, and all replies are the expected ones.
 * Otherwise it has ended, and each call returns HP_OUT_OF_MEMORY. hp_close leaves nothing in use. If a smaller block is refused that was to replace one
 * with too much room, no call reports it, and all replies are the expected ones. This may be so of one refusal in twenty. Linked with --wrap for
 * malloc, realloc and free. */
#include "dialogues.h"
#include "refusing.h"

/* Whether a session that was refused memory goes on. */
static bool goes_on(hp_session *session)
{
    hp_counts now;
    return hp_in_use(session, &now) == HP_OK;
}

/* Lines that were sent again. */
static unsigned long again;

/* Sends all lines; returns the first fault, or NULL. `was_refused` is set if the session has ended out of memory. */
static const char *run(hp_session *session, const struct dialogue *it, bool *was_refused)
{
    size_t due = 0;
    for (size_t at = 0; at < it->given.length;) {
        size_t length = line_length(&it->given, at);
        hp_bytes reply;
        uint8_t status = say(session, it->given.bytes + at, length, &reply);
        if (status == HP_OUT_OF_MEMORY && goes_on(session)) {
            again++;
            status = say(session, it->given.bytes + at, length, &reply);
            if (status == HP_OUT_OF_MEMORY)
                return "a second refusal";
        }
        at += length + 1;
        if (status == 255 || status == HP_CLOSED || (*was_refused && status != HP_OUT_OF_MEMORY))
            return "a status that does not fit the borrowed reply, or another than HP_OUT_OF_MEMORY after the session ended";
        *was_refused = *was_refused || status == HP_OUT_OF_MEMORY;
        if (*was_refused)
            continue;
        if (due + reply.length > it->due.length || memcmp(it->due.bytes + due, reply.bytes, reply.length) != 0)
            return "another reply than the one that is due";
        due += reply.length;
    }
    return *was_refused || due == it->due.length ? NULL : "fewer replies than are due";
}

/* Runs in which the refusal was met and no call reported it. */
static unsigned long untold;

/* One run with one refusal; `was_met` is set if the refusal was met. */
static const char *once(const struct dialogue *it, unsigned long at, bool *was_met)
{
    hp_session session = HP_SESSION_INIT;
    const char *fault = NULL;
    bool was_refused = false;
    unsigned long said_again = again;
    refuse(at);
    uint8_t status = hp_open(&session, it->numbers, it->line);
    if (status == HP_OK) {
        fault = run(&session, it, &was_refused);
        if (hp_close(&session) != HP_OK)
            fault = "hp_close did not close";
    } else if (status != HP_OUT_OF_MEMORY) {
        fault = "hp_open returned another status than HP_OK and HP_OUT_OF_MEMORY";
    }
    counts = false;
    *was_met = asked >= at;
    if (!fault && session.is_open)
        fault = "the session is still open";
    if (!fault && (status == HP_OUT_OF_MEMORY || was_refused) && !*was_met)
        fault = "out of memory, though no allocation was refused";
    untold += *was_met && status == HP_OK && !was_refused && again == said_again;
    return fault || in_use == 0 ? fault : "something is in use after hp_close";
}

static unsigned long turns(const struct dialogue *it, unsigned long step)
{
    unsigned long runs = 0;
    bool was_met = true;
    for (unsigned long at = 1; was_met; at += step, runs++) {
        const char *fault = once(it, at, &was_met);
        if (fault) {
            fprintf(stderr, "%s, allocation %lu refused: %s\n", it->name, at, fault);
            exit(1);
        }
    }
    return runs - 1;
}

int main(int count, char **words)
{
    unsigned long runs = 0, step = count > 1 ? strtoul(words[1], NULL, 10) : 0;
    struct dialogue *found = malloc((size_t)count * sizeof *found);
    if (!step || !found)
        return 2;
    int n = dialogues(count, words, 2, found);
    for (int i = 0; i < n; i++)
        runs += turns(&found[i], step);
    printf("%d dialogues, %lu runs with an allocation refused; in %lu the line was said again, and %lu were smaller blocks\n", n, runs, again, untold);
    forget(found, n);
    return untold * 20 > runs || !again;
}
