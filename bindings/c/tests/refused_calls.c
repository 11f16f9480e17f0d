/* Each allocation of a scene of calls refused in turn: calls that copy names, texts, lists of names and trees. If the session goes on, the
 * call is made again, and all pass. Otherwise it has ended, and each call returns HP_OUT_OF_MEMORY. hp_close leaves nothing in use. If a smaller block
 * is refused that was to replace one with too much room, no call reports it. This may be so of one refusal in twenty. Linked with --wrap for malloc,
 * realloc and free. */
#include "huckleport.h"
#include "refusing.h"
#include <stdio.h>

enum { CALLS = 26 };

/* The call of a number, over what those before it made. */
static uint8_t call(hp_session *session, int number)
{
    static const uint8_t names[] = { 'a', 'b', 'c', 'c' }, verdicts[] = { 1, 3 };
    static const uint32_t lengths[] = { 1, 3 };
    hp_options options = HP_OPTIONS_INIT;
    uint32_t made;
    uint8_t flag;
    options.attributes = options.subtree = options.child_list = options.character_data_old_value = 1;
    options.attribute_filter = 1;
    switch (number) {
    case 0: return hp_create_element(session, 0, hp_name("article"), &made);
    case 1: return hp_append_child(session, 0, 1);
    case 2: return hp_create_text(session, 0, hp_text_literal("some text that is to be split"), &made);
    case 3: return hp_append_child(session, 1, 2);
    case 4: return hp_create_comment(session, 0, hp_text_literal("aside"), &made);
    case 5: return hp_insert_before(session, 1, 3, 2);
    case 6: return hp_create_pi(session, 0, hp_name("target"), hp_text_literal("data"), &made);
    case 7: return hp_create_doctype(session, 0, hp_name("html"), hp_name("public"), hp_name("system"), &made);
    case 8: return hp_create_observer(session, &made);
    case 9: return hp_observe(session, 0, 1, &options, names, sizeof names, lengths, 2);
    case 10: return hp_set_attribute(session, 1, hp_name("a"), hp_text_literal("value"));
    case 11: return hp_toggle_attribute(session, 1, hp_name("bcc"), 2, &flag);
    case 12: return hp_create_iterator(session, 1, HP_NONE, names, sizeof names, lengths, 2, verdicts, 2, &made);
    case 13: return hp_create_walker(session, 1, HP_NONE, names, sizeof names, lengths, 2, verdicts, 2, &made);
    case 14: return hp_create_range(session, 0, &made);
    case 15: return hp_select_node_contents(session, 0, 1);
    case 16: return hp_split_text(session, 2, 4, &made);
    case 17: return hp_append_data(session, 2, hp_text_literal(" more of it"));
    case 18: return hp_insert_data(session, 2, 1, hp_text_literal("in"));
    case 19: return hp_replace_data(session, 2, 0, 2, hp_text_literal("out"));
    case 20: return hp_set_data(session, 2, hp_text_literal("anew"));
    case 21: return hp_clone_node(session, 1, true, &made);
    case 22: return hp_tree(session, 0);
    case 23: return hp_get_attribute(session, 1, hp_name("a"));
    case 24: return hp_take_records(session, 0);
    default: return hp_set_text_content(session, 1, hp_text_literal("all of it"));
    }
}

/* Calls that were made again. */
static unsigned long again;
/* Runs in which the refusal was met and no call reported it. */
static unsigned long untold;

/* One run with one refusal: the first fault, or NULL. */
static const char *once(unsigned long at, bool *was_met, int *where)
{
    hp_session session = HP_SESSION_INIT;
    const char *fault = NULL;
    unsigned long made_again = again;
    refuse(at);
    uint8_t status = hp_open(&session, 100, 100);
    bool was_refused = status == HP_OUT_OF_MEMORY;
    for (*where = 0; status == HP_OK && *where < CALLS && !fault; ++*where) {
        uint8_t said = call(&session, *where);
        hp_counts now;
        if (said == HP_OUT_OF_MEMORY && hp_in_use(&session, &now) == HP_OK) {
            again++;
            said = call(&session, *where);
            fault = said == HP_OUT_OF_MEMORY ? "a second refusal" : NULL;
        }
        if (said != (was_refused ? HP_OUT_OF_MEMORY : HP_OK) && said != HP_OUT_OF_MEMORY)
            fault = hp_status_word(said);
        was_refused = was_refused || said == HP_OUT_OF_MEMORY;
    }
    if (!fault && status == HP_OK && hp_close(&session) != HP_OK)
        fault = "hp_close did not close";
    counts = false;
    *was_met = asked >= at;
    untold += *was_met && !was_refused && again == made_again;
    if (!fault && was_refused && !*was_met)
        fault = "out of memory, though no allocation was refused";
    if (!fault && (session.is_open || in_use != 0))
        fault = "something is in use at the end";
    return fault;
}

int main(void)
{
    bool was_met = true;
    unsigned long at = 0;
    while (was_met) {
        int where;
        const char *fault = once(++at, &was_met, &where);
        if (fault) {
            printf("allocation %lu refused, call %d: %s\n", at, where - 1, fault);
            return 1;
        }
    }
    printf("%d calls, %lu runs with an allocation refused; in %lu the call was made again, and %lu were smaller blocks\n", CALLS, at - 1, again, untold);
    return untold * 20 > at - 1 || !again;
}
