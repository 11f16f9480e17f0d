/* Wrong arguments from C, and questions for missing items: each call returns its status, and nothing changes. */
#include "huckleport.h"
#include <stdio.h>
#include <string.h>

static int faults;

#define WANT(wanted, call) want(wanted, call, #call)

static void want(uint8_t wanted, uint8_t status, const char *what)
{
    if (status == wanted)
        return;
    printf("%s answers %s, and not %s\n", what, hp_status_word(status), hp_status_word(wanted));
    faults++;
}

static void limits(hp_session *session)
{
    WANT(HP_BAD_LIMITS, hp_open(session, 0, 100));
    WANT(HP_BAD_LIMITS, hp_open(session, 4294967296u, 100));
    WANT(HP_BAD_LIMITS, hp_open(session, 10, 0));
    WANT(HP_CLOSED, hp_close(session));
    WANT(HP_OK, hp_open(session, 100, 100));
    WANT(HP_ALREADY_OPEN, hp_open(session, 100, 100));
}

static void names(hp_session *session)
{
    const uint8_t cut[] = { 'a', 0xc3 }, surrogate[] = { 'a', 0xed, 0xa0, 0x80 };
    uint32_t element = 77;
    WANT(HP_NOT_UTF8, hp_create_element(session, 0, cut, sizeof cut, &element));
    WANT(HP_NOT_UTF8, hp_create_element(session, 0, surrogate, sizeof surrogate, &element));
    WANT(HP_INVALID_CHARACTER_ERROR, hp_create_element(session, 0, NULL, 0, &element));
    WANT(HP_BAD_LENGTHS, hp_create_element(session, 0, NULL, 3, &element));
    WANT(HP_NO_SUCH_OBJECT, hp_create_element(session, 9, hp_name("a"), &element));
    if (element != 77)
        faults++;
    WANT(HP_OK, hp_create_element(session, 0, hp_name("a"), &element));
    if (element != 1)
        faults++;
    WANT(HP_NOT_UTF8, hp_set_attribute(session, element, cut, sizeof cut, NULL, 0));
    WANT(HP_OK, hp_set_attribute(session, element, hp_name("a"), NULL, 0));
}

static void lists(hp_session *session)
{
    const uint8_t pair[] = { 'a', 'b' }, verdicts[] = { 1, 3 }, none[] = { 1, 4 };
    const uint32_t fit[] = { 1, 1 }, long_[] = { 1, 2 }, short_[] = { 1, 0 }, most[] = { 1, 4294967295u };
    hp_options options = HP_OPTIONS_INIT;
    uint32_t made = 77;
    WANT(HP_BAD_LENGTHS, hp_create_walker(session, 0, HP_NONE, pair, 2, long_, 2, verdicts, 2, &made));
    WANT(HP_BAD_LENGTHS, hp_create_walker(session, 0, HP_NONE, pair, 2, short_, 2, verdicts, 2, &made));
    WANT(HP_BAD_LENGTHS, hp_create_walker(session, 0, HP_NONE, pair, 2, most, 2, verdicts, 2, &made));
    WANT(HP_BAD_LENGTHS, hp_create_walker(session, 0, HP_NONE, pair, 2, fit, 2, verdicts, 1, &made));
    WANT(HP_BAD_CHOICE, hp_create_walker(session, 0, HP_NONE, pair, 2, fit, 2, none, 2, &made));
    if (made != 77)
        faults++;
    WANT(HP_OK, hp_create_walker(session, 0, HP_NONE, pair, 2, fit, 2, verdicts, 2, &made));
    WANT(HP_BAD_CHOICE, hp_walk(session, made, 7, &made));
    WANT(HP_OK, hp_create_observer(session, &made));
    WANT(HP_TYPE_ERROR, hp_observe(session, made, 0, &options, NULL, 0, NULL, 0));
    options.child_list = 3;
    WANT(HP_BAD_CHOICE, hp_observe(session, made, 0, &options, NULL, 0, NULL, 0));
    options.child_list = 1;
    options.attribute_filter = 1;
    WANT(HP_BAD_LENGTHS, hp_observe(session, made, 0, &options, pair, 2, long_, 2));
    WANT(HP_OK, hp_observe(session, made, 0, &options, pair, 2, fit, 2));
}

static void parts(hp_session *session)
{
    hp_text_view text;
    hp_bytes bytes;
    size_t count = 77;
    uint32_t number = 77;
    WANT(HP_OK, hp_children(session, 1));
    WANT(HP_OK, hp_count(session, &count));
    if (count != 0)
        faults++;
    WANT(HP_NOT_THERE, hp_number_at(session, 0, &number));
    WANT(HP_NOT_THERE, hp_number_at(session, (size_t)-1, &number));
    count = 77;
    WANT(HP_OK, hp_numbers_into(session, &number, 1, &count));
    if (count != 0 || number != 77)
        faults++;
    WANT(HP_NOT_THERE, hp_name_at(session, 0, &bytes));
    WANT(HP_NOT_THERE, hp_text(session, &text));
    WANT(HP_OK, hp_attribute_names(session, 1));
    WANT(HP_OK, hp_name_at(session, 0, &bytes));
    if (bytes.length != 1 || bytes.bytes[0] != 'a')
        faults++;
    WANT(HP_NOT_THERE, hp_name_at(session, 1, &bytes));
    WANT(HP_NOT_THERE, hp_number_at(session, 0, &number));
    WANT(HP_OK, hp_get_attribute(session, 1, hp_name("b")));
    WANT(HP_NOT_THERE, hp_text(session, &text));
    WANT(HP_OK, hp_get_attribute(session, 1, hp_name("a")));
    WANT(HP_OK, hp_text(session, &text));
    WANT(HP_NOT_THERE, hp_count(session, &count));
    WANT(HP_NOT_THERE, hp_numbers_into(session, &number, 1, &count));
    if (number != 77 || text.length != 0)
        faults++;
}

/* Rows: an item past the end or of another kind is HP_NOT_THERE, and the values at the out pointers stay. */
static void rows(hp_session *session)
{
    hp_row row = { 7, 7, 7, 7 };
    hp_text_view text;
    hp_bytes bytes;
    WANT(HP_NOT_THERE, hp_row_at(session, 0, &row));
    WANT(HP_OK, hp_tree(session, 1));
    WANT(HP_NOT_THERE, hp_row_at(session, 1, &row));
    WANT(HP_NOT_THERE, hp_row_at(session, (size_t)-1, &row));
    if (row.depth != 7 || row.node != 7 || row.type != 7 || row.attributes != 7)
        faults++;
    WANT(HP_OK, hp_row_at(session, 0, &row));
    if (row.depth != 0 || row.node != 1 || row.type != 1 || row.attributes != 1)
        faults++;
    WANT(HP_OK, hp_row_name(session, 0, 0, &bytes));
    if (bytes.length != 1 || bytes.bytes[0] != 'a')
        faults++;
    WANT(HP_NOT_THERE, hp_row_name(session, 1, 0, &bytes));
    WANT(HP_NOT_THERE, hp_row_name(session, 0, 1, &bytes));
    WANT(HP_NOT_THERE, hp_row_name(session, 0, 2, &bytes));
    WANT(HP_NOT_THERE, hp_row_name(session, 0, 255, &bytes));
    WANT(HP_NOT_THERE, hp_row_text(session, 0, &text));
    WANT(HP_OK, hp_row_attribute_name(session, 0, 0, &bytes));
    WANT(HP_NOT_THERE, hp_row_attribute_name(session, 0, 1, &bytes));
    WANT(HP_NOT_THERE, hp_row_attribute_name(session, 1, 0, &bytes));
    WANT(HP_OK, hp_row_attribute_value(session, 0, 0, &text));
    WANT(HP_NOT_THERE, hp_row_attribute_value(session, 0, 1, &text));
    WANT(HP_NOT_THERE, hp_row_attribute_value(session, (size_t)-1, 0, &text));
    WANT(HP_NOT_THERE, hp_node_name(session, 0, &bytes));
    WANT(HP_OK, hp_node(session, 1, &(hp_place){ 0, 0, 0, 0, 0 }));
    WANT(HP_OK, hp_node_name(session, 0, &bytes));
    WANT(HP_NOT_THERE, hp_node_name(session, 3, &bytes));
    WANT(HP_NOT_THERE, hp_row_at(session, 0, &row));
}

/* All records of a notice at once: those that there is room for, and how many there are. */
static void copied(hp_session *session, const hp_record *due)
{
    hp_record records[2] = { { 7, 7, 7, 7, 7, 7 }, { 7, 7, 7, 7, 7, 7 } };
    size_t count = 77;
    WANT(HP_NOT_THERE, hp_records_into(session, 1, records, 2, &count));
    WANT(HP_BAD_LENGTHS, hp_records_into(session, 0, NULL, 2, &count));
    if (count != 77 || records[0].target != 7)
        faults++;
    WANT(HP_OK, hp_records_into(session, 0, NULL, 0, &count));
    if (count != 1 || records[0].target != 7)
        faults++;
    WANT(HP_OK, hp_records_into(session, 0, records, 2, &count));
    if (count != 1 || records[0].type != due->type || records[0].target != due->target || records[0].added != due->added)
        faults++;
    if (records[0].previous != due->previous || records[0].next != due->next || records[1].target != 7)
        faults++;
}

/* Records, by the same rule; those that were taken are those of notice 0 alone. Observer 0 watches the children of node 0. */
static void records(hp_session *session)
{
    hp_notice notice = { 7, 7 };
    hp_record record = { 7, 7, 7, 7, 7, 7 };
    hp_text_view text;
    hp_bytes bytes;
    uint32_t node = 77;
    WANT(HP_NOT_THERE, hp_notice_at(session, 0, &notice));
    WANT(HP_OK, hp_append_child(session, 0, 1));
    WANT(HP_OK, hp_take_records(session, 0));
    WANT(HP_NOT_THERE, hp_notice_at(session, 0, &notice));
    WANT(HP_NOT_THERE, hp_record_at(session, 0, 1, &record));
    WANT(HP_NOT_THERE, hp_record_at(session, 1, 0, &record));
    WANT(HP_NOT_THERE, hp_record_at(session, (size_t)-1, (size_t)-1, &record));
    if (notice.observer != 7 || notice.records != 7 || record.type != 7 || record.target != 7 || record.added != 7 || record.next != 7)
        faults++;
    WANT(HP_OK, hp_record_at(session, 0, 0, &record));
    if (record.type != HP_CHILD_LIST || record.target != 0 || record.added != 1 || record.removed != 0)
        faults++;
    if (record.previous != HP_NONE || record.next != HP_NONE)
        faults++;
    copied(session, &record);
    WANT(HP_NOT_THERE, hp_record_added_at(session, 0, 0, 1, &node));
    WANT(HP_NOT_THERE, hp_record_added_at(session, 1, 0, 0, &node));
    WANT(HP_NOT_THERE, hp_record_removed_at(session, 0, 0, 0, &node));
    if (node != 77)
        faults++;
    WANT(HP_OK, hp_record_added_at(session, 0, 0, 0, &node));
    if (node != 1)
        faults++;
    WANT(HP_NOT_THERE, hp_record_name(session, 0, 0, &bytes));
    WANT(HP_NOT_THERE, hp_record_old_value(session, 0, 0, &text));
    WANT(HP_OK, hp_remove_child(session, 0, 1));
    WANT(HP_OK, hp_notify(session));
    WANT(HP_OK, hp_notice_at(session, 0, &notice));
    if (notice.observer != 0 || notice.records != 1)
        faults++;
    WANT(HP_NOT_THERE, hp_notice_at(session, 1, &notice));
    WANT(HP_OK, hp_record_removed_at(session, 0, 0, 0, &node));
    WANT(HP_NOT_THERE, hp_record_added_at(session, 0, 0, 0, &node));
    WANT(HP_NOT_THERE, hp_record_at(session, 0, 1, &record));
    WANT(HP_NOT_THERE, hp_record_at(session, 1, 0, &record));
}

int main(void)
{
    hp_session session = HP_SESSION_INIT;
    hp_bytes line;
    uint32_t version = 7;
    WANT(HP_OK, hp_version(&version));
    if (version != HP_VERSION_NUMBER)
        faults++;
    limits(&session);
    WANT(HP_OK, hp_reply_line(&session, &line));
    if (line.length != 0)
        faults++;
    WANT(HP_NOT_THERE, hp_count(&session, &(size_t){ 0 }));
    names(&session);
    lists(&session);
    parts(&session);
    rows(&session);
    records(&session);
    WANT(HP_BAD_JSON, hp_line(&session, NULL, 0));
    WANT(HP_OK, hp_close(&session));
    WANT(HP_CLOSED, hp_close(&session));
    printf("%d faults\n", faults);
    return faults != 0;
}
