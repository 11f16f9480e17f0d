/* A live range is put around a text. A word is inserted into the text, and the range still covers it. */
#include <huckleport.h>
#include <stdio.h>

int main(void)
{
    hp_session session = HP_SESSION_INIT;
    hp_bytes line;
    uint32_t text, bookmark;
    hp_open(&session, UINT32_MAX, 1048576);
    hp_create_text(&session, 0, hp_text_literal("some text"), &text);
    hp_create_range(&session, 0, &bookmark);
    hp_select_node_contents(&session, bookmark, text);
    hp_insert_data(&session, text, 4, hp_text_literal(" more"));
    hp_range_text(&session, bookmark);
    hp_print(&session);
    hp_reply_line(&session, &line);
    fwrite(line.bytes, 1, line.length, stdout);
    return hp_close(&session);
}
