/* Answers standard input line by line, as the program does: lines [--line BYTES] [--numbers N] */
#include "dialogues.h"

static int answer(hp_session *session, const struct file *file)
{
    for (size_t at = 0; at < file->length;) {
        size_t length = line_length(file, at);
        hp_bytes reply;
        uint8_t status = say(session, file->bytes + at, length, &reply);
        if (status == 255)
            return 3;
        if (status == HP_OUT_OF_MEMORY) {
            printf("{\"error\":\"%s\"}\n", hp_status_word(status));
            return 1;
        }
        fwrite(reply.bytes, 1, reply.length, stdout);
        at += length + 1;
    }
    return 0;
}

int main(int count, char **words)
{
    struct dialogue given;
    hp_session session = HP_SESSION_INIT;
    if (limits(count, words, 1, &given) != count || hp_open(&session, given.numbers, given.line) != HP_OK)
        return 2;
    struct file file = content(NULL);
    int status = answer(&session, &file);
    free(file.bytes);
    return hp_close(&session) == HP_OK ? status : 4;
}
