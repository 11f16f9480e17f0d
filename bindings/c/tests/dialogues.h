/* Dialogues for the tests: files, their lines, and one dialogue said to a session line by line. */
#ifndef DIALOGUES_H
#define DIALOGUES_H

#include "huckleport.h"
#include <stdio.h>
#include <stdlib.h>
#include <string.h>

struct file {
    uint8_t *bytes;
    size_t length;
};

/* A dialogue: its lines, the replies that are due, and its limits. */
struct dialogue {
    const char *name;
    struct file given, due;
    uint64_t numbers;
    size_t line;
};

static inline struct file content(const char *path)
{
    struct file file = { NULL, 0 };
    FILE *in = path ? fopen(path, "rb") : stdin;
    size_t room = 0, got = 1;
    if (!in) {
        fprintf(stderr, "%s cannot be read\n", path ? path : "standard input");
        exit(2);
    }
    while (got) {
        if (file.length == room) {
            room = 2 * room + 65536;
            file.bytes = realloc(file.bytes, room);
            if (!file.bytes)
                exit(2);
        }
        got = fread(file.bytes + file.length, 1, room - file.length, in);
        file.length += got;
    }
    if (path)
        fclose(in);
    return file;
}

/* Reads the words "--line BYTES" and "--numbers N" from a place on, and returns the place behind them. */
static inline int limits(int count, char **words, int at, struct dialogue *dialogue)
{
    dialogue->line = 1048576;
    dialogue->numbers = 4294967295u;
    while (at + 1 < count && words[at][0] == '-') {
        if (strcmp(words[at], "--line") == 0)
            dialogue->line = strtoull(words[at + 1], NULL, 10);
        else if (strcmp(words[at], "--numbers") == 0)
            dialogue->numbers = strtoull(words[at + 1], NULL, 10);
        else {
            fprintf(stderr, "%s is no option\n", words[at]);
            exit(2);
        }
        at += 2;
    }
    return at;
}

/* Reads dialogues from words: for each its options, the file of its lines and the file of its replies. */
static inline int dialogues(int count, char **words, int at, struct dialogue *found)
{
    int n = 0;
    while (at < count) {
        at = limits(count, words, at, &found[n]);
        if (at + 1 >= count) {
            fprintf(stderr, "a dialogue has two files\n");
            exit(2);
        }
        found[n].name = words[at];
        found[n].given = content(words[at]);
        found[n].due = content(words[at + 1]);
        at += 2;
        n++;
    }
    return n;
}

static inline void forget(struct dialogue *found, int count)
{
    for (int i = 0; i < count; i++) {
        free(found[i].given.bytes);
        free(found[i].due.bytes);
    }
    free(found);
}

/* The length of the line at a place, without its newline. The last line may have none. */
static inline size_t line_length(const struct file *file, size_t at)
{
    const uint8_t *end = memchr(file->bytes + at, '\n', file->length - at);
    return end ? (size_t)(end - (file->bytes + at)) : file->length - at;
}

/* Sends a line, and returns its status; 255 if the borrowed reply does not fit the status: an error of that name, or an answer. */
static inline uint8_t say(hp_session *session, const uint8_t *line, size_t length, hp_bytes *reply)
{
    char error[80];
    uint8_t status = hp_line(session, line, length), lends = hp_reply_line(session, reply);
    int size = snprintf(error, sizeof error, "{\"error\":\"%s\"}\n", hp_status_word(status));
    /* (a session that goes on still lends the line before) */
    if (status == HP_OUT_OF_MEMORY && lends == HP_OK)
        return status;
    if (status == HP_OUT_OF_MEMORY || status == HP_CLOSED)
        return lends == status && reply->length == 0 ? status : 255;
    if (lends != HP_OK || reply->length == 0)
        return 255;
    if (status != HP_OK && (reply->length != (size_t)size || memcmp(reply->bytes, error, (size_t)size) != 0))
        return 255;
    return status == HP_OK && memcmp(reply->bytes, "{\"ok\":", 6) != 0 ? 255 : status;
}

#endif
