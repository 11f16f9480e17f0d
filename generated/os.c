/* The words of the command line and errno, as the proved program asks for them. */
#include <errno.h>
#include <stddef.h>

static int count;
static char **words;

__attribute__((constructor)) static void keep(int given_count, char **given)
{
    count = given_count;
    words = given;
}

/* Copies a word: its length, -1 where there is none, or -2 where it is longer than the room. */
long rattle_arg(size_t at, unsigned char *to, size_t room)
{
    size_t length = 0;
    if (at >= (size_t)count || !words[at])
        return -1;
    for (; words[at][length]; length++) {
        if (length == room)
            return -2;
        to[length] = (unsigned char)words[at][length];
    }
    return (long)length;
}

int rattle_errno(void)
{
    return errno;
}

void rattle_set_errno(int value)
{
    errno = value;
}
