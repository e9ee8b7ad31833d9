/*
 * What the kit's library os asks of C, for a program that is compiled for a machine that is no x86-64 (bench/native): the kit has this part
 * for x86-64 alone. Only what the replay program calls stands here.
 */
#include <errno.h>
#include <fcntl.h>
#include <stddef.h>
#include <stdint.h>
#include <string.h>

static size_t count;
static char **words;

/* The C library hands the arguments to every such function before main. */
__attribute__((constructor)) static void keep(int given, char **texts)
{
    count = (size_t)given;
    words = texts;
}

size_t rattle_arg_count(void)
{
    return count;
}

/* The argument's length; -1 where there is none, and -2 where it does not fit. */
ptrdiff_t rattle_arg(size_t i, uint8_t *buffer, size_t room)
{
    if (i >= count)
        return -1;
    size_t size = strlen(words[i]);
    if (size > room) {
        memcpy(buffer, words[i], room);
        return -2;
    }
    memcpy(buffer, words[i], size);
    return (ptrdiff_t)size;
}

int32_t rattle_open_to_read(const char *path)
{
    return open(path, O_RDONLY | O_CLOEXEC);
}

int32_t rattle_errno(void)
{
    return errno;
}

void rattle_set_errno(int32_t error)
{
    errno = error;
}
