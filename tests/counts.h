// What a library that is loaded before a program counts, told when the program ends.
#include <fcntl.h>
#include <stdio.h>
#include <stdlib.h>
#include <unistd.h>

// Writes the count to the file that the variable names, if there is one.
static void tell_count(const char *variable, long count)
{
    const char *name = getenv(variable);
    char line[32];
    if (!name)
        return;
    int file = open(name, O_WRONLY | O_CREAT | O_TRUNC, 0644);
    int length = snprintf(line, sizeof line, "%ld\n", count);
    if (file >= 0 && write(file, line, length) == length)
        close(file);
}
