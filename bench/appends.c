/* The least that makes records durable one by one: for each, two writes and two syncs of a file's bytes.
   appends COUNT [SIZE] writes COUNT - 1 records of SIZE bytes, 55 if left out. */
#define _DEFAULT_SOURCE
#include <fcntl.h>
#include <stdlib.h>
#include <string.h>
#include <unistd.h>

int main(int argc, char **argv)
{
    long count = argc > 1 ? atol(argv[1]) : 1;
    size_t size = argc > 2 ? atol(argv[2]) : 55;
    char group[4096];
    off_t place = 9;
    int file = open("bare.log", O_RDWR | O_CREAT | O_TRUNC, 0666);
    if (file < 0 || size > sizeof group || pwrite(file, "TELLOG1\n", 9, 0) != 9 || fsync(file))
        return 1;
    memset(group, 0, sizeof group);
    for (long i = 1; i < count; i++) {
        if (pwrite(file, group, size, place) != (ssize_t)size || fdatasync(file))
            return 1;
        if (pwrite(file, "\1", 1, place - 1) != 1 || fdatasync(file))
            return 1;
        place += size;
    }
    return close(file);
}
