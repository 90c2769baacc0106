// Reads its input as labsys does, and writes each line of two files as one piece, the first file's to its output and the
// second's to a third file: what a run takes at least that writes each piece by itself.
//
//     cc -O2 -o pieces bench/pieces.c && ./pieces OUT TRAIL TRAIL_COPY < INPUT > OUT_COPY

#include <fcntl.h>
#include <stdlib.h>
#include <string.h>
#include <sys/mman.h>
#include <sys/stat.h>
#include <unistd.h>

static void write_lines(const char *path, int to) {
    int from = open(path, O_RDONLY);
    struct stat about;
    if (from < 0 || fstat(from, &about) != 0) exit(1);
    if (about.st_size == 0) return;
    char *at = mmap(NULL, about.st_size, PROT_READ, MAP_PRIVATE | MAP_POPULATE, from, 0);
    if (at == MAP_FAILED) exit(1);
    for (char *end = at + about.st_size; at < end;) {
        char *feed = memchr(at, '\n', end - at);
        char *next = feed == NULL ? end : feed + 1;
        if (write(to, at, next - at) != next - at) exit(1);
        at = next;
    }
}

int main(int count, char **words) {
    static char block[4096];
    if (count != 4) return 1;
    while (read(0, block, sizeof block) > 0) {
    }
    write_lines(words[1], 1);
    int trail = open(words[3], O_WRONLY | O_CREAT | O_TRUNC, 0644);
    if (trail < 0) return 1;
    write_lines(words[2], trail);
    return 0;
}
