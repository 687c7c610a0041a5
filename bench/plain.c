/* The plainest programs that do what `metaedit` does, for bench/speed.sh and bench/rows.sh, and a clock that runs a command.
     plain journal FILE AT TEXT      writes TEXT over FILE at AT: a journal file, fsync, rename, fsync of the folder, the write,
                                     fsync, unlink
     plain durable FILE AT TEXT      the same, and a last fsync of the folder, as the editor does it: the journal stays away
     plain same FILE AT TEXT         the same, and before the rename an fsync of the file and of the folder, as the editor does it:
                                     what an earlier program left unsynced is safe before the first change
     plain table FILE FORM ROWS FIRST    writes a table of so many rows, whose places are FIRST, FIRST + 1000 and so on: `chunks`, as in
                                     a `stco` (4 bytes, the most significant first), or `index`, as in an `idx1` (16 bytes: the
                                     word `00dc`, the flags 16, the place, the length 1000, each the least significant first)
     plain copy FILE NEW             copies FILE in blocks of 64 KiB, fsync, rename to NEW, fsync of the folder
     plain run COMMAND..             runs the command; its seconds, the most memory it used in KiB, and its status to error
   It reads no format and checks nothing; FILE lies in the working folder. */
#define _GNU_SOURCE
#include <fcntl.h>
#include <stdint.h>
#include <stdio.h>
#include <stdlib.h>
#include <string.h>
#include <sys/resource.h>
#include <sys/wait.h>
#include <time.h>
#include <unistd.h>

static void must(int good, const char *what) {
    if (!good) {
        perror(what);
        exit(1);
    }
}

static void put(int file, const void *from, size_t length) {
    must(write(file, from, length) == (ssize_t)length, "write");
}

static void sync_folder(void) {
    int folder = open(".", O_RDONLY);
    must(folder >= 0 && fsync(folder) == 0, "fsync of the folder");
    close(folder);
}

enum care { PLAIN, DURABLE, SAME };

static void journal(const char *name, uint64_t at, const char *text, enum care care) {
    uint32_t length = strlen(text);
    int file = open("plain.tmp", O_WRONLY | O_CREAT | O_TRUNC, 0666);
    must(file >= 0, "journal");
    put(file, &at, sizeof at);
    put(file, &length, sizeof length);
    put(file, text, length);
    must(fsync(file) == 0, "fsync");
    close(file);
    file = open(name, O_RDWR);
    must(file >= 0, name);
    if (care == SAME) {
        must(fsync(file) == 0, "fsync");
        sync_folder();
    }
    must(rename("plain.tmp", "plain.journal") == 0, "rename");
    sync_folder();
    must(pwrite(file, text, length, at) == (ssize_t)length, "pwrite");
    must(fsync(file) == 0, "fsync");
    must(unlink("plain.journal") == 0, "unlink");
    if (care != PLAIN)
        sync_folder();
    close(file);
}

static void copy(const char *name, const char *new_name) {
    static char block[65536];
    int from = open(name, O_RDONLY);
    int to = open("plain.tmp", O_WRONLY | O_CREAT | O_TRUNC, 0666);
    must(from >= 0 && to >= 0, name);
    for (;;) {
        ssize_t length = read(from, block, sizeof block);
        must(length >= 0, "read");
        if (length == 0)
            break;
        put(to, block, length);
    }
    must(fsync(to) == 0, "fsync");
    close(to);
    must(rename("plain.tmp", new_name) == 0, "rename");
    sync_folder();
    close(from);
}

static void put_number(unsigned char *to, uint32_t number, int most_first) {
    for (int k = 0; k < 4; k++)
        to[most_first ? 3 - k : k] = number >> 8 * k;
}

static void table(const char *name, int is_index, uint64_t rows, uint32_t first) {
    FILE *file = fopen(name, "wb");
    must(file != NULL, name);
    for (uint64_t k = 0; k < rows; k++) {
        unsigned char row[16] = "00dc";
        uint32_t place = first + 1000 * k;
        if (is_index) {
            put_number(row + 4, 16, 0);
            put_number(row + 8, place, 0);
            put_number(row + 12, 1000, 0);
        } else {
            put_number(row, place, 1);
        }
        must(fwrite(row, is_index ? 16 : 4, 1, file) == 1, "write");
    }
    must(fclose(file) == 0, "close");
}

static int run(char **words) {
    struct timespec begin, end;
    struct rusage used;
    int status;
    clock_gettime(CLOCK_MONOTONIC, &begin);
    pid_t child = fork();
    must(child >= 0, "fork");
    if (child == 0) {
        execvp(words[0], words);
        _exit(127);
    }
    must(wait4(child, &status, 0, &used) == child, "wait");
    clock_gettime(CLOCK_MONOTONIC, &end);
    double seconds = (end.tv_sec - begin.tv_sec) + (end.tv_nsec - begin.tv_nsec) / 1e9;
    status = WIFEXITED(status) ? WEXITSTATUS(status) : 128 + WTERMSIG(status);
    fprintf(stderr, "%.6f %ld %d\n", seconds, used.ru_maxrss, status);
    return status;
}

int main(int count, char **words) {
    if (count == 5 && strcmp(words[1], "journal") == 0)
        journal(words[2], strtoull(words[3], NULL, 10), words[4], PLAIN);
    else if (count == 5 && strcmp(words[1], "durable") == 0)
        journal(words[2], strtoull(words[3], NULL, 10), words[4], DURABLE);
    else if (count == 5 && strcmp(words[1], "same") == 0)
        journal(words[2], strtoull(words[3], NULL, 10), words[4], SAME);
    else if (count == 6 && strcmp(words[1], "table") == 0)
        table(words[2], strcmp(words[3], "index") == 0, strtoull(words[4], NULL, 10), strtoul(words[5], NULL, 10));
    else if (count == 4 && strcmp(words[1], "copy") == 0)
        copy(words[2], words[3]);
    else if (count > 2 && strcmp(words[1], "run") == 0)
        return run(words + 2);
    else
        return 2;
    return 0;
}
