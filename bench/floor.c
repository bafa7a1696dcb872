/* The work of a task without the lane: for each of COUNT tasks it makes the folder, writes the files, starts the same shell without copying its own memory,
   reads what the shell left, and puts the output in its place. It computes no digest. PROCESSES of them work at once, each on its part of the tasks.
   Prints the microseconds of all tasks. */
#include <dirent.h>
#include <errno.h>
#include <fcntl.h>
#include <spawn.h>
#include <stdio.h>
#include <stdlib.h>
#include <string.h>
#include <sys/stat.h>
#include <sys/wait.h>
#include <time.h>
#include <unistd.h>

extern char **environ;

static char piece[65536];

static void fail(const char *what) {
    perror(what);
    exit(1);
}

static void make(const char *path) {
    if (mkdir(path, 0777) != 0 && errno != EEXIST) fail(path);
}

static void put(const char *path, const char *bytes, size_t len) {
    int file = open(path, O_WRONLY | O_CREAT | O_TRUNC | O_CLOEXEC, 0666);
    if (file < 0) fail(path);
    if (write(file, bytes, len) != (ssize_t)len) fail(path);
    close(file);
}

static size_t get(const char *path) {
    size_t len = 0;
    int file = open(path, O_RDONLY | O_CLOEXEC);
    if (file < 0) fail(path);
    for (;;) {
        ssize_t more = read(file, piece + len, sizeof piece - len);
        if (more < 0) fail(path);
        if (more == 0) break;
        len += (size_t)more;
    }
    close(file);
    return len;
}

static int run(char *dir) {
    char *words[] = {"sh", "-c", "cd \"$0\" && sh -ue .command.sh < .command.in > .command.out 2> .command.err", dir, NULL};
    pid_t child;
    int status;
    if (posix_spawnp(&child, "sh", NULL, NULL, words, environ) != 0) fail("sh");
    if (waitpid(child, &status, 0) != child) fail("sh");
    return WIFEXITED(status) ? WEXITSTATUS(status) : 255;
}

static int names(const char *dir) {
    int count = 0;
    DIR *open_dir = opendir(dir);
    if (open_dir == NULL) fail(dir);
    while (readdir(open_dir) != NULL) count++;
    closedir(open_dir);
    return count;
}

/* the path of a file in the folder `dir` */
static char *in(const char *dir, const char *name) {
    static char path[512];
    snprintf(path, sizeof path, "%s/%s", dir, name);
    return path;
}

static void task(unsigned number) {
    char dir[256], above[64], script[64], status[16], from[512], place[256];
    snprintf(above, sizeof above, "work/%02x", number % 256);
    snprintf(dir, sizeof dir, "%s/%062u", above, number);
    if (open(dir, O_RDONLY | O_DIRECTORY | O_CLOEXEC) >= 0) fail(dir);
    make("work");
    make(above);
    make(dir);
    snprintf(script, sizeof script, "printf %u > out.txt\n", number);
    put(in(dir, ".command.sh"), script, strlen(script));
    put(in(dir, ".command.in"), "", 0);
    snprintf(status, sizeof status, "%d", run(dir));
    put(in(dir, ".exitcode"), status, strlen(status));
    get(in(dir, ".command.out"));
    names(dir);
    put(in(dir, ".command.new"), piece, get(in(dir, "out.txt")));
    snprintf(above, sizeof above, "work/.files/%02x", number % 256);
    make("work");
    make("work/.files");
    make(above);
    snprintf(from, sizeof from, "%s/.command.new", dir);
    snprintf(place, sizeof place, "%s/%062u", above, number);
    if (rename(from, place) != 0) fail(place);
}

/* every task of those, from `first` on, that is so many behind the one before */
static void part(unsigned first, unsigned tasks, unsigned step) {
    for (unsigned number = first; number < tasks; number += step) task(number);
}

int main(int count, char **words) {
    struct timespec start, end;
    unsigned tasks = count > 1 ? (unsigned)atoi(words[1]) : 1000;
    unsigned processes = count > 2 ? (unsigned)atoi(words[2]) : 1;
    int status;
    clock_gettime(CLOCK_MONOTONIC, &start);
    for (unsigned first = 1; first < processes; first++) {
        pid_t child = fork();
        if (child < 0) fail("fork");
        if (child == 0) {
            part(first, tasks, processes);
            exit(0);
        }
    }
    part(0, tasks, processes);
    while (wait(&status) > 0)
        if (status != 0) exit(1);
    clock_gettime(CLOCK_MONOTONIC, &end);
    printf("%lld\n", (end.tv_sec - start.tv_sec) * 1000000LL + (end.tv_nsec - start.tv_nsec) / 1000);
    return 0;
}
