/*
 * CPU time and peak memory of programs on inputs:
 *
 *     runs ROUNDS COUNT PROGRAM... INPUT...
 *
 * In each round runs, for each file, each of the COUNT programs with that file as standard input, and
 * prints a line for each run: CPU time in microseconds, of user and system together, and peak memory in
 * KiB. The system counts in a child's peak (ru_maxrss) that of the program that starts it, so a child's
 * is at least the starter's. So this program is small and linked statically; it fails if the peak of a
 * child is not above its own.
 */
#include <fcntl.h>
#include <limits.h>
#include <spawn.h>
#include <stdio.h>
#include <stdlib.h>
#include <sys/resource.h>
#include <sys/wait.h>
#include <unistd.h>

enum { FIRST_PROGRAM = 3, LINE_BYTES = 128, FAILED = 2 };

static void fail(const char *what) {
    fprintf(stderr, "runs: %s\n", what);
    exit(FAILED);
}

/* Runs the program to its end; what it prints is thrown away. */
static struct rusage usage_of(char *program, const char *input) {
    posix_spawn_file_actions_t actions;
    char *words[] = {program, NULL}, *environment[] = {NULL};
    struct rusage usage;
    pid_t child;
    int status;
    posix_spawn_file_actions_init(&actions);
    posix_spawn_file_actions_addopen(&actions, STDIN_FILENO, input, O_RDONLY, 0);
    posix_spawn_file_actions_addopen(&actions, STDOUT_FILENO, "/dev/null", O_WRONLY, 0);
    if (posix_spawn(&child, program, &actions, NULL, words, environment) != 0) fail(program);
    if (wait4(child, &status, 0, &usage) != child || status != 0) fail(program);
    posix_spawn_file_actions_destroy(&actions);
    return usage;
}

/* The peak of this program in KiB. Its own ru_maxrss would count in that of its starter. */
static long own_peak(void) {
    FILE *status = fopen("/proc/self/status", "r");
    char line[LINE_BYTES];
    long peak = 0;
    if (!status) fail("no /proc/self/status");
    while (fgets(line, sizeof line, status))
        if (sscanf(line, "VmHWM: %ld", &peak) == 1) break;
    fclose(status);
    if (peak == 0) fail("no VmHWM in /proc/self/status");
    return peak;
}

static long microseconds(const struct timeval *time) {
    return time->tv_sec * 1000000L + time->tv_usec;
}

int main(int count, char **words) {
    int rounds = count > FIRST_PROGRAM ? atoi(words[1]) : 0;
    int programs = count > FIRST_PROGRAM ? atoi(words[2]) : 0;
    int first_input = FIRST_PROGRAM + programs;
    long least_peak = LONG_MAX;
    if (rounds < 1 || programs < 1 || first_input >= count)
        fail("usage: ROUNDS COUNT PROGRAM... INPUT...");
    for (int round = 0; round < rounds; round++) {
        for (int input = first_input; input < count; input++) {
            for (int program = FIRST_PROGRAM; program < first_input; program++) {
                struct rusage used = usage_of(words[program], words[input]);
                printf("%ld %ld\n", microseconds(&used.ru_utime) + microseconds(&used.ru_stime),
                       used.ru_maxrss);
                if (used.ru_maxrss < least_peak) least_peak = used.ru_maxrss;
            }
        }
    }
    if (least_peak <= own_peak()) fail("the peak of a program is not above that of its starter");
    return 0;
}
