/* The least that some works of bench/shells cost a shell that starts programs as this one does: it makes the
   same calls of Linux, by the C library and in the way of the toolchain's own, and does nothing else. Its script is a
   line of words, or empty:

       COUNT commands PROGRAM              so many times the program
       COUNT documents PROGRAM             the same, with a fresh file of one line, which has no name, as its input
       COUNT subshells [PROGRAM]           so many times this program, which runs the other one, if it is named
       COUNT backquotes [PROGRAM]          as many, and reads what they write
       COUNT jobs PROGRAM                  as many of these at once, without the shell's input, and waits for all
       COUNT pipelines STAGES PROGRAM      so many times so many copies of the program; each but the last is run by
                                           this one

   Each start hands on the environment that this program has, as it is: for a shell with functions or variables that is
   the one that the shell would hand over, with an entry of the same size for each.

   With the single argument `nothing` it ends at once. */
#define _GNU_SOURCE
#include <fcntl.h>
#include <signal.h>
#include <spawn.h>
#include <stdio.h>
#include <stdlib.h>
#include <string.h>
#include <sys/random.h>
#include <sys/wait.h>
#include <unistd.h>

extern char **environ;

enum { LONGEST_PATH = 4096, LONGEST_SCRIPT = 4096, MOST_WORDS = 4, MOST_STAGES = 64, MOST_JOBS = 1000 };

static const int own[3] = {0, 1, 2};

static void must(int is_so)
{
    if (!is_so)
        _exit(1);
}

/* Starts a program whose three descriptors are copies of these, and which has no others. */
static pid_t spawn(char **words, const int descriptors[3])
{
    posix_spawn_file_actions_t actions;
    posix_spawnattr_t attributes;
    sigset_t signals;
    pid_t child;
    int copies[3];
    for (int k = 0; k < 3; k++)
        copies[k] = descriptors[k] < 3 ? fcntl(descriptors[k], F_DUPFD_CLOEXEC, 3) : descriptors[k];
    posix_spawn_file_actions_init(&actions);
    for (int k = 0; k < 3; k++)
        posix_spawn_file_actions_adddup2(&actions, copies[k], k);
    posix_spawn_file_actions_addclosefrom_np(&actions, 3);
    posix_spawnattr_init(&attributes);
    sigemptyset(&signals);
    posix_spawnattr_setsigmask(&attributes, &signals);
    sigaddset(&signals, SIGPIPE);
    posix_spawnattr_setsigdefault(&attributes, &signals);
    posix_spawnattr_setflags(&attributes, POSIX_SPAWN_SETSIGMASK | POSIX_SPAWN_SETSIGDEF);
    must(posix_spawn(&child, words[0], &actions, &attributes, words, environ) == 0);
    posix_spawnattr_destroy(&attributes);
    posix_spawn_file_actions_destroy(&actions);
    for (int k = 0; k < 3; k++)
        if (copies[k] != descriptors[k])
            close(copies[k]);
    return child;
}

static void await(pid_t child)
{
    int status;
    must(waitpid(child, &status, 0) == child && status == 0);
}

/* What each start of the shell calls. */
static void start(void)
{
    signal(SIGPIPE, SIG_IGN);
    for (int k = 0; k < 3; k++)
        close(fcntl(k, F_DUPFD_CLOEXEC, 3));
}

/* Reads all of a descriptor, and returns how much of it fits. */
static size_t read_all(int descriptor, char *bytes, size_t room)
{
    size_t length = 0;
    ssize_t count;
    while ((count = read(descriptor, bytes + length, room - length)) > 0)
        length += count;
    close(descriptor);
    return length;
}

static void document(char **command)
{
    unsigned long long number[2];
    char path[64];
    must(getrandom(number, sizeof number, 0) == sizeof number);
    sprintf(path, "/tmp/rc.%llu%llu", number[0], number[1]);
    int writer = open(path, O_WRONLY | O_CREAT | O_EXCL | O_NOCTTY | O_CLOEXEC, 0600);
    int reader = open(path, O_RDONLY | O_NOCTTY | O_CLOEXEC);
    must(writer >= 0 && reader >= 0 && unlink(path) == 0 && write(writer, "line 1\n", 7) == 7);
    close(writer);
    pid_t child = spawn(command, (int[3]){reader, 1, 2});
    await(child);
    close(reader);
}

static void backquote(char **stage)
{
    char bytes[4096];
    int ends[2];
    must(pipe2(ends, O_CLOEXEC) == 0);
    pid_t child = spawn(stage, (int[3]){0, ends[1], 2});
    close(ends[1]);
    read_all(ends[0], bytes, sizeof bytes);
    await(child);
}

static void pipeline(char **stage, char **last, int stages)
{
    pid_t children[MOST_STAGES];
    int input = 0, ends[2];
    for (int k = 0; k < stages; k++) {
        int is_last = k == stages - 1;
        must(is_last || pipe2(ends, O_CLOEXEC) == 0);
        children[k] = spawn(is_last ? last : stage, (int[3]){input, is_last ? 1 : ends[1], 2});
        if (k > 0)
            close(input);
        if (!is_last)
            close(ends[1]);
        input = ends[0];
    }
    for (int k = 0; k < stages; k++)
        await(children[k]);
}

static void run_jobs(char **stage, int count)
{
    pid_t jobs[MOST_JOBS];
    must(count <= MOST_JOBS);
    for (int k = 0; k < count; k++) {
        int nothing = open("/dev/null", O_RDONLY | O_NOCTTY | O_CLOEXEC);
        jobs[k] = spawn(stage, (int[3]){nothing, 1, 2});
        close(nothing);
    }
    for (int k = 0; k < count; k++)
        await(jobs[k]);
}

/* Does what the words of a script say. */
static void run(char **words, int count)
{
    char path[LONGEST_PATH] = "";
    char *work = words[1], *program = count > 2 ? words[count - 1] : NULL;
    char *command[] = {program, NULL}, *stage[] = {path, "alone", program, NULL};
    must(readlink("/proc/self/exe", path, sizeof path - 1) > 0);
    if (strcmp(work, "jobs") == 0) {
        run_jobs(stage, atoi(words[0]));
        return;
    }
    for (int k = atoi(words[0]); k > 0; k--) {
        if (strcmp(work, "commands") == 0)
            await(spawn(command, own));
        else if (strcmp(work, "documents") == 0)
            document(command);
        else if (strcmp(work, "subshells") == 0)
            await(spawn(stage, own));
        else if (strcmp(work, "backquotes") == 0)
            backquote(stage);
        else
            pipeline(stage, command, atoi(words[2]));
    }
}

int main(int count, char **words)
{
    static char script[LONGEST_SCRIPT + 1];
    char *parts[MOST_WORDS];
    int length = 0;
    must(count > 1);
    if (strcmp(words[1], "nothing") == 0)
        return 0;
    start();
    if (strcmp(words[1], "alone") == 0) {
        if (count > 2)
            await(spawn((char *[]){words[2], NULL}, own));
        return 0;
    }
    script[read_all(open(words[1], O_RDONLY | O_CLOEXEC), script, LONGEST_SCRIPT)] = 0;
    for (char *part = strtok(script, " \n"); part && length < MOST_WORDS; part = strtok(NULL, " \n"))
        parts[length++] = part;
    if (length > 1)
        run(parts, length);
    return 0;
}
