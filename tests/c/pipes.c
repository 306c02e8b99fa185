// Runs a program with a standard input that waits, breaks off or is interrupted, or with a standard output that nobody reads.
//     pipes CASE PROGRAM < TEXT
// CASE is what the program is given:
//   open         a pipe with the text, which stays open behind it
//   late         a pipe that does not wait, with the first three lines of the text; the others never come
//   pieces       the same, but the others come as soon as the first are read
//   ended        a socket with the text and an empty packet behind it, which stays open: the input ends as it does at a terminal's ^D
//   stopped      a socket with the first three lines; the program is stopped and set going again while it waits for more, and then the others come
//   broken       the text, and for its output a pipe that nobody reads
//   ignored      the same, with the signal SIGPIPE ignored
// Ends with the program's exit status, or 128 and the number of the signal that ended it. That is SIGALRM for a program that takes five seconds.
#define _GNU_SOURCE
#include <fcntl.h>
#include <signal.h>
#include <stdio.h>
#include <stdlib.h>
#include <string.h>
#include <sys/ioctl.h>
#include <sys/socket.h>
#include <sys/time.h>
#include <sys/wait.h>
#include <unistd.h>

static void need(int done, const char *what) {
    if (!done) {
        perror(what);
        exit(2);
    }
}

static void put(int fd, const char *bytes, size_t count) {
    need(write(fd, bytes, count) == (ssize_t)count, "write");
}

// Starts the program with `fd` as its standard input or output. Everything else of ours is closed in it.
static pid_t start(char *program, int fd, int as, int ignore_pipe) {
    pid_t child = fork();
    need(child >= 0, "fork");
    if (child == 0) {
        signal(SIGPIPE, ignore_pipe ? SIG_IGN : SIG_DFL);
        dup2(fd, as);
        alarm(5);
        execl(program, program, (char *)NULL);
        perror(program);
        _exit(2);
    }
    return child;
}

static int unread_in(int fd) {
    int count;
    need(ioctl(fd, FIONREAD, &count) == 0, "FIONREAD");
    return count;
}

// Whether the program sleeps, as Linux tells it.
static int sleeps(pid_t child) {
    char name[64], state;
    snprintf(name, sizeof name, "/proc/%d/stat", (int)child);
    FILE *stat = fopen(name, "r");
    need(stat != NULL && fscanf(stat, "%*d (%*[^)]) %c", &state) == 1, name);
    fclose(stat);
    return state == 'S';
}

int main(int argc, char **argv) {
    need(argc == 3, "pipes CASE PROGRAM < TEXT");
    const char *given = argv[1];
    int is_output = strcmp(given, "broken") == 0 || strcmp(given, "ignored") == 0;
    static char text[40000];
    size_t length = is_output ? 0 : fread(text, 1, sizeof text, stdin), lines = 0, first = 0;
    while (first < length && lines < 3)
        lines += text[first++] == '\n';
    signal(SIGPIPE, SIG_IGN);
    alarm(10);

    int ends[2], status; // the end that is read, and the one that is written
    pid_t child;
    if (strcmp(given, "open") == 0) {
        need(pipe2(ends, O_CLOEXEC) == 0, "pipe2");
        child = start(argv[2], ends[0], 0, 0);
        put(ends[1], text, length);
    } else if (strcmp(given, "late") == 0 || strcmp(given, "pieces") == 0) {
        need(pipe2(ends, O_CLOEXEC) == 0 && fcntl(ends[0], F_SETFL, O_NONBLOCK) == 0, "pipe2");
        put(ends[1], text, first);
        child = start(argv[2], ends[0], 0, 0);
        if (strcmp(given, "pieces") == 0) {
            while (unread_in(ends[0]) > 0)
                ;
            put(ends[1], text + first, length - first);
            close(ends[1]);
        }
    } else if (strcmp(given, "ended") == 0) {
        need(socketpair(AF_UNIX, SOCK_SEQPACKET | SOCK_CLOEXEC, 0, ends) == 0, "socketpair");
        put(ends[1], text, length);
        put(ends[1], text, 0);
        child = start(argv[2], ends[0], 0, 0);
    } else if (strcmp(given, "stopped") == 0) {
        // Only on a socket with a time limit does a stop interrupt a read for good.
        struct timeval limit = {60, 0};
        need(socketpair(AF_UNIX, SOCK_STREAM | SOCK_CLOEXEC, 0, ends) == 0, "socketpair");
        need(setsockopt(ends[0], SOL_SOCKET, SO_RCVTIMEO, &limit, sizeof limit) == 0, "SO_RCVTIMEO");
        put(ends[1], text, first);
        child = start(argv[2], ends[0], 0, 0);
        while (unread_in(ends[0]) > 0 || !sleeps(child))
            usleep(1000);
        kill(child, SIGSTOP);
        need(waitpid(child, &status, WUNTRACED) == child && WIFSTOPPED(status), "SIGSTOP");
        kill(child, SIGCONT);
        put(ends[1], text + first, length - first);
        shutdown(ends[1], SHUT_WR);
    } else {
        need(is_output && pipe2(ends, O_CLOEXEC) == 0, given);
        close(ends[0]);
        child = start(argv[2], ends[1], 1, strcmp(given, "ignored") == 0);
    }
    need(waitpid(child, &status, 0) == child, "waitpid");
    return WIFSIGNALED(status) ? 128 + WTERMSIG(status) : WEXITSTATUS(status);
}
