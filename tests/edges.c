/* Kernel objects for the test of the script program at its edges: pipes that come in pieces, inputs that fail, outputs that are slow or
   gone. Each mode prepares standard input or output and starts the program. */
#define _GNU_SOURCE
#include <errno.h>
#include <fcntl.h>
#include <poll.h>
#include <signal.h>
#include <stdio.h>
#include <stdlib.h>
#include <string.h>
#include <sys/ioctl.h>
#include <sys/resource.h>
#include <sys/socket.h>
#include <sys/wait.h>
#include <termios.h>
#include <time.h>
#include <unistd.h>

/* The status by which the helper says that it failed itself. */
enum { HELPER_FAILED = 99 };

static _Noreturn void fail(const char *what) {
    fprintf(stderr, "edges: %s: %s\n", what, strerror(errno));
    exit(HELPER_FAILED);
}

static void check(long answer, const char *what) {
    if (answer < 0) {
        fail(what);
    }
}

static void pass(long milliseconds) {
    struct timespec time = {milliseconds / 1000, milliseconds % 1000 * 1000000};
    nanosleep(&time, NULL);
}

/* A file of at most a million bytes. */
static char bytes[1000000];

static size_t read_file(const char *name) {
    int file = open(name, O_RDONLY);
    check(file, name);
    size_t length = 0;
    ssize_t got;
    while ((got = read(file, bytes + length, sizeof bytes - length)) > 0) {
        length += (size_t)got;
    }
    check(got, name);
    close(file);
    return length;
}

static void write_all(int file, const char *from, size_t length) {
    while (length > 0) {
        ssize_t put = write(file, from, length);
        check(put, "write");
        from += put;
        length -= (size_t)put;
    }
}

/* Waits until the reader of a pipe has taken all that was written, and ends where there is no reader any more. */
static void until_taken(int pipe) {
    int left;
    for (;;) {
        struct pollfd end = {pipe, 0, 0};
        poll(&end, 1, 0);
        if (end.revents & POLLERR) {
            exit(HELPER_FAILED);
        }
        check(ioctl(pipe, FIONREAD, &left), "FIONREAD");
        if (left == 0) {
            return;
        }
        struct timespec moment = {0, 20000};
        nanosleep(&moment, NULL);
    }
}

static _Noreturn void start(char **program) {
    signal(SIGPIPE, SIG_DFL);
    execv(program[0], program);
    fail(program[0]);
}

static void become(int file, int number) {
    check(dup2(file, number), "dup2");
    if (file != number) {
        close(file);
    }
}

static int status_of(int status) {
    return WIFEXITED(status) ? WEXITSTATUS(status) : 128 + WTERMSIG(status);
}

/* feed FILE FIRST THEN: writes FILE to standard output, a pipe, in a first piece and pieces of one other size, each when the reader has
   taken the last. */
static int feed(char **words) {
    size_t length = read_file(words[0]);
    size_t size = strtoul(words[1], NULL, 10);
    size_t then = strtoul(words[2], NULL, 10);
    size_t done = 0;
    while (done < length) {
        if (size > length - done) {
            size = length - done;
        }
        write_all(STDOUT_FILENO, bytes + done, size);
        until_taken(STDOUT_FILENO);
        done += size;
        size = then;
    }
    return 0;
}

/* reset FILE PROGRAM: standard input is a socket that gives FILE and then ECONNRESET, as its other end was closed with a byte unread. */
static _Noreturn void reset(char **words) {
    size_t length = read_file(words[0]);
    int ends[2];
    int room = 1000000;
    check(socketpair(AF_UNIX, SOCK_STREAM, 0, ends), "socketpair");
    check(setsockopt(ends[1], SOL_SOCKET, SO_SNDBUF, &room, sizeof room), "SO_SNDBUF");
    check(fcntl(ends[1], F_SETFL, O_NONBLOCK), "O_NONBLOCK");
    write_all(ends[0], "x", 1);
    write_all(ends[1], bytes, length);
    close(ends[1]);
    become(ends[0], STDIN_FILENO);
    start(words + 1);
}

/* hangup FILE PROGRAM: standard input is a terminal's first side that gives FILE and then EIO, as its other side was closed. */
static _Noreturn void hangup(char **words) {
    size_t length = read_file(words[0]);
    int first = posix_openpt(O_RDWR | O_NOCTTY);
    check(first, "posix_openpt");
    check(grantpt(first), "grantpt");
    check(unlockpt(first), "unlockpt");
    int second = open(ptsname(first), O_RDWR | O_NOCTTY);
    check(second, "the other side");
    struct termios raw;
    check(tcgetattr(second, &raw), "tcgetattr");
    cfmakeraw(&raw);
    check(tcsetattr(second, TCSANOW, &raw), "tcsetattr");
    write_all(second, bytes, length);
    close(second);
    become(first, STDIN_FILENO);
    start(words + 1);
}

/* late FILE CUT PROGRAM: standard input doesn't block, and FILE comes in two pieces with a wait between them. A program that used the
   processor for more than half of the wait is told. */
static int late(char **words) {
    enum { WAIT = 400 };
    size_t length = read_file(words[0]);
    size_t cut = strtoul(words[1], NULL, 10);
    int ends[2];
    check(pipe(ends), "pipe");
    check(fcntl(ends[0], F_SETFL, O_NONBLOCK), "O_NONBLOCK");
    pid_t child = fork();
    check(child, "fork");
    if (child == 0) {
        close(ends[1]);
        become(ends[0], STDIN_FILENO);
        start(words + 2);
    }
    close(ends[0]);
    write_all(ends[1], bytes, cut);
    until_taken(ends[1]);
    pass(WAIT);
    write_all(ends[1], bytes + cut, length - cut);
    close(ends[1]);
    int status;
    struct rusage used;
    check(wait4(child, &status, 0, &used), "wait4");
    long milliseconds = (used.ru_utime.tv_sec + used.ru_stime.tv_sec) * 1000 + (used.ru_utime.tv_usec + used.ru_stime.tv_usec) / 1000;
    if (milliseconds > WAIT / 2) {
        fprintf(stderr, "edges: the program used the processor for %ld ms while it waited\n", milliseconds);
        return HELPER_FAILED;
    }
    return status_of(status);
}

/* slow FILE PROGRAM: standard output doesn't block, and its reader waits before each read. What is read is written on. */
static int slow(char **words) {
    int input = open(words[0], O_RDONLY);
    check(input, words[0]);
    int ends[2];
    check(pipe(ends), "pipe");
    check(fcntl(ends[1], F_SETPIPE_SZ, 4096), "F_SETPIPE_SZ");
    check(fcntl(ends[1], F_SETFL, O_NONBLOCK), "O_NONBLOCK");
    pid_t child = fork();
    check(child, "fork");
    if (child == 0) {
        close(ends[0]);
        become(input, STDIN_FILENO);
        become(ends[1], STDOUT_FILENO);
        start(words + 1);
    }
    close(ends[1]);
    pass(50);
    ssize_t got;
    while ((got = read(ends[0], bytes, 1000)) > 0) {
        write_all(STDOUT_FILENO, bytes, (size_t)got);
        pass(2);
    }
    check(got, "read");
    int status;
    check(waitpid(child, &status, 0), "waitpid");
    return status_of(status);
}

/* gone PROGRAM: standard output is a pipe that has no reader. */
static _Noreturn void gone(char **words) {
    int ends[2];
    check(pipe(ends), "pipe");
    close(ends[0]);
    become(ends[1], STDOUT_FILENO);
    start(words);
}

/* Whether a mode is asked, with as many words behind it as it takes. */
static int asked(int count, char **words, const char *mode, int more) {
    return count == more + 2 && strcmp(words[1], mode) == 0;
}

int main(int count, char **words) {
    if (asked(count, words, "feed", 3)) {
        return feed(words + 2);
    }
    if (asked(count, words, "reset", 2)) {
        reset(words + 2);
    }
    if (asked(count, words, "hangup", 2)) {
        hangup(words + 2);
    }
    if (asked(count, words, "late", 3)) {
        return late(words + 2);
    }
    if (asked(count, words, "slow", 2)) {
        return slow(words + 2);
    }
    if (asked(count, words, "gone", 1)) {
        gone(words + 2);
    }
    fprintf(stderr, "edges: unknown words\n");
    return HELPER_FAILED;
}
