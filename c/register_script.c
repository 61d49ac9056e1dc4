/* The script program: what Rattle has no form for. A file at its limit is an answer of write and no signal, an answer that is lost at the
   close of standard output is one that can't be written, and a file's name may be any bytes. It is linked with the program by
   --wrap=main,--wrap=open. */
#define _POSIX_C_SOURCE 200809L
#include <errno.h>
#include <fcntl.h>
#include <limits.h>
#include <signal.h>
#include <string.h>
#include <unistd.h>

/* Answers standard input to its end. 0: every answer was written; 1: the answers can't be written; 2: the input can't be read. */
int __real_main(int count, char **words);

int __wrap_main(int count, char **words) {
    signal(SIGXFSZ, SIG_IGN);
    int status = __real_main(count, words);
    /* Some systems say only here that an answer was lost. */
    if (status == 0 && close(STDOUT_FILENO) != 0 && errno != EBADF) {
        status = 1;
    }
    return status;
}

int __real_open(const char *name, int flags, ...);

/* Opens a file, which is only for reading. A name that isn't UTF-8 comes behind the mark of crates/register_script/src/names.rt, each
   byte as the character of its number, in UTF-8: one above 127 in two bytes, of which the first has its two highest bits. */
int __wrap_open(const char *name, int flags, ...) {
    static const char mark[] = "/dev/null/,";
    const size_t marked = sizeof mark - 1;
    if (strncmp(name, mark, marked) != 0) {
        return __real_open(name, flags);
    }
    char bytes[PATH_MAX];
    size_t length = 0;
    for (name += marked; *name != '\0' && length < sizeof bytes - 1; name++) {
        unsigned char byte = (unsigned char)*name;
        if ((byte & 0xe0) == 0xc0 && name[1] != '\0') {
            name++;
            byte = (unsigned char)((byte << 6) | ((unsigned char)*name & 0x3f));
        }
        bytes[length++] = (char)byte;
    }
    bytes[length] = '\0';
    return __real_open(bytes, flags);
}
