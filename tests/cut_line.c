/* A read that fails within a line: the program ends, and does not run the line as if it were complete.
   Its input is a pipe that is not waited for: what stands in it is read, and the next read fails.
   Usage: cut_line PROGRAM LINE REPLY. The line is given twice, the second time without line end. */
#include <fcntl.h>
#include <stdio.h>
#include <string.h>
#include <sys/wait.h>
#include <unistd.h>

int main(int count, char **arguments) {
    char lines[64], wanted[64], got[64];
    int given, expected;
    size_t length = 0;
    ssize_t more;
    int in[2], out[2], status;

    if (count != 4) {
        return 2;
    }
    given = snprintf(lines, sizeof lines, "%s\n%s", arguments[2], arguments[2]);
    expected = snprintf(wanted, sizeof wanted, "%s\n", arguments[3]);
    if (given >= (int)sizeof lines || expected >= (int)sizeof wanted || pipe(in) != 0 || pipe(out) != 0 || fcntl(in[0], F_SETFL, O_NONBLOCK) != 0) {
        return 2;
    }
    if (write(in[1], lines, (size_t)given) != given) {
        return 2;
    }
    if (fork() == 0) {
        dup2(in[0], STDIN_FILENO);
        dup2(out[1], STDOUT_FILENO);
        close(out[0]);
        close(out[1]);
        execl(arguments[1], arguments[1], (char *)NULL);
        _exit(2);
    }
    close(out[1]);
    while (length < sizeof got && (more = read(out[0], got + length, sizeof got - length)) > 0) {
        length += (size_t)more;
    }
    if (wait(&status) < 0 || length != (size_t)expected || memcmp(got, wanted, length) != 0) {
        fprintf(stderr, "a line cut by a failed read: %zu characters were answered, not %d\n", length, expected);
        return 1;
    }
    return 0;
}
