/* Runs a program with a pseudo-terminal's end as its input and output, as a board on its line, and ends after it.
 * on_line PORT_FILE PROGRAM [WORD...]: writes the path of the line's other end to PORT_FILE. */
#include <fcntl.h>
#include <poll.h>
#include <stdio.h>
#include <sys/ioctl.h>
#include <sys/wait.h>
#include <unistd.h>

#include "line.h"

const char program[] = "on_line";

/* How long the last bytes may wait to be fetched. */
enum { LINGER_MS = 1000 };

/* Becomes the program, with the line as its input and output. */
static void become(int line, char **words)
{
    if (dup2(line, 0) == 0 && dup2(line, 1) == 1) {
        execv(words[0], words);
    }
    perror(words[0]);
    _exit(1);
}

/* Opens the line, which stays open for hosts that come and go, runs the program, and waits until its last bytes were
 * fetched. */
int main(int argc, char **argv)
{
    const char *path;
    int status = 1;
    int unread = 1;
    int master;
    int slave;
    pid_t child;

    if (argc < 3) {
        end_usage("usage: on_line PORT_FILE PROGRAM [WORD...]");
    }
    path = open_pty(&master, &slave, 0);
    if (path == NULL || fcntl(master, F_SETFL, 0) != 0 || !write_port_file(argv[1], path)) {
        perror(program);
        return 1;
    }
    child = fork();
    if (child == 0) {
        become(master, argv + 2);
    }
    if (child < 0 || waitpid(child, &status, 0) != child) {
        perror(program);
        return 1;
    }
    for (uint64_t until = now_ms() + LINGER_MS; unread > 0 && now_ms() < until;) {
        poll(NULL, 0, 50);
        if (ioctl(slave, FIONREAD, &unread) != 0) {
            break;
        }
    }
    return WIFEXITED(status) ? WEXITSTATUS(status) : 1;
}
