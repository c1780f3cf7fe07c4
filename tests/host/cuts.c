/*
 * Runs a program and feeds it standard input in pieces of a given size:
 *
 *   cuts SIZE PROGRAM [ARGUMENT...]
 *
 * The program's standard input is a packet socket, so each of its reads gets
 * one piece. Its reads must have room for a whole piece.
 */
#define _POSIX_C_SOURCE 200809L /* fork, socketpair */

#include <errno.h>
#include <signal.h>
#include <stdbool.h>
#include <stdio.h>
#include <stdlib.h>
#include <sys/socket.h>
#include <sys/wait.h>
#include <unistd.h>

enum { SIZE_MOST = 65536 };

static _Noreturn void give_up(const char *what)
{
    perror(what);
    exit(EXIT_FAILURE);
}

static pid_t start(char **command, int ends[2])
{
    if (socketpair(AF_UNIX, SOCK_SEQPACKET, 0, ends) != 0) {
        give_up("socketpair");
    }
    pid_t child = fork();
    if (child < 0) {
        give_up("fork");
    }
    if (child == 0) {
        close(ends[1]);
        dup2(ends[0], STDIN_FILENO);
        execvp(command[0], command);
        give_up(command[0]);
    }
    close(ends[0]);
    return child;
}

/* Sends one piece; false if the program reads no more. */
static bool send_piece(int to, const char *piece, size_t size)
{
    ssize_t sent;
    do {
        sent = write(to, piece, size);
    } while (sent < 0 && errno == EINTR);
    return sent == (ssize_t)size;
}

int main(int argc, char **argv)
{
    static char piece[SIZE_MOST];
    unsigned long size = argc > 2 ? strtoul(argv[1], NULL, 10) : 0;
    int ends[2];
    int status;

    if (size < 1 || size > SIZE_MOST) {
        fprintf(stderr, "usage: cuts SIZE PROGRAM [ARGUMENT...], SIZE 1 to %d\n", SIZE_MOST);
        return EXIT_FAILURE;
    }
    signal(SIGPIPE, SIG_IGN);
    pid_t child = start(argv + 2, ends);
    size_t got;
    do {
        got = fread(piece, 1, size, stdin);
    } while (got > 0 && send_piece(ends[1], piece, got));
    close(ends[1]);
    if (waitpid(child, &status, 0) != child) {
        give_up("waitpid");
    }
    return WIFEXITED(status) ? WEXITSTATUS(status) : EXIT_FAILURE;
}
