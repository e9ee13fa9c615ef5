/* rio_port or rio_live as a process, over two pipes. */
#define _POSIX_C_SOURCE 200809L
#include "port.h"

#include <stdio.h>
#include <stdlib.h>
#include <string.h>
#include <sys/wait.h>
#include <unistd.h>

static FILE *to_port, *from_port;
static pid_t child;
static char *answer, *line;
static size_t answer_length, answer_room, line_room, place;

int port_open(const char *program) {
    int to[2], from[2];
    if (pipe(to) != 0 || pipe(from) != 0) return -1;
    child = fork();
    if (child == 0) {
        dup2(to[0], 0);
        dup2(from[1], 1);
        close(to[0]), close(to[1]), close(from[0]), close(from[1]);
        execlp(program, program, (char *)NULL);
        _exit(127);
    }
    close(to[0]), close(from[1]);
    to_port = fdopen(to[1], "w");
    from_port = fdopen(from[0], "r");
    return child > 0 && to_port && from_port ? 0 : -1;
}

/* Puts a line behind the answer. */
static void keep(const char *text, size_t length) {
    if (answer_length + length + 1 > answer_room) {
        answer_room = 2 * (answer_length + length + 1);
        answer = (char *)realloc(answer, answer_room);
        if (!answer) abort();
    }
    memcpy(answer + answer_length, text, length);
    answer_length += length;
    answer[answer_length] = 0;
}

/* The characters of a line of clocks, each as its word behind a space. */
static void put_chars(const unsigned short *chars, int count) {
    static const char digits[] = "0123456789abcdef";
    fputs("clock", to_port);
    for (int at = 0; at < count; at++) {
        unsigned c = chars[at];
        char word[4] = {' ', c >> 8 ? 'k' : 'd', digits[c >> 4 & 15], digits[c & 15]};
        fwrite(c > 0x1ff ? " inv" : word, 1, 4, to_port);
    }
    fputc('\n', to_port);
    fflush(to_port);
}

static unsigned digit(char c) { return c <= '9' ? (unsigned)(c - '0') : (unsigned)(c - 'a' + 10); }

int port_clocks(const unsigned short *chars, int count, unsigned short *given) {
    ssize_t length;
    answer_length = place = 0;
    keep("", 0);
    put_chars(chars, count);
    while ((length = getline(&line, &line_room, from_port)) > 0) {
        if (strcmp(line, "ok\n") == 0) return 0;
        line[length - 1] = 0;
        if (strncmp(line, "given ", 6) != 0 || length != 6 + 4 * count)
            keep(line, (size_t)length);
        else
            for (const char *word = line + 6; count > 0; word += 4, count--, given++)
                *given = (unsigned short)(*word == 'i' ? 0x200 : (*word == 'k') << 8 | digit(word[1]) << 4 | digit(word[2]));
    }
    return -1;
}

int port_ask(const char *text) {
    ssize_t length;
    answer_length = place = 0;
    keep("", 0);
    fprintf(to_port, "%s\n", text);
    fflush(to_port);
    while ((length = getline(&line, &line_room, from_port)) > 0) {
        if (strcmp(line, "ok\n") == 0) return 0;
        line[length - 1] = 0;
        keep(line, (size_t)length);
    }
    return -1;
}

const char *port_next(void) {
    const char *next = answer + place;
    if (place < answer_length) place += strlen(next) + 1;
    return place <= answer_length && *next ? next : "";
}

int port_close(void) {
    int status;
    fclose(to_port);
    fclose(from_port);
    waitpid(child, &status, 0);
    return WIFEXITED(status) ? WEXITSTATUS(status) : -1;
}
