/*
 * outline-print - prints the outline of a log, for scripts: what the program
 * `outline` prints, with a file name as an argument and an exit status.
 */
#include "outline.h"

#include <errno.h>
#include <stdio.h>
#include <string.h>

enum { PRINTED = 0, REFUSED = 1, TROUBLE = 2 };

static const char usage[] =
    "usage: outline-print [FILE]\n"
    "\n"
    "Prints the outline of the log in FILE, or on standard input where there is no\n"
    "FILE or it is -: a line for each node, of its depth, its number, and k or, for a\n"
    "removed node, r. What is no log, or has bytes past its end, prints `refused 1`;\n"
    "what has no bytes is a log without ops.\n"
    "\n"
    "  --help     this text\n"
    "  --version  the version\n"
    "\n"
    "Exit status: 0 printed, 1 refused, 2 trouble, which standard error tells.\n";

static int trouble(const char *name, int cause) {
    fprintf(stderr, "outline-print: %s: %s\n", name, strerror(cause));
    return TROUBLE;
}

/* Writes to standard output, and sees to it that it arrives. */
static int put(const void *text, size_t length, int status) {
    if (fwrite(text, 1, length, stdout) < length || fflush(stdout) != 0)
        return trouble("standard output", errno);
    return status;
}

static int print(const char *name, FILE *in) {
    /* One byte more than the largest log, so that longer input shows. */
    static uint8_t log[OUTLINE_LARGEST + 1];
    static uint8_t text[OUTLINE_LONGEST_LISTING];
    size_t length = fread(log, 1, sizeof log, in);
    if (ferror(in)) return trouble(name, errno);
    /* No bytes yet: to the library that is no log, so one without ops is made of it. */
    if (length == 0) length = outline_value(outline_make(log, sizeof log));
    size_t end = outline_end(log, length);
    if (outline_refused(end) || outline_value(end) != length)
        return put("refused 1\n", 10, REFUSED);
    size_t size = outline_value(outline_listing(log, length, false, text, sizeof text));
    return put(text, size, PRINTED);
}

int main(int argc, char **argv) {
    static const char version[] = "outline-print " OUTLINE_VERSION_TEXT "\n";
    const char *name = argc > 1 ? argv[1] : "-";
    if (strcmp(name, "--help") == 0) return put(usage, sizeof usage - 1, PRINTED);
    if (strcmp(name, "--version") == 0) return put(version, sizeof version - 1, PRINTED);
    if (argc > 2 || (name[0] == '-' && name[1] != 0)) {
        fputs(usage, stderr);
        return TROUBLE;
    }
    if (strcmp(name, "-") == 0) return print("standard input", stdin);
    FILE *in = fopen(name, "rb");
    if (in == NULL) return trouble(name, errno);
    int status = print(name, in);
    fclose(in);
    return status;
}
