/* Reads a value change dump of wires line0, line1, .. on standard input and prints the lines as a
 * number, one row a time unit. Ends with 1 at anything that is no such dump. */
#include <stdio.h>
#include <stdlib.h>
#include <string.h>

static void fail(const char *what)
{
    fprintf(stderr, "vcd_stages: %s\n", what);
    exit(1);
}

static int next_word(char word[64])
{
    return scanf("%63s", word) == 1;
}

static void skip_to_end(void)
{
    char word[64];
    do {
        if (!next_word(word)) {
            fail("a section without $end");
        }
    } while (strcmp(word, "$end") != 0);
}

/* The line of a wire, by its code; -1 for a code that was not declared. */
static int line_of[128];

static void declare_wire(void)
{
    unsigned line;
    char code;
    char end[8];
    if (scanf(" wire 1 %c line%u %7s", &code, &line, end) != 3 || strcmp(end, "$end") != 0) {
        fail("a declaration that is none");
    }
    if (code < '!' || code > '~' || line > 11 || line_of[(unsigned char)code] >= 0) {
        fail("a wire with a bad code or name");
    }
    line_of[(unsigned char)code] = (int)line;
}

static void read_header(void)
{
    char word[64];
    while (next_word(word) && strcmp(word, "$enddefinitions") != 0) {
        if (strcmp(word, "$var") == 0) {
            declare_wire();
        } else if (word[0] == '$') {
            skip_to_end();
        } else {
            fail("a stray word in the header");
        }
    }
    skip_to_end();
}

static unsigned changed(unsigned lines, const char *word)
{
    if ((word[0] != '0' && word[0] != '1') || strlen(word) != 2 || (unsigned char)word[1] > 127 ||
        line_of[(unsigned char)word[1]] < 0) {
        fail("a value change that is none");
    }
    unsigned bit = 1u << line_of[(unsigned char)word[1]];
    return word[0] == '1' ? lines | bit : lines & ~bit;
}

int main(void)
{
    memset(line_of, -1, sizeof line_of);
    read_header();
    unsigned long now = 0;
    unsigned lines = 0;
    char word[64];
    while (next_word(word)) {
        if (word[0] == '#') {
            for (unsigned long until = strtoul(word + 1, NULL, 10); now < until; now++) {
                printf("%u\n", lines);
            }
        } else if (strcmp(word, "$dumpvars") != 0 && strcmp(word, "$end") != 0) {
            lines = changed(lines, word);
        }
    }
    return 0;
}
