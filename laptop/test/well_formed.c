/* Judges whether standard input is one well-formed XML element, as far as racklap writes XML:
 * elements, attributes and text, no comments, no declarations. */
#include <ctype.h>
#include <stdio.h>
#include <stdlib.h>
#include <string.h>

enum { MOST_DEPTH = 16, MOST_NAME = 32 };

static int c; /* the byte that is looked at */
static unsigned line = 1;

static void fail(const char *what)
{
    fprintf(stderr, "well_formed: line %u: %s\n", line, what);
    exit(1);
}

static void advance(void)
{
    line += c == '\n';
    c = getchar();
}

static void take(int wanted, const char *what)
{
    if (c != wanted) {
        fail(what);
    }
    advance();
}

static void skip_space(void)
{
    while (c != EOF && isspace(c)) {
        advance();
    }
}

static void read_name(char name[MOST_NAME])
{
    size_t length = 0;
    while (c != EOF && (isalnum(c) || c == '-')) {
        if (length + 1 == MOST_NAME) {
            fail("a name too long");
        }
        name[length++] = (char)c;
        advance();
    }
    name[length] = '\0';
    if (length == 0 || !isalpha((unsigned char)name[0])) {
        fail("a name expected");
    }
}

/* Reads character data up to one of the two ends. */
static void read_text(int end, int other_end)
{
    while (c != end && c != other_end) {
        if (c == EOF || c == '&' || c == '<' || (c < ' ' && !isspace(c)) || c > 126) {
            fail("a byte that has no place in text");
        }
        advance();
    }
}

static void read_attributes(void)
{
    char names[16][MOST_NAME];
    size_t count = 0;
    while (isspace(c)) {
        skip_space();
        if (c == '>' || c == '/') {
            return;
        }
        if (count == 16) {
            fail("too many attributes");
        }
        read_name(names[count]);
        for (size_t i = 0; i < count; i++) {
            if (strcmp(names[i], names[count]) == 0) {
                fail("an attribute twice");
            }
        }
        count++;
        take('=', "= expected");
        take('\'', "a quote expected");
        read_text('\'', '\'');
        advance();
    }
}

/* Reads a tag behind its "<": a start tag opens an element, an end tag closes the last one. */
static void read_tag(char open[MOST_DEPTH][MOST_NAME], size_t *depth)
{
    char name[MOST_NAME];
    if (c == '/') {
        advance();
        read_name(name);
        if (*depth == 0 || strcmp(open[--*depth], name) != 0) {
            fail("an end tag without its start tag");
        }
    } else {
        if (*depth == MOST_DEPTH) {
            fail("elements too deep");
        }
        read_name(open[*depth]);
        read_attributes();
        if (c == '/') {
            advance();
        } else {
            ++*depth;
        }
    }
    take('>', "> expected");
}

int main(void)
{
    char open[MOST_DEPTH][MOST_NAME];
    size_t depth = 0;
    advance();
    do {
        take('<', "a tag expected");
        read_tag(open, &depth);
        if (depth > 0) {
            read_text('<', EOF);
        }
    } while (depth > 0);
    skip_space();
    if (c != EOF) {
        fail("something behind the element");
    }
    return 0;
}
