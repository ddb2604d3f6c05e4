/* Reads a rule, given as an argument or on standard input, and prints the answer, the nodes, names by characters, and the canonical
   text; of a rule without a tree, where it is lost. */
#include "rule_reader.h"

#include <stdio.h>
#include <string.h>

#if RULE_READER_VERSION < 60100 || RULE_READER_VERSION >= 70000
#error "written for version 6 of rule_reader.h, from 6.1.0 on"
#endif

/* By number; 14 to 16 are not given. */
static const char *const numbers[] = {
    "RULE_READ", "RULE_TEXT_TOO_LONG", "RULE_BAD_BYTE", "RULE_BAD_QUOTED_NAME", "RULE_TOKEN_TOO_LONG",
    "RULE_TOO_MANY_TOKENS", "RULE_UNMATCHED", "RULE_TOO_DEEP", "RULE_BAD_DECLARATION", "RULE_TOO_MANY_OPERATORS",
    "RULE_BAD_OVERLOADING", "RULE_NO_TREE", "RULE_TABLE_TOO_SHORT", "RULE_CANONICAL_TOO_LONG",
    "", "", "", "RULE_RESERVED_OPERATOR",
};

static const char *const kinds[] = {
    "", "RULE_NAME", "RULE_NUMBER", "RULE_PREFIX", "RULE_INFIX", "RULE_POSTFIX", "RULE_BRACKET", "RULE_BLOCK",
};

static void print_answer(const char *service, struct rule_answer answer)
{
    printf("%s: %s", service, numbers[answer.number]);
    if (answer.number == RULE_READ)
        printf(", count %zu\n", answer.count);
    else
        printf(", refused %d at %zu\n", answer.number, answer.offset);
}

/* Prints a text without a tree on one line, and below it where it is lost. Each of its bytes is a blank or can be printed. */
static void print_lost(const uint8_t *text, size_t length)
{
    struct rule_answer answer = rule_locate(text, length);
    print_answer("rule_locate", answer);
    for (size_t i = 0; i < length; i++)
        putchar(text[i] < ' ' ? ' ' : text[i]);
    printf("\n%*s^ %s\n", (int)answer.offset, "",
           answer.offset < length ? "this cannot follow what stands before it" : "an operand is missing");
}

int main(int argc, char **argv)
{
    static uint32_t nodes[RULE_TABLE_WORDS];
    static uint8_t buffer[RULE_BUFFER_BYTES];
    uint8_t characters[RULE_NAME_BYTES];
    /* One byte more than a text may have, so that a longer one is refused. */
    static uint8_t input[RULE_MAX_TEXT + 1];
    const uint8_t *text = input;
    size_t length;

    if (argc > 1) {
        text = (const uint8_t *)argv[1];
        length = strlen(argv[1]);
    } else {
        length = fread(input, 1, sizeof input, stdin);
    }

    struct rule_answer answer = rule_read(text, length, nodes, RULE_TABLE_WORDS);
    print_answer("rule_read", answer);
    if (answer.number == RULE_NO_TREE)
        print_lost(text, length);
    if (answer.number != RULE_READ)
        return 1;
    if (answer.count == 0)
        puts("a blank rule: nobody");
    for (size_t i = 0; i < answer.count; i++) {
        const uint32_t *node = nodes + RULE_NODE_WORDS * i;
        uint32_t kind = node[RULE_NODE_KIND];
        printf("%zu %s", i, kinds[kind]);
        if (kind != RULE_NAME && kind != RULE_NUMBER)
            printf(" %u", (unsigned)node[RULE_NODE_FIRST]);
        if (kind == RULE_INFIX)
            printf(" %u", (unsigned)node[RULE_NODE_SECOND]);
        if (kind == RULE_NAME) {
            /* O'Neill is written 'O''Neill'. */
            struct rule_answer name = rule_write_name(text, length, nodes, RULE_TABLE_WORDS, i, characters, RULE_NAME_BYTES);
            printf(" `%.*s`", (int)name.count, (const char *)characters);
        } else {
            printf(" `%.*s`", (int)node[RULE_NODE_LENGTH], (const char *)text + node[RULE_NODE_OFFSET]);
        }
        if (kind == RULE_PREFIX || kind == RULE_INFIX || kind == RULE_POSTFIX)
            printf(" precedence %u", (unsigned)node[RULE_NODE_PRECEDENCE]);
        printf("\n");
    }

    answer = rule_canonicalize(text, length, buffer, RULE_BUFFER_BYTES);
    print_answer("rule_canonicalize", answer);
    if (answer.number != RULE_READ)
        return 1;
    printf("%.*s\n", (int)answer.count, (const char *)buffer);
    return 0;
}
