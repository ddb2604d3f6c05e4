/* Calls one entry once on standard input: of the archive rule_read, rule_canonicalize or rule_locate, of the Rust reader, where it is linked
   too, rust_read or rust_canonicalize. For bench/callgrind, which counts the instructions of the call. */
#include "../c/rule_reader.h"

#include <stdio.h>
#include <string.h>

#ifdef RUST_READER
struct rule_answer rust_read(const uint8_t *text, size_t text_len, uint32_t *nodes, size_t nodes_len);
struct rule_answer rust_canonicalize(const uint8_t *text, size_t text_len, uint8_t *buffer, size_t buffer_len);
#endif

static uint8_t text[RULE_MAX_TEXT + 1];
static uint32_t nodes[RULE_TABLE_WORDS];
static uint8_t buffer[RULE_BUFFER_BYTES];

int main(int argc, char **argv)
{
    struct rule_answer answer;
    const char *entry = argc == 2 ? argv[1] : "";
    size_t length = fread(text, 1, sizeof text, stdin);
    if (strcmp(entry, "rule_read") == 0)
        answer = rule_read(text, length, nodes, RULE_TABLE_WORDS);
    else if (strcmp(entry, "rule_canonicalize") == 0)
        answer = rule_canonicalize(text, length, buffer, RULE_BUFFER_BYTES);
    else if (strcmp(entry, "rule_locate") == 0)
        answer = rule_locate(text, length);
#ifdef RUST_READER
    else if (strcmp(entry, "rust_read") == 0)
        answer = rust_read(text, length, nodes, RULE_TABLE_WORDS);
    else if (strcmp(entry, "rust_canonicalize") == 0)
        answer = rust_canonicalize(text, length, buffer, RULE_BUFFER_BYTES);
#endif
    else
        return 2;
    printf("%d %zu\n", answer.number, answer.offset);
    return answer.number != RULE_READ;
}
