/*
 * A test of the four services by what must hold of every call: damaged texts, random texts, lent parts of every length around the
 * result. A text, and a table that is only read, begin or end at a page that may not be touched. Before and behind the lent part of
 * a table or buffer that is written to stands a pattern.
 */
#define _DEFAULT_SOURCE
#include "rule_reader.h"

#include <stdarg.h>
#include <stdbool.h>
#include <stdio.h>
#include <stdlib.h>
#include <string.h>
#include <sys/mman.h>
#include <unistd.h>

#if RULE_READER_VERSION < 60100 || RULE_READER_VERSION >= 70000
#error "written for version 6 of rule_reader.h, from 6.1.0 on"
#endif

_Static_assert(RULE_NODE_WORDS == 6 && RULE_NODE_PRECEDENCE == RULE_NODE_WORDS - 1, "six words to a node, the precedence last");
_Static_assert(sizeof(struct rule_answer) == 24, "size of the answer");
_Static_assert(offsetof(struct rule_answer, offset) == 8 && offsetof(struct rule_answer, count) == 16, "fields of the answer");

enum { MARGIN = 64, SPARE = 100, LONGEST = 2 * RULE_MAX_TEXT, MAX_PRECEDENCE = 1200 };

/* Room for a text between two pages without access, and the same for a table. */
static uint8_t *text_start, *text_end;
static uint32_t *words_start, *words_end;
static uint32_t table[MARGIN + RULE_TABLE_WORDS + SPARE + MARGIN];
static uint8_t bytes[MARGIN + RULE_BUFFER_BYTES + SPARE + MARGIN];

static unsigned long calls, by_number[RULE_RESERVED_OPERATOR + 1];

static void fail(const uint8_t *text, size_t length, const char *format, ...)
{
    va_list arguments;
    va_start(arguments, format);
    fputs("FAIL: ", stdout);
    vprintf(format, arguments);
    va_end(arguments);
    fputs("\ntext, in hexadecimal: ", stdout);
    for (size_t i = 0; i < length; i++)
        printf("%02x", text[i]);
    fputs("\n", stdout);
    exit(1);
}

#define CHECK(holds, ...) do { if (!(holds)) fail(text, length, __VA_ARGS__); } while (0)

/* ---- random numbers with a fixed seed (xorshift) */

static uint64_t state = 0x9E3779B97F4A7C15u;

static uint64_t bits(void)
{
    state ^= state << 13;
    state ^= state >> 7;
    state ^= state << 17;
    return state;
}

static size_t below(size_t n)
{
    return (size_t)((bits() >> 16) % n);
}

/* ---- one call, with the checks that hold for every call */

/* The item at place `i` of a pattern that differs from call to call. */
static uint32_t pattern(size_t i)
{
    return (uint32_t)((calls + i + 1) * 0x9E3779B1u);
}

static uint8_t *put_text(const uint8_t *text, size_t length)
{
    uint8_t *start = below(2) == 0 ? text_start : text_end - length;
    if (length != 0)
        memcpy(start, text, length);
    return start;
}

/* Whether an answer can have the number. */
static bool is_number(int number)
{
    return number <= RULE_CANONICAL_TOO_LONG || number == RULE_RESERVED_OPERATOR;
}

/* Whether a text begins with one of the reserved operators. */
static bool is_reserved(const uint8_t *text, size_t length)
{
    return (length > 2 && memcmp(text, "or", 2) == 0)
        || (length > 3 && (memcmp(text, "and", 3) == 0 || memcmp(text, "not", 3) == 0));
}

/* Whether a text is a blank rule: empty or all blanks, and not too long. */
static bool is_blank(const uint8_t *text, size_t length)
{
    for (size_t i = 0; i < length; i++)
        if (text[i] != 9 && text[i] != 10 && text[i] != 13 && text[i] != 32)
            return false;
    return length <= RULE_MAX_TEXT;
}

/* What rule_read and rule_canonicalize have in common; `written` is the count in items of the lent part, `lent` its length. */
static void check_answer(const uint8_t *text, size_t length, struct rule_answer answer, size_t written, size_t lent)
{
    CHECK(is_number(answer.number), "number %d", answer.number);
    if (answer.number == RULE_READ) {
        CHECK(answer.offset == 0, "read at %zu", answer.offset);
        CHECK(written <= lent, "count %zu in a lent part of %zu", answer.count, lent);
        CHECK((answer.count == 0) == is_blank(text, length), "read with count %zu", answer.count);
    } else {
        CHECK(!is_blank(text, length), "a blank rule refused with %d", answer.number);
        CHECK(answer.count == 0, "refused %d with count %zu", answer.number, answer.count);
        if (answer.number == RULE_TEXT_TOO_LONG)
            CHECK(answer.offset == RULE_MAX_TEXT && length > RULE_MAX_TEXT, "refused 1 at %zu", answer.offset);
        else if (answer.number == RULE_TABLE_TOO_SHORT || answer.number == RULE_CANONICAL_TOO_LONG)
            CHECK(answer.offset == 0, "refused %d at %zu", answer.number, answer.offset);
        else
            CHECK(answer.offset <= length, "refused %d at %zu", answer.number, answer.offset);
        if (answer.number == RULE_RESERVED_OPERATOR)
            CHECK(is_reserved(text + answer.offset, length - answer.offset), "refused 17 at %zu", answer.offset);
    }
    by_number[answer.number]++;
}

/*
 * The nodes of a table, if any, form one tree: each child before its one parent, unused words 0, parts inside the text. An operator
 * has a precedence, and no operand has a larger one.
 */
static void check_nodes(const uint8_t *text, size_t length, const uint32_t *nodes, size_t count)
{
    static bool has_parent[RULE_MAX_NODES];
    CHECK(count <= RULE_MAX_NODES, "%zu nodes", count);
    memset(has_parent, 0, sizeof has_parent);
    for (size_t i = 0; i < count; i++) {
        const uint32_t *node = nodes + RULE_NODE_WORDS * i;
        uint32_t kind = node[RULE_NODE_KIND];
        CHECK(kind >= RULE_NAME && kind <= RULE_BLOCK, "node %zu: kind %u", i, (unsigned)kind);
        size_t children = kind <= RULE_NUMBER ? 0 : kind == RULE_INFIX ? 2 : 1;
        bool operator_node = kind >= RULE_PREFIX && kind <= RULE_POSTFIX;
        uint32_t precedence = node[RULE_NODE_PRECEDENCE];
        CHECK(operator_node ? precedence >= 1 && precedence <= MAX_PRECEDENCE : precedence == 0, "node %zu: precedence %u", i,
              (unsigned)precedence);
        for (size_t c = 0; c < 2; c++) {
            uint32_t child = node[RULE_NODE_FIRST + c];
            if (c >= children) {
                CHECK(child == 0, "node %zu: unused word %u", i, (unsigned)child);
            } else {
                CHECK(child < i && !has_parent[child], "node %zu: child %u", i, (unsigned)child);
                has_parent[child] = true;
                CHECK(!operator_node || nodes[RULE_NODE_WORDS * child + RULE_NODE_PRECEDENCE] <= precedence,
                      "node %zu: child %u of larger precedence", i, (unsigned)child);
            }
        }
        size_t offset = node[RULE_NODE_OFFSET], size = node[RULE_NODE_LENGTH];
        CHECK(offset + size <= length, "node %zu: %zu bytes at %zu", i, size, offset);
        CHECK(kind == RULE_BRACKET ? offset == 0 && size == 0 : size > 0, "node %zu: %zu bytes at %zu", i, size, offset);
    }
    for (size_t i = 0; i + 1 < count; i++)
        CHECK(has_parent[i], "node %zu has no parent", i);
}

/* rule_read into a lent part of `lent` words; the nodes stand at table + MARGIN. */
static struct rule_answer call_read(const uint8_t *text, size_t length, size_t lent)
{
    size_t all = MARGIN + lent + MARGIN;
    uint8_t *start = put_text(text, length);
    for (size_t i = 0; i < all; i++)
        table[i] = pattern(i);
    struct rule_answer answer = rule_read(start, length, table + MARGIN, lent);
    size_t written = RULE_NODE_WORDS * answer.count;
    check_answer(text, length, answer, written, lent);
    CHECK(answer.number != RULE_CANONICAL_TOO_LONG, "rule_read refused 13");
    CHECK(length == 0 || memcmp(start, text, length) == 0, "rule_read changed the text");
    for (size_t i = 0; i < all; i++)
        CHECK((i >= MARGIN && i < MARGIN + written) || table[i] == pattern(i), "rule_read: word %zu of %zu", i - MARGIN, lent);
    check_nodes(text, length, table + MARGIN, answer.count);
    calls++;
    return answer;
}

/* rule_canonicalize into a lent part of `lent` bytes; the canonical text stands at bytes + MARGIN. */
static struct rule_answer call_canonicalize(const uint8_t *text, size_t length, size_t lent)
{
    size_t all = MARGIN + lent + MARGIN;
    uint8_t *start = put_text(text, length);
    for (size_t i = 0; i < all; i++)
        bytes[i] = (uint8_t)(pattern(i) >> 24);
    struct rule_answer answer = rule_canonicalize(start, length, bytes + MARGIN, lent);
    check_answer(text, length, answer, answer.count, lent);
    CHECK(answer.number != RULE_TABLE_TOO_SHORT, "rule_canonicalize refused 12");
    CHECK(answer.count <= RULE_MAX_TEXT, "canonical text of %zu bytes", answer.count);
    CHECK(length == 0 || memcmp(start, text, length) == 0, "rule_canonicalize changed the text");
    for (size_t i = 0; i < all; i++)
        CHECK((i >= MARGIN && i < MARGIN + answer.count) || bytes[i] == (uint8_t)(pattern(i) >> 24),
              "rule_canonicalize: byte %zu of %zu", i - MARGIN, lent);
    calls++;
    return answer;
}

/* The characters of the name at a node, by what the header says of all inputs; how many. */
static size_t name_of(const uint8_t *text, size_t length, const uint32_t *words, size_t words_length, size_t node, uint8_t *name)
{
    if (node >= words_length / RULE_NODE_WORDS)
        return 0;
    size_t offset = words[RULE_NODE_WORDS * node + RULE_NODE_OFFSET], size = words[RULE_NODE_WORDS * node + RULE_NODE_LENGTH];
    size_t end = offset + size < length ? offset + size : length, count = 0;
    bool behind_quote = false;
    for (size_t i = offset; i < end; i++) {
        if (!behind_quote)
            name[count++] = text[i];
        behind_quote = !behind_quote && text[i] == 39;
    }
    return count;
}

/* rule_write_name into a lent part of `lent` bytes, which has the name or stays as it was. */
static struct rule_answer call_write_name(const uint8_t *text, size_t length, const uint32_t *words, size_t words_length,
                                          size_t node, size_t lent)
{
    static uint8_t name[LONGEST];
    size_t all = MARGIN + lent + MARGIN, needed = name_of(text, length, words, words_length, node, name);
    uint8_t *start = put_text(text, length);
    uint32_t *lent_words = below(2) == 0 ? words_start : words_end - words_length;
    if (words_length != 0)
        memcpy(lent_words, words, sizeof(uint32_t) * words_length);
    for (size_t i = 0; i < all; i++)
        bytes[i] = (uint8_t)(pattern(i) >> 24);
    struct rule_answer answer = rule_write_name(start, length, lent_words, words_length, node, bytes + MARGIN, lent);
    size_t count = needed <= lent ? needed : 0;
    int number = needed <= lent ? RULE_READ : RULE_CANONICAL_TOO_LONG;
    CHECK(answer.number == number && answer.offset == 0 && answer.count == count,
          "rule_write_name, node %zu of %zu words into %zu bytes: %d at %zu, count %zu", node, words_length, lent, answer.number,
          answer.offset, answer.count);
    CHECK(memcmp(name, bytes + MARGIN, count) == 0, "rule_write_name, node %zu: other characters", node);
    CHECK(length == 0 || memcmp(start, text, length) == 0, "rule_write_name changed the text");
    CHECK(words_length == 0 || memcmp(lent_words, words, sizeof(uint32_t) * words_length) == 0,
          "rule_write_name changed the table");
    for (size_t i = 0; i < all; i++)
        CHECK((i >= MARGIN && i < MARGIN + count) || bytes[i] == (uint8_t)(pattern(i) >> 24), "rule_write_name: byte %zu of %zu",
              i - MARGIN, lent);
    by_number[answer.number]++;
    calls++;
    return answer;
}

/* A name with lent parts of several lengths around what is needed. */
static void try_name(const uint8_t *text, size_t length, const uint32_t *words, size_t words_length, size_t node)
{
    size_t most = length < RULE_BUFFER_BYTES ? length : RULE_BUFFER_BYTES;
    size_t needed = call_write_name(text, length, words, words_length, node, most).count;
    call_write_name(text, length, words, words_length, node, needed);
    call_write_name(text, length, words, words_length, node, needed + 1);
    call_write_name(text, length, words, words_length, node, needed == 0 ? 0 : needed - 1);
    call_write_name(text, length, words, words_length, node, 0);
}

/* Some nodes of a table that rule_read wrote, a number past them, the table cut short, and odd words. */
static void try_nodes(const uint8_t *text, size_t length, const uint32_t *nodes, size_t count)
{
    static uint32_t words[4 * RULE_NODE_WORDS];
    size_t all = RULE_NODE_WORDS * count;
    for (size_t i = 0; i < 4; i++) {
        size_t node = i < count && count <= 4 ? i : below(count + 1), cut = below(all + 1);
        try_name(text, length, nodes, all, node);
        if (node < count && nodes[RULE_NODE_WORDS * node] == RULE_NAME)
            call_write_name(text, length, nodes, all, node, RULE_NAME_BYTES);
        call_write_name(text, length, nodes, cut, cut / RULE_NODE_WORDS, 10);
        call_write_name(text, length, nodes, all, (size_t)bits(), 10);
        call_write_name(text, length, nodes, all, SIZE_MAX / RULE_NODE_WORDS + below(3), 10);
    }
    for (size_t i = 0; i < sizeof words / sizeof *words; i++)
        words[i] = below(3) == 0 ? (uint32_t)bits() : (uint32_t)below(length + 3);
    try_name(text, length, words, sizeof words / sizeof *words, below(4));
}

/* rule_locate on a text; `read` is what rule_read answers, with a table that is long enough. */
static struct rule_answer call_locate(const uint8_t *text, size_t length, struct rule_answer read)
{
    uint8_t *start = put_text(text, length);
    struct rule_answer answer = rule_locate(start, length);
    CHECK(answer.number == read.number && answer.count == 0, "rule_locate: %d, count %zu; rule_read: %d", answer.number,
          answer.count, read.number);
    if (answer.number != RULE_NO_TREE) {
        CHECK(answer.offset == read.offset, "rule_locate: %d at %zu, rule_read at %zu", answer.number, answer.offset, read.offset);
    } else {
        CHECK(answer.offset >= read.offset && answer.offset <= length, "rule_locate: 11 at %zu, the span at %zu", answer.offset,
              read.offset);
        CHECK(answer.offset == length || text[answer.offset] > 32, "rule_locate: 11 at %zu, a blank", answer.offset);
    }
    CHECK(length == 0 || memcmp(start, text, length) == 0, "rule_locate changed the text");
    by_number[answer.number]++;
    calls++;
    return answer;
}

/* ---- the services on one text */

/* A text with its node table. */
struct reading {
    const uint8_t *text;
    uint32_t nodes[RULE_TABLE_WORDS];
};

static const uint32_t *node_at(const struct reading *reading, uint32_t i)
{
    const uint32_t *node = reading->nodes + RULE_NODE_WORDS * i;
    return node[RULE_NODE_KIND] == RULE_BRACKET ? node_at(reading, node[RULE_NODE_FIRST]) : node;
}

/*
 * Whether two trees agree, brackets aside: names by characters, which are the same exactly if the bytes as written are, numbers by
 * value, operators by bytes; declarations not compared.
 */
static bool agree(const struct reading *a, uint32_t i, const struct reading *b, uint32_t j)
{
    const uint32_t *n = node_at(a, i), *m = node_at(b, j);
    uint32_t kind = n[RULE_NODE_KIND];
    if (kind != m[RULE_NODE_KIND])
        return false;
    if (kind != RULE_BLOCK) {
        const uint8_t *s = a->text + n[RULE_NODE_OFFSET], *t = b->text + m[RULE_NODE_OFFSET];
        size_t s_length = n[RULE_NODE_LENGTH], t_length = m[RULE_NODE_LENGTH];
        if (kind == RULE_NUMBER) {
            for (; s_length > 1 && *s == '0'; s_length--)
                s++;
            for (; t_length > 1 && *t == '0'; t_length--)
                t++;
        }
        if (s_length != t_length || memcmp(s, t, s_length) != 0)
            return false;
    }
    if (kind <= RULE_NUMBER)
        return true;
    return agree(a, n[RULE_NODE_FIRST], b, m[RULE_NODE_FIRST])
        && (kind != RULE_INFIX || agree(a, n[RULE_NODE_SECOND], b, m[RULE_NODE_SECOND]));
}

/*
 * The place at which a text is lost that has itself no tree, where a bracket in it cannot be taken for it. Up to the place it is
 * read, or an inner span has no tree, or it is lost at its end. With an operand behind it the whole text is lost there again, or
 * has a tree if the operand was missing; then an inner span may have none. The operand can be one token or byte too many.
 */
static void try_place(const uint8_t *text, size_t length, size_t place)
{
    static uint8_t longer[LONGEST + 2];
    struct rule_answer read = call_read(text, place, RULE_TABLE_WORDS);
    CHECK(read.number == RULE_READ || read.number == RULE_NO_TREE, "cut at %zu: %d", place, read.number);
    struct rule_answer answer = call_locate(text, place, read);
    CHECK(read.number == RULE_READ || read.offset > 0 || answer.offset == place, "cut at %zu: 11 at %zu", place, answer.offset);
    memcpy(longer, text, length);
    memcpy(longer + length, " 1", 2);
    read = call_read(longer, length + 2, RULE_TABLE_WORDS);
    answer = call_locate(longer, length + 2, read);
    if (read.number == RULE_TEXT_TOO_LONG || read.number == RULE_TOO_MANY_TOKENS)
        return;
    if (place < length)
        CHECK(read.number == RULE_NO_TREE && read.offset == 0 && answer.offset == place, "with an operand: %d at %zu, then at %zu",
              read.number, read.offset, answer.offset);
    else
        CHECK(read.number == RULE_READ || (read.number == RULE_NO_TREE && read.offset > 0), "with an operand: %d at %zu",
              read.number, read.offset);
}

/* rule_locate on a text that rule_read has answered, with a table that is long enough. */
static void try_locate(const uint8_t *text, size_t length, struct rule_answer read)
{
    struct rule_answer answer = call_locate(text, length, read);
    if (read.number == RULE_NO_TREE && read.offset == 0 && text[0] != '(')
        try_place(text, length, answer.offset);
}

/* rule_read and rule_canonicalize with lent parts that are long enough, rule_locate, rule_write_name on some nodes. */
static struct rule_answer try_text(const void *bytes_of_text, size_t length)
{
    static struct reading first, second;
    static uint8_t canonical[RULE_MAX_TEXT];
    const uint8_t *text = (const uint8_t *)bytes_of_text;

    struct rule_answer read = call_read(text, length, RULE_TABLE_WORDS);
    CHECK(read.number != RULE_TABLE_TOO_SHORT, "refused 12 with %d words", RULE_TABLE_WORDS);
    struct rule_answer answer = call_canonicalize(text, length, RULE_BUFFER_BYTES);
    try_locate(text, length, read);
    if (read.number != RULE_READ) {
        CHECK(answer.number == read.number && answer.offset == read.offset,
              "rule_read refused %d at %zu, rule_canonicalize %d at %zu", read.number, read.offset, answer.number, answer.offset);
        return read;
    }
    CHECK(answer.number == RULE_READ || answer.number == RULE_CANONICAL_TOO_LONG, "read, but refused %d", answer.number);
    first.text = text;
    memcpy(first.nodes, table + MARGIN, sizeof(uint32_t) * RULE_NODE_WORDS * read.count);
    if (answer.number != RULE_READ) {
        try_nodes(text, length, first.nodes, read.count);
        return read;
    }

    /* The canonical text reads to a tree that agrees, or is a blank rule as the text is; and it is its own canonical text. */
    memcpy(canonical, bytes + MARGIN, answer.count);
    try_nodes(text, length, first.nodes, read.count);
    struct rule_answer again = call_read(canonical, answer.count, RULE_TABLE_WORDS);
    CHECK(again.number == RULE_READ && again.count <= read.count, "canonical text read: %d, count %zu", again.number, again.count);
    CHECK((again.count == 0) == (read.count == 0), "canonical text read: count %zu, before %zu", again.count, read.count);
    second.text = canonical;
    memcpy(second.nodes, table + MARGIN, sizeof(uint32_t) * RULE_NODE_WORDS * again.count);
    CHECK(read.count == 0 || agree(&first, (uint32_t)read.count - 1, &second, (uint32_t)again.count - 1),
          "canonical text: another tree");
    again = call_canonicalize(canonical, answer.count, RULE_BUFFER_BYTES);
    CHECK(again.number == RULE_READ && again.count == answer.count && memcmp(canonical, bytes + MARGIN, answer.count) == 0,
          "canonical text of canonical text: answer %d, count %zu", again.number, again.count);
    return read;
}

/* Lent parts of every length around the result, and short ones. */
static void try_lengths(const void *bytes_of_text, size_t length)
{
    const uint8_t *text = (const uint8_t *)bytes_of_text;
    struct rule_answer full = call_read(text, length, RULE_TABLE_WORDS);
    size_t needed = RULE_NODE_WORDS * full.count;
    for (size_t lent = 0; lent <= needed + 2 * RULE_NODE_WORDS; lent++) {
        struct rule_answer answer = call_read(text, length, lent);
        int expected = full.number != RULE_READ || lent >= needed ? full.number : RULE_TABLE_TOO_SHORT;
        CHECK(answer.number == expected, "rule_read into %zu words: %d", lent, answer.number);
    }
    full = call_canonicalize(text, length, RULE_BUFFER_BYTES);
    needed = full.count;
    for (size_t lent = 0; lent <= needed + 12; lent++) {
        struct rule_answer answer = call_canonicalize(text, length, lent);
        int expected = full.number != RULE_READ || lent >= needed ? full.number : RULE_CANONICAL_TOO_LONG;
        CHECK(answer.number == expected, "rule_canonicalize into %zu bytes: %d", lent, answer.number);
    }
    call_read(text, length, RULE_TABLE_WORDS + SPARE);
    call_canonicalize(text, length, RULE_BUFFER_BYTES + SPARE);
}

/* ---- texts */

static const char *const texts[] = {
    "a", "a + b * 3", "a - b - c", "- a + b", "- a * b", "a * - b", "a = b = c", "((a)) * (b + c)", "'not' = '12'", "( a",
    "a , b", " \t\n\r", "( )", "let in end",
    "grade = 007 and not (leaver)",
    "age < 18 and not member or visits * 2 + guests = limit - 1",
    "let infix right 400 r ; in a r b + c end",
    "let infix right 400 r ; in a + b r c end",
    "let infix left 450 s ; postfix left 450 s ; in a s - b end",
    "let infix left 350 s ; postfix left 350 s ; in a s - b end",
    "let infix left 300 - ; prefix non 300 - ; in a end",
    "let infix right 400 - ; in a end",
    "let infix left 7 x ; postfix left 7 x ; infix right 400 - ; in a end",
    "let infix left 500 - ; in let infix left 7 x ; postfix left 7 x ; in a end end",
    "let prefix right 200 - ; infix left 500 - ; in - 1 - ( - ( - 1 ) ) end",
    "let infix left 0 + ; in a end",
    "let plain * ; infix left 0650 && ; in * && ( let in 'x y' end ) && '*' end or 000",
    "let infix left 0700 and ; plain or ; in a end",
    "let prefix right 1200 # ; postfix non 001 ? ; in # # ( ( a ? ) * ( 'b' ) ) end",
    "''''", "'a'''", "name = 'O''Neill' or 'D''Souza' = ''''''",
    "let postfix left 9 s ; in 's' s = ('s''') end",
};

static void try_prefixes(const char *text)
{
    for (size_t length = 0; length <= strlen(text); length++)
        try_text(text, length);
}

static void try_changes(const char *original)
{
    char text[200];
    size_t length = strlen(original);
    for (size_t i = 0; i < length; i++) {
        for (int change = 1; change < 256; change++) {
            memcpy(text, original, length);
            text[i] = (char)(text[i] ^ change);
            try_text(text, length);
        }
    }
}

/* Random bytes, random bytes that begin tokens, and random tokens. */
static void try_random(int rounds)
{
    static const char alphabet[] = "aab ()';=+-*<0123 \t\n_:&";
    static const char *const tokens[] = {
        "a", "b", "'a'", "'not'", "'O''Neill'", "''''", "'a''", "7", "00", "(", ")", "( a )", "=", "<", "+", "-", "*", "and", "or",
        "not", "let", "in", "end", ";", "infix", "prefix", "postfix", "plain", "left", "right", "non", "400", "0400", "1200",
        "let infix left 400 r ; in", "let prefix right 400 + ; in", "let plain - ; in", "let plain or ; in", "a + b",
    };
    static char text[4096];
    for (int round = 0; round < rounds; round++) {
        size_t length = below(round % 16 == 0 ? 400 : 40);
        for (size_t i = 0; i < length; i++)
            text[i] = (char)bits();
        try_text(text, length);
        for (size_t i = 0; i < length; i++)
            text[i] = alphabet[below(sizeof alphabet - 1)];
        try_text(text, length);
        size_t parts = below(round % 16 == 0 ? 100 : 12), end = 0;
        for (size_t i = 0; i < parts; i++) {
            const char *token = tokens[below(sizeof tokens / sizeof *tokens)];
            size_t size = strlen(token);
            memcpy(text + end, token, size);
            end += size;
            if (below(8) != 0)
                text[end++] = ' ';
        }
        try_text(text, end);
        if (round % 16 == 0)
            try_lengths(text, end);
    }
}

static char long_text[LONGEST + 1];

static void repeat(const char *part, int times)
{
    size_t end = strlen(long_text), size = strlen(part);
    for (int i = 0; i < times; i++, end += size)
        memcpy(long_text + end, part, size + 1);
}

/* Tries a text and checks the answer; count 0 stands for a refusal's and for a blank rule's. */
static void expect_of(const void *bytes_of_text, size_t length, enum rule_number number, size_t offset, size_t count)
{
    const uint8_t *text = (const uint8_t *)bytes_of_text;
    struct rule_answer answer = try_text(text, length);
    CHECK(answer.number == number && answer.offset == offset && answer.count == count, "expected %d %zu %zu, got %d %zu %zu",
          number, offset, count, answer.number, answer.offset, answer.count);
}

/* The same for the text of the last repeats; begins a new one. */
static void expect(enum rule_number number, size_t offset, size_t count)
{
    expect_of(long_text, strlen(long_text), number, offset, count);
    long_text[0] = 0;
}

/* Document 01's limits, at the value and one past it, and its example of each refusal; document 02's reserved operators. */
static void try_limits(void)
{
    repeat(" ", RULE_MAX_TEXT - 1); repeat("a", 1); expect(RULE_READ, 0, 1);
    repeat(" ", RULE_MAX_TEXT); repeat("a", 1); expect(RULE_TEXT_TOO_LONG, RULE_MAX_TEXT, 0);
    repeat("a", RULE_MAX_TEXT + 1); expect(RULE_TEXT_TOO_LONG, RULE_MAX_TEXT, 0);
    repeat("(", LONGEST); expect(RULE_TEXT_TOO_LONG, RULE_MAX_TEXT, 0);
    repeat("a , b", 1); expect(RULE_BAD_BYTE, 2, 0);
    repeat("a + 'b", 1); expect(RULE_BAD_QUOTED_NAME, 4, 0);
    repeat("''", 1); expect(RULE_BAD_QUOTED_NAME, 0, 0);
    repeat("''''", 1); expect(RULE_READ, 0, 1);
    repeat("'a''", 1); expect(RULE_BAD_QUOTED_NAME, 0, 0);
    repeat("'a'''", 1); expect(RULE_READ, 0, 1);
    repeat("'a'''b'", 1); expect(RULE_BAD_QUOTED_NAME, 6, 0);
    repeat("'a''b'", 1); expect(RULE_READ, 0, 1);
    repeat("'a' 'b'", 1); expect(RULE_NO_TREE, 0, 0);
    repeat("'a''\x7E'", 1); expect(RULE_READ, 0, 1);
    repeat("'a''\x7F'", 1); expect(RULE_BAD_QUOTED_NAME, 0, 0);
    repeat("'a''\x1F'", 1); expect(RULE_BAD_QUOTED_NAME, 0, 0);
    repeat("'", 1); repeat("a", 63); repeat("'", 1); expect(RULE_READ, 0, 1);
    repeat("'", 1); repeat("a", 64); repeat("'", 1); expect(RULE_BAD_QUOTED_NAME, 0, 0);
    repeat("'", 1); repeat("a", 62); repeat("'''", 1); expect(RULE_READ, 0, 1);
    repeat("'", 1); repeat("a", 63); repeat("'''", 1); expect(RULE_BAD_QUOTED_NAME, 0, 0);
    repeat("'", 1); repeat("a", 63); repeat("''y'", 1); expect(RULE_BAD_QUOTED_NAME, 0, 0);
    repeat("'", 1); repeat("a''", 31); repeat("a'", 1); expect(RULE_READ, 0, 1);
    repeat("'", 1); repeat("a''", 32); repeat("'", 1); expect(RULE_BAD_QUOTED_NAME, 0, 0);
    repeat("a = '", 1); repeat("''", 63); repeat("'", 1); expect(RULE_READ, 0, 3);
    repeat("a = '", 1); repeat("''", 64); repeat("'", 1); expect(RULE_BAD_QUOTED_NAME, 4, 0);
    repeat("a", 63); expect(RULE_READ, 0, 1);
    repeat("a", 64); expect(RULE_TOKEN_TOO_LONG, 0, 0);
    repeat("1234567890", 1); expect(RULE_TOKEN_TOO_LONG, 0, 0);
    repeat("not ", 1023); repeat("a", 1); expect(RULE_READ, 0, RULE_MAX_NODES);
    repeat("not ", 1024); repeat("a", 1); expect(RULE_TOO_MANY_TOKENS, 4096, 0);
    repeat("a ", 1025); expect(RULE_TOO_MANY_TOKENS, 2048, 0);
    repeat("( a", 1); expect(RULE_UNMATCHED, 3, 0);
    repeat("(", 32); repeat("a", 1); repeat(")", 32); expect(RULE_READ, 0, 33);
    repeat("(", 33); expect(RULE_TOO_DEEP, 32, 0);
    repeat("let in a end", 1); expect(RULE_READ, 0, 2);
    repeat("let infix left 1200 r ; in a end", 1); expect(RULE_READ, 0, 2);
    repeat("let infix left 1201 r ; in a end", 1); expect(RULE_BAD_DECLARATION, 15, 0);
    repeat("let infix left 0 + ; in a end", 1); expect(RULE_BAD_DECLARATION, 15, 0);
    repeat("let infix right 400 - ; in a end", 1); expect(RULE_READ, 0, 2);
    repeat("let infix left 7 x ; postfix left 8 x ; in a end", 1); expect(RULE_BAD_OVERLOADING, 40, 0);
    repeat("let infix left 7 x ; postfix left 7 x ; in a x x b end", 1); expect(RULE_READ, 0, 5);
    repeat("let infix left 7 x ; postfix left 7 x ; infix right 400 - ; in a end", 1); expect(RULE_BAD_OVERLOADING, 60, 0);
    repeat("let infix left 500 - ; in let infix left 7 x ; postfix left 7 x ; in a end end", 1); expect(RULE_BAD_OVERLOADING, 66, 0);
    repeat("let prefix right 200 - ; infix left 500 - ; in - 1 - - 1 end", 1); expect(RULE_READ, 0, 6);
    repeat("let plain and ; in a end", 1); expect(RULE_RESERVED_OPERATOR, 10, 0);
    repeat("let infix left 700 and ; in a end", 1); expect(RULE_RESERVED_OPERATOR, 19, 0);
    repeat("let prefix right 600 not ; in not a end", 1); expect(RULE_RESERVED_OPERATOR, 21, 0);
    repeat("let postfix non 5 or ; in a end", 1); expect(RULE_RESERVED_OPERATOR, 18, 0);
    repeat("let in let plain not ; in a end end", 1); expect(RULE_RESERVED_OPERATOR, 17, 0);
    repeat("let infix right 400 - ; plain and ; in a end", 1); expect(RULE_RESERVED_OPERATOR, 30, 0);
    repeat("let plain and ; infix left 0 r ; in a end", 1); expect(RULE_RESERVED_OPERATOR, 10, 0);
    repeat("let plain and in a end", 1); expect(RULE_BAD_DECLARATION, 14, 0);
    repeat("let plain 'and' ; in a end", 1); expect(RULE_BAD_DECLARATION, 10, 0);
    repeat("let infix left 0 and ; in a end", 1); expect(RULE_BAD_DECLARATION, 15, 0);
    repeat("let plain ands ; in a end", 1); expect(RULE_READ, 0, 2);
    repeat("let plain And ; in a end", 1); expect(RULE_READ, 0, 2);
    repeat("a - - b", 1); expect(RULE_NO_TREE, 0, 0);
    for (int operators = 56; operators <= 57; operators++) {
        char declaration[40];
        repeat("let ", 1);
        for (int i = 10; i < 10 + operators; i++) {
            snprintf(declaration, sizeof declaration, "infix left 350 o%d ; ", i);
            repeat(declaration, 1);
        }
        repeat("in a end", 1);
        /* The 57th new operator stands 15 bytes into the 57th declaration, of 21 bytes each. */
        if (operators == 56)
            expect(RULE_READ, 0, 2);
        else
            expect(RULE_TOO_MANY_OPERATORS, 4 + 56 * 21 + 15, 0);
    }
    /* A reserved operator before the 65th, and behind it. */
    for (int before = 0; before < 2; before++) {
        repeat("let ", 1);
        for (int i = 10; i < 67; i++) {
            char declaration[40];
            snprintf(declaration, sizeof declaration, "%sinfix left 350 o%d ; ", before && i == 66 ? "plain or ; " : "", i);
            repeat(declaration, 1);
        }
        repeat("plain or ; in a end", 1);
        if (before)
            expect(RULE_RESERVED_OPERATOR, 4 + 56 * 21 + 6, 0);
        else
            expect(RULE_TOO_MANY_OPERATORS, 4 + 56 * 21 + 15, 0);
    }
    /* Read, but with spaces between its tokens longer than 16,384 bytes. */
    for (int i = 0; i < 511; i++)
        repeat("aaaaaaaaaaaaaaaaaaaaaaaaaaaaaa+", 1);
    repeat("a", 1);
    const uint8_t *text = (const uint8_t *)long_text;
    size_t length = strlen(long_text);
    struct rule_answer answer = call_canonicalize(text, length, RULE_BUFFER_BYTES + SPARE);
    CHECK(answer.number == RULE_CANONICAL_TOO_LONG, "canonical text over 16,384 bytes: %d", answer.number);
    expect(RULE_READ, 0, 1023);
}

/*
 * Document 02's blank rules, with lent parts of every length from 0 on; the same with a byte that is no blank; spans inside a
 * text, which are never blank.
 */
static void try_blank(void)
{
    static const uint8_t blanks[] = {9, 10, 13, 32}, no_blanks[] = {0, 8, 11, 12, 14, 31, 95, 127, 133, 160, 255};
    static uint8_t text[RULE_MAX_TEXT + 1];
    for (size_t length = 0, different = 1; length <= 4; length++, different *= 4) {
        for (size_t code = 0; code < different; code++) {
            for (size_t i = 0, rest = code; i < length; i++, rest /= 4)
                text[i] = blanks[rest % 4];
            expect_of(text, length, RULE_READ, 0, 0);
            try_lengths(text, length);
        }
    }
    for (size_t i = 0; i < sizeof text; i++)
        text[i] = blanks[below(4)];
    expect_of(text, RULE_MAX_TEXT, RULE_READ, 0, 0);
    try_lengths(text, RULE_MAX_TEXT);
    expect_of(text, RULE_MAX_TEXT + 1, RULE_TEXT_TOO_LONG, RULE_MAX_TEXT, 0);
    try_lengths(text, RULE_MAX_TEXT + 1);
    for (int i = 0; i < 6; i++) {
        size_t length = i < 3 ? 9 : RULE_MAX_TEXT, place = i % 3 * (length - 1) / 2;
        uint8_t blank = text[place];
        for (size_t j = 0; j < sizeof no_blanks; j++) {
            text[place] = no_blanks[j];
            expect_of(text, length, RULE_BAD_BYTE, place, 0);
        }
        text[place] = 'a';
        expect_of(text, length, RULE_READ, 0, 1);
        text[place] = ';';
        expect_of(text, length, RULE_UNMATCHED, place, 0);
        text[place] = blank;
    }
    repeat("()", 1); expect(RULE_NO_TREE, 0, 0);
    repeat(" ( ) ", 1); expect(RULE_NO_TREE, 1, 0);
    repeat("( ( ) )", 1); expect(RULE_NO_TREE, 2, 0);
    repeat("a ( )", 1); expect(RULE_NO_TREE, 0, 0);
    repeat("( ) a", 1); expect(RULE_NO_TREE, 0, 0);
    repeat("a + ( )", 1); expect(RULE_NO_TREE, 4, 0);
    repeat("let in end", 1); expect(RULE_NO_TREE, 4, 0);
    repeat("let plain x ; in end", 1); expect(RULE_NO_TREE, 14, 0);
    repeat("let in ( ) end", 1); expect(RULE_NO_TREE, 7, 0);
    repeat("' '", 1); expect(RULE_READ, 0, 1);
}

/* T3 of document 01, to the byte, and the canonical texts of T13 and T14. */
static void try_cases(void)
{
    static const uint32_t nodes[] = {
        RULE_NAME, 0, 0, 0, 1, 0,
        RULE_NAME, 0, 0, 4, 1, 0,
        RULE_NUMBER, 0, 0, 8, 1, 0,
        RULE_INFIX, 1, 2, 6, 1, 300,
        RULE_INFIX, 0, 3, 2, 1, 400,
    };
    static const char *const canonical[][2] = {
        {"a + b * 3", "a + b * 3"}, {"((a)) * (b + c)", "a * ( b + c )"}, {"'not' = '12'", "'not' = '12'"},
        {"a+b", "a + b"}, {"( 000 ) < 'a' * 0012", "0 < a * 12"},
        {"let infix left 0650 && ; in 'a' && 'and' end", "let infix left 650 && ; in a && 'and' end"},
        {"(name)='O''Neill'", "name = 'O''Neill'"}, {"''''", "''''"}, {"'a'''", "'a'''"}, {"'in''' = 'in'", "'in''' = 'in'"},
        {"'O' = O", "O = O"}, {"'+''' + '++'", "'+''' + ++"},
    };
    const uint8_t *text = (const uint8_t *)"a + b * 3";
    size_t length = 9;
    struct rule_answer answer = call_read(text, length, RULE_TABLE_WORDS);
    CHECK(answer.number == RULE_READ && answer.count == 5 && memcmp(nodes, table + MARGIN, sizeof nodes) == 0, "T3");
    for (size_t i = 0; i < sizeof canonical / sizeof *canonical; i++) {
        text = (const uint8_t *)canonical[i][0];
        length = strlen(canonical[i][0]);
        answer = call_canonicalize(text, length, RULE_BUFFER_BYTES);
        CHECK(answer.count == strlen(canonical[i][1]) && memcmp(canonical[i][1], bytes + MARGIN, answer.count) == 0,
              "canonical text, count %zu", answer.count);
    }
}

/* The precedences of a text's nodes, in the order of the table: document 02's sixth word. */
static void expect_precedences(const char *string, const uint32_t *expected, size_t count)
{
    const uint8_t *text = (const uint8_t *)string;
    size_t length = strlen(string);
    struct rule_answer answer = call_read(text, length, RULE_TABLE_WORDS);
    CHECK(answer.number == RULE_READ && answer.count == count, "answer %d, count %zu", answer.number, answer.count);
    for (size_t i = 0; i < count; i++) {
        uint32_t found = table[MARGIN + RULE_NODE_WORDS * i + RULE_NODE_PRECEDENCE];
        CHECK(found == expected[i], "node %zu: precedence %u, expected %u", i, (unsigned)found, (unsigned)expected[i]);
    }
    try_lengths(text, length);
}

#define PRECEDENCES(string, ...) \
    expect_precedences(string, (const uint32_t[]){__VA_ARGS__}, sizeof((const uint32_t[]){__VA_ARGS__}) / sizeof(uint32_t))

/* Each starting operator in each of its roles, operators of several roles, blocks that declare an operator anew. */
static void try_precedences(void)
{
    PRECEDENCES("a or b", 0, 0, 800);
    PRECEDENCES("a and b", 0, 0, 700);
    PRECEDENCES("not a", 0, 600);
    PRECEDENCES("a = b", 0, 0, 500);
    PRECEDENCES("a < b", 0, 0, 500);
    PRECEDENCES("a + b", 0, 0, 400);
    PRECEDENCES("a - b", 0, 0, 400);
    PRECEDENCES("- a", 0, 400);
    PRECEDENCES("a * b", 0, 0, 300);
    PRECEDENCES("'not' = '12'", 0, 0, 500);
    PRECEDENCES("((a)) * (b + c)", 0, 0, 0, 0, 0, 400, 0, 300);
    PRECEDENCES("let in - 007 end", 0, 400, 0);
    PRECEDENCES("let infix left 1 x ; in a x b end", 0, 0, 1, 0);
    PRECEDENCES("let postfix non 001200 x ; in a x end", 0, 1200, 0);
    PRECEDENCES("let prefix right 0400 x ; in x x 'x' end", 0, 400, 400, 0);
    PRECEDENCES("let infix left 450 s ; prefix non 450 s ; postfix left 450 s ; in s a s b s end", 0, 450, 0, 450, 450, 0);
    PRECEDENCES("let infix left 450 s ; postfix left 450 s ; in a s - b end", 0, 0, 400, 450, 0);
    PRECEDENCES("let infix left 350 s ; postfix left 350 s ; in a s - b end", 0, 350, 0, 400, 0);
    /* The outer precedence before a block and behind it, the new one inside. */
    PRECEDENCES("a + let infix left 250 + ; in b + c end + d", 0, 0, 0, 250, 0, 400, 0, 400);
    PRECEDENCES("let infix left 1 x ; in a x let infix left 2 x ; in b x c end x d end", 0, 0, 0, 2, 0, 1, 0, 1, 0);
    PRECEDENCES("let plain + ; in + end + x", 0, 0, 0, 400);
}

/*
 * `a` has one node. One word short of a node it is refused with 12, and nothing changes; with a node's words it is read; words past
 * the last whole node change nothing.
 */
static void try_short_tables(void)
{
    static const uint32_t node[RULE_NODE_WORDS] = {RULE_NAME, 0, 0, 0, 1, 0};
    const uint8_t *text = (const uint8_t *)"a";
    size_t length = 1;
    for (size_t lent = 0; lent <= 2 * RULE_NODE_WORDS; lent++) {
        struct rule_answer answer = call_read(text, length, lent);
        if (lent < RULE_NODE_WORDS) {
            CHECK(answer.number == RULE_TABLE_TOO_SHORT && answer.offset == 0 && answer.count == 0, "`a` into %zu words: %d", lent,
                  answer.number);
        } else {
            CHECK(answer.number == RULE_READ && answer.count == 1 && memcmp(node, table + MARGIN, sizeof node) == 0,
                  "`a` into %zu words: %d", lent, answer.number);
        }
    }
}

/* The nodes and the names of document 02's quoted names; what the words of a table that nobody read give. */
static void try_names(void)
{
    static const uint32_t nodes[] = {
        RULE_NAME, 0, 0, 0, 4, 0,
        RULE_NAME, 0, 0, 8, 8, 0,
        RULE_INFIX, 0, 1, 5, 1, 500,
        RULE_NAME, 0, 0, 24, 2, 0,
        RULE_BRACKET, 3, 0, 0, 0, 0,
        RULE_NUMBER, 0, 0, 32, 2, 0,
        RULE_INFIX, 4, 5, 30, 1, 400,
        RULE_INFIX, 2, 6, 18, 2, 800,
    };
    static const char *const names[] = {"name", "O'Neill", "=", "'", "", "07", "+", "or"};
    /* Offset, length and what is written of them. */
    static const struct {
        uint32_t offset, size;
        const char *name;
    } odd[] = {
        {8, 8, "O'Neill"}, {7, 10, "''Neill'"}, {7, 3, "''"}, {8, 2, "O'"}, {8, 3, "O'"}, {10, 3, "'e"}, {7, 1, "'"}, {16, 1, "'"},
        {16, 0, ""}, {31, 99, " 07"}, {33, UINT32_MAX, "7"}, {34, 1, ""}, {35, 1, ""}, {UINT32_MAX, UINT32_MAX, ""},
    };
    static uint32_t words[4 * RULE_NODE_WORDS];
    const uint8_t *text = (const uint8_t *)"name = 'O''Neill' or ( '''' ) + 07";
    size_t length = strlen((const char *)text), count = sizeof names / sizeof *names;
    /* The nodes alone, and as the front of a whole lent table. */
    static uint32_t lent_table[RULE_TABLE_WORDS];
    const size_t words_lent[] = {RULE_NODE_WORDS * count, RULE_TABLE_WORDS};
    memcpy(lent_table, nodes, sizeof nodes);
    struct rule_answer answer = call_read(text, length, RULE_TABLE_WORDS);
    CHECK(answer.number == RULE_READ && answer.count == count && memcmp(nodes, table + MARGIN, sizeof nodes) == 0, "quoted names");
    for (size_t i = 0; i < count; i++) {
        size_t size = strlen(names[i]);
        for (size_t j = 0; j < 2; j++) {
            for (size_t lent = 0; lent <= size + 10; lent++) {
                answer = call_write_name(text, length, lent_table, words_lent[j], i, lent);
                CHECK(answer.number == (lent < size ? RULE_CANONICAL_TOO_LONG : RULE_READ), "name %zu: %d", i, answer.number);
                CHECK(answer.number != RULE_READ || (answer.count == size && memcmp(names[i], bytes + MARGIN, size) == 0),
                      "name %zu: count %zu", i, answer.count);
            }
        }
        /* Cut short by a word, the table does not have the node. */
        answer = call_write_name(text, length, nodes, RULE_NODE_WORDS * (i + 1) - 1, i, 10);
        CHECK(answer.number == RULE_READ && answer.count == 0, "name %zu of a table cut short: %zu", i, answer.count);
    }
    for (size_t i = 0; i < sizeof odd / sizeof *odd; i++) {
        for (size_t j = 0; j < sizeof words / sizeof *words; j++)
            words[j] = (uint32_t)bits();
        words[2 * RULE_NODE_WORDS + RULE_NODE_OFFSET] = odd[i].offset;
        words[2 * RULE_NODE_WORDS + RULE_NODE_LENGTH] = odd[i].size;
        answer = call_write_name(text, length, words, sizeof words / sizeof *words - below(RULE_NODE_WORDS + 1), 2, 20);
        CHECK(answer.count == strlen(odd[i].name) && memcmp(odd[i].name, bytes + MARGIN, answer.count) == 0,
              "odd words %zu: count %zu", i, answer.count);
    }
}

/* Texts that are refused with 11, with a ^ before the byte at which each is lost. */
static void try_lost(void)
{
    static const char *const lost[] = {
        "grade = 7 ^AND boarder", "grade ^== 7", "form = 7^B", "a + ^", "a +^", "a +\t\r\n^", "not^", "a - ^- b", "a = b ^= c",
        "a * ^- b", "^+ a", "  ^+", "a ^b", "a ^'b'", "'a''b' ^'c'", "a ^( b )", "( ) ^a", "a ^( )", "a ^let in b end",
        "( a + ) ^b", "( ^)", "(^)", "( a ^b )", "( a + ^)", "( ( a b ) + ^)", "( ( a ^b ) )", "a + ( b ^c ) + d",
        "grade = 7 and (boarder or^)", "boarder and not ^and leaver", "let in ^end", "let in a ^b end", "let in a + ^end",
        "let plain + ; in a ^+ b end", "let infix right 400 r ; in a + b ^r c end",
        "let infix left 350 s ; postfix left 350 s ; in a s - ^end", "let infix non 450 s ; postfix non 450 s ; in a s ^s b end",
    };
    for (size_t i = 0; i < sizeof lost / sizeof *lost; i++) {
        static char string[200];
        size_t place = strcspn(lost[i], "^"), length = strlen(lost[i]) - 1;
        memcpy(string, lost[i], place);
        memcpy(string + place, lost[i] + place + 1, length - place);
        const uint8_t *text = (const uint8_t *)string;
        struct rule_answer answer = call_locate(text, length, try_text(text, length));
        CHECK(answer.number == RULE_NO_TREE && answer.offset == place, "expected 11 at %zu, got %d at %zu", place, answer.number,
              answer.offset);
        for (size_t cut = 0; cut < length; cut++)
            try_text(text, cut);
    }
}

static void expect_at_0(const uint8_t *text, size_t length, struct rule_answer answer, enum rule_number number)
{
    check_answer(text, length, answer, 0, 0);
    CHECK(answer.number == number && answer.offset == 0, "expected %d at 0, got %d at %zu", number, answer.number, answer.offset);
    calls++;
}

/* Zero lengths, with a pointer to a page that may not be touched, and with null. */
static void try_empty(void)
{
    static const uint32_t node[RULE_NODE_WORDS] = {RULE_NAME, 0, 0, 0, 1, 0};
    const uint8_t *text = (const uint8_t *)"a", *blank = (const uint8_t *)" ";
    for (int null = 0; null < 2; null++) {
        uint8_t *nowhere = null ? NULL : text_end;
        uint32_t *no_words = (uint32_t *)(void *)nowhere;
        expect_at_0(text, 0, rule_read(nowhere, 0, no_words, 0), RULE_READ);
        expect_at_0(text, 0, rule_canonicalize(nowhere, 0, nowhere, 0), RULE_READ);
        expect_at_0(blank, 1, rule_read(blank, 1, no_words, 0), RULE_READ);
        expect_at_0(blank, 1, rule_canonicalize(blank, 1, nowhere, 0), RULE_READ);
        expect_at_0(text, 1, rule_read(text, 1, no_words, 0), RULE_TABLE_TOO_SHORT);
        expect_at_0(text, 1, rule_canonicalize(text, 1, nowhere, 0), RULE_CANONICAL_TOO_LONG);
        expect_at_0(text, 0, rule_write_name(nowhere, 0, no_words, 0, 0, nowhere, 0), RULE_READ);
        expect_at_0(text, 0, rule_write_name(nowhere, 0, node, RULE_NODE_WORDS, 0, nowhere, 0), RULE_READ);
        expect_at_0(blank, 1, rule_write_name(blank, 1, no_words, 0, 0, nowhere, 0), RULE_READ);
        expect_at_0(text, 1, rule_write_name(text, 1, node, RULE_NODE_WORDS, 0, nowhere, 0), RULE_CANONICAL_TOO_LONG);
        expect_at_0(text, 0, rule_locate(nowhere, 0), RULE_READ);
    }
}

/* Room for `size` bytes, rounded up to pages, between two pages without access; its end. */
static uint8_t *room_for(size_t size, uint8_t **end)
{
    size_t page = (size_t)sysconf(_SC_PAGESIZE);
    size_t room = (size + page - 1) / page * page;
    uint8_t *pages = mmap(NULL, page + room + page, PROT_NONE, MAP_PRIVATE | MAP_ANONYMOUS, -1, 0);
    if (pages == MAP_FAILED || mprotect(pages + page, room, PROT_READ | PROT_WRITE) != 0) {
        perror("mmap");
        exit(1);
    }
    *end = pages + page + room;
    return pages + page;
}

int main(void)
{
    uint8_t *end;
    text_start = room_for(LONGEST, &text_end);
    words_start = (uint32_t *)(void *)room_for(sizeof(uint32_t) * RULE_TABLE_WORDS, &end);
    words_end = (uint32_t *)(void *)end;

    try_cases();
    try_precedences();
    try_short_tables();
    try_names();
    try_lost();
    try_empty();
    try_limits();
    try_blank();
    for (size_t i = 0; i < sizeof texts / sizeof *texts; i++) {
        try_prefixes(texts[i]);
        try_changes(texts[i]);
        try_lengths(texts[i], strlen(texts[i]));
    }
    try_random(20000);

    printf("%lu calls; by number:", calls);
    for (int i = 0; i <= RULE_RESERVED_OPERATOR; i++)
        if (is_number(i))
            printf(" %d: %lu", i, by_number[i]);
    printf("\n");
    return 0;
}
