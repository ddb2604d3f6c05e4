/*
 * Measures the stack of the four services on the texts that need the most, and fails above the bounds. Each call runs on a thread
 * whose stack was filled with a pattern; what it needed reaches from the caller's frame down to the lowest byte that changed.
 * Each is called twice, with two patterns, so that a byte which happens to be the pattern's hides nothing.
 */
#define _GNU_SOURCE
#include "rule_reader.h"

#include <pthread.h>
#include <stdarg.h>
#include <stdio.h>
#include <stdlib.h>
#include <string.h>
#include <sys/mman.h>

enum service { READ, CANONICALIZE, WRITE_NAME, LOCATE, SERVICES };

/* What the header tells a user. */
static const size_t allowed[SERVICES] = {192 * 1024, 72 * 1024, 4 * 1024, 72 * 1024};

enum { STACK = 1024 * 1024 };

static uint8_t *stack;
static char text[2 * RULE_MAX_TEXT];
static uint32_t nodes[RULE_TABLE_WORDS];
static uint8_t buffer[RULE_BUFFER_BYTES];

/* One call: which service, its answer, and the address of the caller's frame. */
struct call {
    enum service service;
    struct rule_answer answer;
    uint8_t *frame;
};

static void *run(void *argument)
{
    struct call *call = argument;
    call->frame = __builtin_frame_address(0);
    if (call->service == READ)
        call->answer = rule_read((const uint8_t *)text, strlen(text), nodes, RULE_TABLE_WORDS);
    else if (call->service == CANONICALIZE)
        call->answer = rule_canonicalize((const uint8_t *)text, strlen(text), buffer, RULE_BUFFER_BYTES);
    else if (call->service == WRITE_NAME)
        call->answer = rule_write_name((const uint8_t *)text, strlen(text), nodes, RULE_TABLE_WORDS, 0, buffer, RULE_BUFFER_BYTES);
    else
        call->answer = rule_locate((const uint8_t *)text, strlen(text));
    return NULL;
}

static void stop(const char *what)
{
    printf("FAIL: %s\n", what);
    exit(1);
}

/* The bytes of stack of a call on a thread whose stack is filled with `pattern`. */
static size_t measure(struct call *call, uint8_t pattern)
{
    pthread_t thread;
    pthread_attr_t attributes;
    memset(stack, pattern, STACK);
    if (pthread_attr_init(&attributes) != 0 || pthread_attr_setstack(&attributes, stack, STACK) != 0
        || pthread_create(&thread, &attributes, run, call) != 0 || pthread_join(thread, NULL) != 0)
        stop("no thread");
    pthread_attr_destroy(&attributes);
    size_t lowest = 0;
    while (stack[lowest] == pattern)
        lowest++;
    if (lowest == 0)
        stop("the thread's stack is too small");
    return (size_t)(call->frame - (stack + lowest));
}

static size_t needed(enum service service, struct rule_answer *answer)
{
    struct call call = {service, {0, 0, 0}, NULL};
    size_t first = measure(&call, 0xA5), second = measure(&call, 0x5A);
    *answer = call.answer;
    return first > second ? first : second;
}

static size_t most[SERVICES];

/*
 * Measures the text of the last `add`s, which rule_read, rule_canonicalize and rule_locate answer with `number`, and
 * rule_write_name on the first node of its table, or of the last table if it is refused; begins a new text.
 */
static void row(const char *name, enum rule_number number)
{
    printf("%-56s %6zu", name, strlen(text));
    for (int service = READ; service < SERVICES; service++) {
        struct rule_answer answer;
        size_t found = needed((enum service)service, &answer);
        printf(" %13zu", found);
        if (answer.number != (service == WRITE_NAME ? RULE_READ : number))
            stop("another answer than expected");
        if (found > most[service])
            most[service] = found;
    }
    printf("\n");
    text[0] = 0;
}

/* Adds a part to the text, `times` times. */
static void repeat(const char *part, int times)
{
    size_t end = strlen(text), size = strlen(part);
    for (int i = 0; i < times; i++, end += size)
        memcpy(text + end, part, size + 1);
}

/* Adds a part with numbers in it. */
static void add(const char *format, ...)
{
    va_list arguments;
    size_t end = strlen(text);
    va_start(arguments, format);
    vsnprintf(text + end, sizeof text - end, format, arguments);
    va_end(arguments);
}

/* The front of `depth` nested blocks, each with an operator of its own and something on its left. */
static void open_blocks(int depth)
{
    for (int i = 0; i < depth; i++)
        add("let infix right %d o%d ; in a o%d ", 650 + i, i, i);
}

/* Nested blocks that hold `inner`. */
static void nested_blocks(int depth, const char *inner)
{
    open_blocks(depth);
    repeat(inner, 1);
    repeat(" end", depth);
}

/* A block that declares 56 operators, so that 64 are in force; its body follows. */
static void full_table(const char *associativity)
{
    repeat("let ", 1);
    for (int i = 0; i < 56; i++)
        add("infix %s %d o%d ; ", associativity, 1200 - i, i);
    repeat("in a", 1);
}

/* Rows of three sizes, by the length of the text. */
static void try_short(void)
{
    repeat("a", 1);
    row("`a`", RULE_READ);
    repeat("let prefix right 10 ~ ; in", 1); repeat(" ~", 48); repeat(" a end", 1);
    row("128 bytes: 48 x ` ~` of a block", RULE_READ);
    repeat("let prefix right 100 ~ ; in", 1); repeat(" ~", 48); repeat(" a end", 1);
    row("129 bytes: 48 x ` ~` of a block", RULE_READ);
}

/* Names of 63 quotes, each written as two. */
static void try_names(void)
{
    repeat("'", 128);
    row("a name of 63 quotes", RULE_READ);
    repeat("'", 128);
    for (int i = 0; i < 124; i++) {
        repeat("+", 1);
        repeat("'", 128);
    }
    row("125 names of 63 quotes", RULE_READ);
}

/* The builder calls itself for each operator. */
static void try_operators(void)
{
    repeat("not ", 1023); repeat("a", 1);
    row("1,023 x `not `, `a`", RULE_READ);
    repeat("let prefix right 9 ~ ; in", 1); repeat(" ~", 1015); repeat(" a end", 1);
    row("1,015 x ` ~` of a block, `a`", RULE_READ);
    repeat("let postfix left 9 ? ; in a", 1); repeat(" ?", 1015); repeat(" end", 1);
    row("`a`, 1,015 x ` ?` of a block", RULE_READ);
    repeat("a", 1); repeat(" + a", 511);
    row("`a`, 511 x ` + a`", RULE_READ);
    repeat("let infix right 9 : ; in a", 1); repeat(" : a", 507); repeat(" end", 1);
    row("`a`, 507 x ` : a`, right-associative", RULE_READ);
    full_table("right");
    for (int i = 0; i < 340; i++)
        add(" o%d a", i / 7);
    repeat(" end", 1);
    row("64 operators, 340 uses, right-associative", RULE_READ);
    full_table("left");
    for (int i = 0; i < 340; i++)
        add(" o%d a", 55 - i / 7);
    repeat(" end", 1);
    row("64 operators, 340 uses, left-associative", RULE_READ);
}

/* What brackets and blocks hold is resolved by calls inside calls; a block has a table of its own. */
static void try_nested(void)
{
    repeat("(", 32); repeat("a", 1); repeat(")", 32);
    row("`a` in 32 brackets", RULE_READ);
    repeat("( a + ", 32); repeat("a", 1); repeat(" )", 32);
    row("32 x `( a + `, `a`", RULE_READ);
    nested_blocks(32, "a");
    row("32 nested blocks", RULE_READ);
    nested_blocks(32, "'o31' o31 o");
    row("32 nested blocks, quoted and unknown names inside", RULE_READ);
    nested_blocks(31, "let infix left 400 - ; prefix non 400 - ; in - a - b end");
    row("32 nested blocks, a starting operator declared again", RULE_READ);
    nested_blocks(31, "let plain + ; plain o30 ; in + end");
    row("32 nested blocks, operators cleared", RULE_READ);
    open_blocks(32); repeat("not ", 700); repeat("a", 1); repeat(" end", 32);
    row("32 nested blocks, 700 x `not ` inside", RULE_READ);
    nested_blocks(31, "let infix left 1201 o ; in a end");
    row("32 nested blocks, a bad declaration inside", RULE_BAD_DECLARATION);
    nested_blocks(31, "let plain and ; in a end");
    row("32 nested blocks, a reserved operator declared inside", RULE_RESERVED_OPERATOR);
    nested_blocks(31, "let infix left 7 x ; postfix left 8 x ; in a end");
    row("32 nested blocks, bad overloading inside", RULE_BAD_OVERLOADING);
    nested_blocks(31, "let prefix right 200 - ; infix left 500 - ; in a - - b end");
    row("32 nested blocks, two precedences of an operator inside", RULE_READ);
    nested_blocks(32, "a a");
    row("32 nested blocks, no tree inside", RULE_NO_TREE);
}

/* Texts without a tree, lost far from the start of the span. */
static void try_lost(void)
{
    repeat("not ", 1024);
    row("1,024 x `not `", RULE_NO_TREE);
    repeat("a + ", 512);
    row("512 x `a + `", RULE_NO_TREE);
    repeat("a and ", 511); repeat("a a", 1);
    row("511 x `a and `, `a a`", RULE_NO_TREE);
    repeat("(", 32); repeat("not ", 960); repeat(")", 32);
    row("960 x `not ` in 32 brackets", RULE_NO_TREE);
    open_blocks(32); repeat("not ", 700); repeat(" end", 32);
    row("32 nested blocks, 700 x `not ` inside, no operand", RULE_NO_TREE);
    full_table("right");
    for (int i = 0; i < 340; i++)
        add(" o%d a", i / 7);
    repeat(" a end", 1);
    row("64 operators, 340 uses, right-associative, `a a` behind", RULE_NO_TREE);
    full_table("left");
    for (int i = 0; i < 340; i++)
        add(" o%d a", 55 - i / 7);
    repeat(" o0 end", 1);
    row("64 operators, 341 uses, left-associative, no operand", RULE_NO_TREE);
}

static void print_bytes(const char *name, const size_t *bytes)
{
    printf("%-56s %6s", name, "");
    for (int service = READ; service < SERVICES; service++)
        printf(" %13zu", bytes[service]);
    printf("\n");
}

int main(void)
{
    stack = mmap(NULL, STACK, PROT_READ | PROT_WRITE, MAP_PRIVATE | MAP_ANONYMOUS, -1, 0);
    if (stack == MAP_FAILED)
        stop("no memory");
    /* The first call of memcpy and memset needs stack to find them. */
    repeat("let infix left 1 o ; in a o b end", 1);
    for (int service = READ; service < SERVICES; service++) {
        struct call first = {(enum service)service, {0, 0, 0}, NULL};
        run(&first);
    }
    text[0] = 0;

    printf("%-56s %6s %13s %13s %13s %13s\n", "stack in bytes", "text", "read", "canonicalize", "write_name", "locate");
    try_short();
    try_names();
    try_operators();
    try_nested();
    try_lost();
    print_bytes("the most", most);
    print_bytes("allowed", allowed);
    for (int service = READ; service < SERVICES; service++)
        if (most[service] > allowed[service])
            stop("more stack than the bound");
    return 0;
}
