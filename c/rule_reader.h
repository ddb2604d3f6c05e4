/*
 * The rule reader for C and C++: four services, proved against the definitions of documents 01 and 02.
 *
 *     rule_read           turns a text into a tree, written as a table of 32-bit words
 *     rule_canonicalize   turns a text into its canonical text
 *     rule_write_name     writes the characters of the name at a node of such a table
 *     rule_locate         says where a text that is refused with RULE_NO_TREE is lost
 *
 * Link with target/staticlib/librule_reader.a (x86-64 Linux), which `c/archive` writes. It needs memcpy and memset
 * and nothing else. c/rule_reader.pc is for pkg-config.
 *
 * A blank rule is a text that is empty or all blanks (bytes 9, 10, 13 and 32), of at most 16,384 bytes. It means nobody. rule_read
 * and rule_canonicalize answer with RULE_READ and count 0 and write nothing, whatever the length of the table or buffer: there is
 * no root. They give no other text RULE_READ with count 0. (rule_locate writes nothing and always has count 0.)
 *
 * Quoted names. A quoted name has 1 to 63 characters, bytes from 32 to 126; a quote among them is written as two, as in
 * 'O''Neill'. A node gives the bytes as written between the outer quotes, O''Neill, at most 126. rule_write_name gives the
 * characters, O'Neill, at most 63. It is needed only where the bytes as written have a quote (39): the characters of every other
 * name, bare or quoted, are its bytes. It is not needed to compare names: two names have the same characters exactly if their bytes
 * as written are the same, be they bare or quoted, in one text or in two. That is proved, so comparing the parts of the texts byte
 * by byte stays right.
 *
 * Arguments. Each lent part is a pointer and a length. The text is any bytes; it is not changed, and it needs no zero byte at its
 * end. Lengths may be 0, of the text (a blank rule), of the table and of the buffer. What is required of a call, and checked by
 * nobody:
 *   - each pointer is valid for its length, `nodes` also aligned for uint32_t;
 *   - the part that is written to, the table of rule_read or the buffer, does not overlap another;
 *   - no pointer is null. This holds for length 0 too: the kit does not say that null can stand for an empty slice. Pass any
 *     other pointer, "" for example. (This archive goes through no pointer whose length is 0; c/test.c tries null there. That is
 *     tested, not proved.)
 *
 * Threads. There are no variables outside a call: several threads may call at once, each with a table or buffer of its own to write
 * to. They may share a text, and for rule_write_name also a table.
 *
 * Stack. At most 192 KB for rule_read, 72 KB for rule_canonicalize, 4 KB for rule_write_name and 72 KB for rule_locate. Measured on
 * 2026-11-18, not proved, the most found: 187,912 bytes for `not` 1,023 times and then a name; 62,040 bytes for 32 nested blocks, of
 * rule_canonicalize and of rule_locate; and 88 bytes of rule_write_name. c/stack.c measures it.
 *
 * Division. No call divides or takes a remainder, so a processor without an instruction for it needs no routine. c/divisions looks
 * at every function that the four call, before it is compiled, and at this archive.
 */
#ifndef RULE_READER_H
#define RULE_READER_H

#include <stddef.h>
#include <stdint.h>

/*
 * The version, the same as in c/rule_reader.pc and in the newest entry of CHANGELOG.md. A change of
 *   - MAJOR: a program written for the former header may not compile, or a text gets another answer, other nodes or another
 *     canonical text;
 *   - MINOR: something is added to this header, and all that was there stays;
 *   - PATCH: neither this header's declarations nor any result has changed.
 * CHANGELOG.md says for each version what a program has to change. Since 4.0.0 a node has one word more, its precedence, so a
 * program for an earlier version must be changed and compiled anew. Since 5.0.0 more rules are read (RULE_BAD_OVERLOADING). Since
 * 6.0.0 a quoted name can have quotes (rule_write_name). Since 6.1.0 there is rule_locate.
 *
 * RULE_READER_VERSION is one number to compare, 60100 for 6.1.0. Headers before 4.0.0 do not define it, and #if takes it as 0. So a
 * program says at compile time for which version it was written:
 *
 *     #if RULE_READER_VERSION < 60100 || RULE_READER_VERSION >= 70000
 *     #error "written for version 6 of rule_reader.h, from 6.1.0 on"
 *     #endif
 */
#define RULE_READER_VERSION_MAJOR 6
#define RULE_READER_VERSION_MINOR 1
#define RULE_READER_VERSION_PATCH 1
#define RULE_READER_VERSION \
    (10000 * RULE_READER_VERSION_MAJOR + 100 * RULE_READER_VERSION_MINOR + RULE_READER_VERSION_PATCH)

#ifdef __cplusplus
extern "C" {
#endif

enum {
    RULE_MAX_TEXT = 16384,      /* bytes of a text; a longer one is refused with RULE_TEXT_TOO_LONG */
    RULE_MAX_NODES = 1024,      /* nodes of a text, at most */
    RULE_NODE_WORDS = 6,        /* words to a node */
    RULE_TABLE_WORDS = RULE_NODE_WORDS * RULE_MAX_NODES, /* words of a node table that is long enough for every text */
    RULE_BUFFER_BYTES = 16384,  /* bytes of a buffer that is long enough for every canonical text */
    RULE_NAME_BYTES = 63        /* bytes of a buffer that is long enough for the characters of every name */
};

/*
 * The numbers of an answer. The place, if it is refused, is the answer's offset: a byte of the text, from 0 on. 14 to 16 are not
 * given. 17 comes between 8 and 9: for each declaration 8, then 17, then 9.
 */
enum rule_number {
    RULE_READ = 0,                   /* read, or canonical text or a name written, or nothing to locate; also of a blank rule */
    RULE_TEXT_TOO_LONG = 1,          /* the text has more than 16,384 bytes; place 16384 */
    RULE_BAD_BYTE = 2,               /* a byte begins no token; the byte */
    RULE_BAD_QUOTED_NAME = 3,        /* a quoted name has no character, more than 63 or a byte not from 32 to 126, or is not closed
                                        (two quotes in a row do not close it); its opening quote */
    RULE_TOKEN_TOO_LONG = 4,         /* a word or sign has more than 63 bytes, a number more than 9 digits; its start */
    RULE_TOO_MANY_TOKENS = 5,        /* there is a 1,025th token; its start */
    RULE_UNMATCHED = 6,              /* brackets or blocks do not match; the token, or the text's length if one is left open */
    RULE_TOO_DEEP = 7,               /* brackets and blocks are more than 32 deep; the opener */
    RULE_BAD_DECLARATION = 8,        /* a declaration is malformed, or its precedence is not 1 to 1200; the first unfit token */
    RULE_TOO_MANY_OPERATORS = 9,     /* a 65th operator is in force; the operator */
    RULE_BAD_OVERLOADING = 10,       /* an operator is both infix and postfix, and one breaks the four conditions; the `in` */
    RULE_NO_TREE = 11,               /* a span has no tree; 0 for the whole text, the `(`, or the `in`; rule_locate gives another
                                        place. A blank rule is read */
    RULE_TABLE_TOO_SHORT = 12,       /* rule_read: the node table has fewer than RULE_NODE_WORDS words for each node; 0 */
    RULE_CANONICAL_TOO_LONG = 13,    /* rule_canonicalize: the canonical text is over the buffer or 16,384 bytes; rule_write_name:
                                        the characters are over the buffer; 0 */
    RULE_RESERVED_OPERATOR = 17      /* a complete declaration is of `and`, `or` or `not`; the operator */
};

/*
 * The answer of each service. Number RULE_READ: offset 0, and count is how many nodes or bytes were written; of rule_read and
 * rule_canonicalize 0 exactly if the text is a blank rule, of rule_locate always 0. Any other number is a refusal: offset is its
 * place, count is 0, and no word or byte of the table or buffer has changed.
 */
struct rule_answer {
    uint8_t number;
    size_t offset;
    size_t count;
};

/*
 * The words of a node. Unused ones are 0. The precedence of an operator is that of its role in the declarations in force where it
 * stands, a number from 1 to 1200; a name, number, bracket or block has 0.
 */
enum rule_word {
    RULE_NODE_KIND = 0,
    RULE_NODE_FIRST = 1,     /* number of the first or only child */
    RULE_NODE_SECOND = 2,    /* number of the second child */
    RULE_NODE_OFFSET = 3,    /* part of the text: where, and how many bytes */
    RULE_NODE_LENGTH = 4,
    RULE_NODE_PRECEDENCE = 5 /* of RULE_PREFIX, RULE_INFIX and RULE_POSTFIX */
};

/* The kinds of a node: its children, and its part of the text. */
enum rule_kind {
    RULE_NAME = 1,       /* none; the bytes as written, of a quoted name those between the outer quotes; see rule_write_name */
    RULE_NUMBER = 2,     /* none; the digits */
    RULE_PREFIX = 3,     /* the operand; the operator */
    RULE_INFIX = 4,      /* the left and the right operand; the operator */
    RULE_POSTFIX = 5,    /* the operand; the operator */
    RULE_BRACKET = 6,    /* what it holds; offset and length are 0 */
    RULE_BLOCK = 7       /* the body; `let` to `in`, both included */
};

/*
 * Reads a text into a node table. `nodes_length` counts words; those past the last whole node are no part of the table. Node
 * number i has RULE_NODE_WORDS words, from word RULE_NODE_WORDS * i on, in the order of enum rule_word. Children come before their
 * parents, left before right; the root is node count - 1. A blank rule has no nodes and no root: look at count before count - 1.
 * Words behind the nodes keep their contents.
 * Gives RULE_READ and the refusals 1 to 12 and 17. RULE_TABLE_WORDS words are always enough: then never 12.
 */
struct rule_answer rule_read(const uint8_t *text, size_t text_length, uint32_t *nodes, size_t nodes_length);

/*
 * Writes the canonical text of a text into a buffer: no bracket that means nothing, no leading zeros, no quotes that a name does
 * not need, one space between tokens. A quote in a quoted name is written as two again. Every bracket in it matters: without one
 * matching pair it is another rule or none.
 * `buffer_length` counts bytes. No zero byte is added; bytes behind the canonical text keep their contents. The canonical text of a
 * blank rule is empty, and of no other rule.
 * Gives RULE_READ and the refusals 1 to 11, 13 and 17; 1 to 11 and 17 exactly where rule_read gives them, at the same place.
 * With RULE_BUFFER_BYTES bytes 13 is given only where the canonical text is longer than 16,384 bytes, which no buffer helps.
 */
struct rule_answer rule_canonicalize(const uint8_t *text, size_t text_length, uint8_t *buffer, size_t buffer_length);

/*
 * Writes the characters of the name at a node into a buffer: its bytes as written, of two quotes one. `nodes` is the node table of
 * the text as rule_read left it, and `nodes_length` counts its words; the whole table that was lent will do. `node` is the node's
 * number. The count is how many characters were written. No zero byte is added; bytes behind them keep their contents.
 * Gives RULE_READ, and 13 exactly if the buffer is shorter than the characters. RULE_NAME_BYTES bytes are enough for every name.
 *
 * The text is not read again, and the words of the table may be any: answer and buffer are settled for all inputs. The bytes taken
 * are those from the node's offset on, as many as its length says, as far as there is text; none if the table does not have all
 * RULE_NODE_WORDS words of the node. From left to right, of each quote and the byte behind it the quote alone is written; every
 * other byte is written. The node's kind is not looked at: of a number or an operator this gives its bytes, of a block those from
 * `let` to `in`, of a bracket nothing.
 */
struct rule_answer rule_write_name(const uint8_t *text, size_t text_length, const uint32_t *nodes, size_t nodes_length, size_t node,
                                   uint8_t *buffer, size_t buffer_length);

/*
 * Says where a text is lost that is refused with RULE_NO_TREE. (rule_read gives the start of the span that has no tree, which is
 * often far from the fault.) Nothing is written, and count is 0.
 *   - A text that rule_read can read, also a blank rule: RULE_READ, offset 0.
 *   - A refusal other than 11: its number and its place, as rule_read gives them.
 *   - RULE_NO_TREE: the offset is the first byte of the first item, in the first span without a tree, up to which the span's items
 *     can no longer be continued: no items whatsoever that begin with these have a tree under the operators in force there. Where
 *     they can all still be continued, an operand is missing at the end of the span, and the offset is that of its `)` or `end`,
 *     or the text's length for the whole text.
 * The span is the one whose start rule_read gives: the whole text, what is inside a bracket pair, or the body of a block. An item
 * is a name, number or operator of the span itself, or a whole bracket pair or block in it, whose first byte is its `(` or `let`;
 * that of a quoted name is its quote. For example:
 *
 *     grade = 7 AND boarder     10, `AND`: a name cannot stand behind an operand
 *     grade == 7                6, `==`: no operator has this name, so it is a name too
 *     a - - b                   4, the second `-`: the first does not admit it as its right operand
 *     a = b = c                 6, the second `=`: it does not admit a = b as its left operand
 *     a +                       3, the text's length: an operand is missing
 *     ( a + ) * b               6, the `)`
 *
 * Gives RULE_READ and the refusals 1 to 11 and 17; never 12 and 13.
 */
struct rule_answer rule_locate(const uint8_t *text, size_t text_length);

#ifdef __cplusplus
}
#endif

#endif
