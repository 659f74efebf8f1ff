/* relcalc: RML queries over RSF facts, five calls. Link librelcalc_c.a (rt lib in crates/relcalc_c).

   Each call answers from what it is lent and from nothing else. It takes any bytes, allocates nothing, keeps nothing, opens
   nothing and always returns. Calls may run at the same time on several threads. One call needs less than 256 KiB of stack.

   What a caller owes, and no call can test:
   - Each pointer is not null and aligned (a store at 8 bytes), also where its length is 0. Then nothing is read or written
     through it, and the address of any variable will do.
   - Each pointer is good for its whole length (bytes, or words of the store), which is at most PTRDIFF_MAX bytes.
   - A store, output or buffer overlaps nothing else that is lent. Texts may overlap, and may be the same.
   - Until the call returns nobody writes to what is lent, nor reads what is lent for writing.

   A line of facts ends at byte 10 or at the text's end; one byte 13 directly before either belongs to the line end, so facts may be
   saved with LF or CR LF. A query has no byte 13. Lengths and offsets count every byte of a text as it is lent, offsets from 0.
   Elements are numbered from 0 in byte order, a prefix first. */
#ifndef RELCALC_H
#define RELCALC_H

#include <stddef.h>
#include <stdint.h>

#ifdef __cplusplus
extern "C" {
#endif

/* Limits. */
#define RELCALC_FACTS_BYTES 32768   /* also the most that a join writes */
#define RELCALC_QUERY_BYTES 16384
#define RELCALC_QUERY_TOKENS 2048
#define RELCALC_ELEMENTS 64         /* in the facts and on left-hand sides together; in both texts of a join */
#define RELCALC_RELATIONS 16        /* in facts and query together; in both texts of a join */
#define RELCALC_ARITY 3
#define RELCALC_NAME_BYTES 32       /* a name, an element, a string, the digits of a number */
#define RELCALC_NESTING 32
#define RELCALC_ATTRIBUTES 4        /* names in one statement */
#define RELCALC_CLOSURES 16         /* in one statement */
#define RELCALC_SUMMANDS 8          /* in one sum */
#define RELCALC_LITERAL 999999      /* the largest number that a query may write out */
#define RELCALC_STORE_WORDS 70656   /* enough for every accepted pair of texts */
#define RELCALC_CHAIN_BYTES 65      /* the least buffer for a chain, and enough for each */

/* Why a call refuses: `refusal`, with what `place` then holds. 0 is no refusal.
   Rows are tested in this order: 1; 2 over all lines read; then line by line, in each 3, then per element 4 and, at the first too
   many, 5; then 5 for another arity, 6, 7. Then 8; 9; 13 for tokens; 10 with 19 and with 13 for nesting, left to right, at one token 10,
   then 19, then 13; 18 by token; 11, 5, 6 by token; 13 then 12 by statement; 7; 14. So a refusal 5, 6 or 7 is one of the facts exactly
   where the facts with an empty query have it too. 15 to 17 are of relcalc_chain, 20 and 21 of relcalc_join, which say when. */
enum {
    RELCALC_FACTS_TOO_LONG = 1,      /* 32768: facts over 32,768 bytes */
    RELCALC_FACT_BYTE = 2,           /* the byte: in the lines read, not 9, 10 or 32..126, and no 13 that belongs to a line end */
    RELCALC_FACT_NAME = 3,           /* the line: it does not start with a relation name (a letter or "_", then letters, digits and "_",
                                        1 to 32 bytes, not "_" alone, not reserved) */
    RELCALC_FACT_ELEMENT = 4,        /* the element: a stray or open quote, a non-blank after a closing one, over 32 bytes */
    RELCALC_ARITY_WRONG = 5,         /* the element, or the name: over 3, or not the relation's arity; in a query the name */
    RELCALC_TOO_MANY_RELATIONS = 6,  /* the name: a 17th relation */
    RELCALC_TOO_MANY_ELEMENTS = 7,   /* the element or left-hand string: a 65th element */
    RELCALC_QUERY_TOO_LONG = 8,      /* 16384: query over 16,384 bytes */
    RELCALC_NO_TOKEN = 9,            /* the smallest of: what starts no token, is over 32 bytes, or is a string or comment left open; a
                                        byte not 9, 10 or 32..126 */
    RELCALC_NO_PROGRAM = 10,         /* the token: those up to it begin no program; the query's length where it ends too soon */
    RELCALC_KIND = 11,               /* the name: a second kind, a kind its place does not take, a loop variable unbound or bound again */
    RELCALC_FREE_ATTRIBUTES = 12,    /* the statement: left attributes are not the free ones of the right side; IF or WHILE with any free,
                                        FOR not with one, TC or TCFAST not with two, a printed expression or what # counts with over 3 */
    RELCALC_TOO_MUCH = 13,           /* the 2,049th token; the token that opens level 33; the statement with a 5th attribute or a 17th
                                        closure */
    RELCALC_STORE_SHORT = 14,        /* the words needed: more than the store has */
    RELCALC_NOT_IN_FACTS = 15,       /* 0: no binary relation so named, or one of the elements not in the facts */
    RELCALC_BUFFER_SHORT = 16,       /* 0: buffer under 65 bytes */
    RELCALC_NO_CHAIN = 17,           /* 0: no chain exists */
    RELCALC_PATTERN = 18,            /* the string after an @, its opening quote: an empty or malformed pattern. A pattern is one or more
                                        branches parted by "|", each one or more of "^", "$", or a character, ".", set or "(" pattern ")"
                                        with at most one of "*", "+", "?", "{m,n}"; docs/QUERIES.md has the forms */
    RELCALC_NUMBER = 19,             /* the token: a number over 999,999 or a ninth summand's first */
    RELCALC_FIRST_ARITY = 20,        /* the name, in the second text: not the arity that the first text gives this relation */
    RELCALC_RESULT_TOO_LONG = 21     /* the length needed: over 32,768 bytes, or more than the output has */
};

/* Which text a part stands in. */
enum { RELCALC_IN_FACTS = 0, RELCALC_IN_QUERY = 1 };

/* Which text of a join a refusal is of. */
enum { RELCALC_OF_NEITHER = 0, RELCALC_OF_FIRST = 1, RELCALC_OF_SECOND = 2 };

/* How a run ended. */
enum { RELCALC_DONE = 0, RELCALC_SPENT = 1, RELCALC_FULL = 2 };

/* A relation: the first place of its name, its arity, its first word in the store, and the number of its tuples as loaded: different
   ones, so facts that repeat a tuple, quoted or bare, count once; 0 if only the query names it. */
typedef struct {
    uint64_t text, offset, length, arity, first, count;
} relcalc_record;

typedef struct {
    uint64_t refusal, place;
    uint64_t universe;  /* U, the number of elements */
    uint64_t words;     /* of store that a run needs */
    uint64_t relations; /* records in use */
    relcalc_record records[RELCALC_RELATIONS];
} relcalc_checked;

/* Whether a run would accept the texts with store enough, and what it needs.
   Accepted: refusal and place are 0; the records are in store order, unused ones all zero. Refused, 1 to 13, 18 or 19: all else is
   0. Writes nothing that is lent. */
relcalc_checked relcalc_check(const uint8_t *facts, size_t facts_len, const uint8_t *query, size_t query_len);

typedef struct {
    uint64_t refusal, place;
    uint64_t ending;  /* RELCALC_DONE, RELCALC_SPENT or RELCALC_FULL */
    uint64_t steps;   /* completed */
    uint64_t written; /* bytes of output */
    uint64_t counts[RELCALC_RELATIONS]; /* tuples of each relation at the run's end */
} relcalc_ran;

/* Runs the query over the facts. One step each: an assignment, a PRINT, an IF test, a WHILE test, a FOR's set, each element a FOR takes.
   Done: no statement is left. Spent: the next step's number is over the budget. Full: the next step is a PRINT, within the budget,
   whose bytes do not fit behind those written; it writes nothing and is no step. A run that is done has printed all it had to; the
   output of one that is spent or full is a first part of that, whole PRINTs only.
   Afterwards the store holds each relation's table at the end of the last step: with U elements arity 0 and 1 take one word, 2 takes U
   words, 3 takes U * U; tuple (a) is bit a, (a,b) bit b of word a, (a,b,c) bit c of word U * a + b, the empty tuple bit 0, counted from
   the relation's first word; other bits are zero. The words from there to those needed are zero, later ones unchanged. The output holds
   the bytes written, later ones unchanged.
   However the run ends, counts[i] is then the number of tuples in relation i's table, in the order of relcalc_check's records, unused
   ones zero: nobody need count bits. With a budget of 0 they are the counts of those records.
   A printed tuple is a line: its label, if it has one, and its elements, with one space between. An element is in quotes if a fact
   quoted it, or if it is empty or holds a space or tab; a label, string or loop variable never is. So PRINT ["R"] R(x,y); with a
   different attribute for each column gives lines of facts: read as facts, if they are at most 32,768 bytes, they have R's tuples, text
   for text. If R is empty there is no line.
   A printed sum is its digits; a ratio is reduced, as top, slash, bottom, also over 1 (6/3 is 2/1), or `none` where its bottom is 0. No
   line end follows. A comparison with a ratio over 0 is false, != too; no arithmetic ends a run.
   Refused, 1 to 14, 18 or 19: all else is 0; store and output are unchanged.
   Steps are not time: one step may take long where quantifiers nest (docs/PERFORMANCE.md). */
relcalc_ran relcalc_run(const uint8_t *facts, size_t facts_len, const uint8_t *query, size_t query_len, uint32_t budget,
                        uint64_t *store, size_t store_len, uint8_t *output, size_t output_len);

typedef struct {
    uint64_t text, offset, length;
} relcalc_part;

/* The text of element n of a run of these texts, without quotes: its first place in the facts or, if no fact holds it, the first
   left-hand string of the query. Where n is not below U, or the texts are refused (1 to 13, 18 or 19): text 1, offset 0, length 0,
   which no element has. Never refuses; writes nothing that is lent. */
relcalc_part relcalc_element(const uint8_t *facts, size_t facts_len, const uint8_t *query, size_t query_len, size_t n);

typedef struct {
    uint64_t refusal, place;
    uint64_t count; /* numbers written, 2 to 65 */
} relcalc_chained;

/* The first chain of facts `name a b` from element `first` to element `second`, given by their texts without quotes. Writes its element
   numbers, one byte each: each neighbouring pair is a fact of that name, and none comes twice except that the last may equal the first.
   The first chain has the fewest numbers and, among those, the smallest number at the earliest difference: every other chain for that
   question is as long or longer and, if as long, comes later. So the same facts give the same chain on every screen. With equal ends it
   is the shortest cycle, of several the first.
   The numbers count the facts' elements alone: with left-hand strings in a query they may differ from a run's, so ask relcalc_element
   with a query without them, such as "PRINT ENDL;". Bytes of the buffer past the count are unchanged.
   Refused, 1 to 7 for the facts, then 15, 16, 17: count is 0 and the buffer is unchanged. */
relcalc_chained relcalc_chain(const uint8_t *facts, size_t facts_len, const uint8_t *name, size_t name_len,
                              const uint8_t *first, size_t first_len, const uint8_t *second, size_t second_len,
                              uint8_t *buffer, size_t buffer_len);

typedef struct {
    uint64_t refusal, place;
    uint64_t text;   /* that is refused: RELCALC_OF_FIRST, RELCALC_OF_SECOND or RELCALC_OF_NEITHER, which also stands at success */
    uint64_t length; /* bytes of output */
} relcalc_joined;

/* Writes the facts of two texts as one. A line is the relation's name, each element after one space, and byte 10. Relations are in byte
   order of name, a prefix first; a relation's tuples ascend, column by column, by their elements' numbers among the elements of both
   texts; each tuple is one line. An element is in quotes throughout if a fact of either text quoted it, and so each that is empty or
   holds a blank. No comment, byte 13 or repeated line is written. Each text is read by itself: its dot line ends that text alone.
   Read as facts, what is written has the tuples of both texts, relation by relation and text for text; without facts it is empty. The
   two texts may be one and the same; the output overlaps neither. Bytes of output past the length are unchanged.
   Refused: length is 0 and the output is unchanged. First 1 to 7 of the first text, with text 1. Then, with text 2 and a place in the
   second: 1; 2; line by line 3, 4, 5 for too many elements, then 20 where the first text has the relation with another arity, or 5 where
   it has no such relation and an earlier line of the second gives another arity, then 6 and 7, which count those of both texts.
   Last 21, with text 0. If its place is at most 32,768, lend that many bytes and call again; if it is over, no longer output helps. An
   output of RELCALC_FACTS_BYTES is enough for all that can be written. */
relcalc_joined relcalc_join(const uint8_t *first, size_t first_len, const uint8_t *second, size_t second_len,
                            uint8_t *output, size_t output_len);

#ifdef __cplusplus
}
#endif

#endif
