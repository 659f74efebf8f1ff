/* The calls from C: the worked example, facts saved with CR LF, patterns, printed quotes, counts of tuples, sums and ratios, first
   chains, joined texts, refusals, null and equal texts, the largest sizes, a small stack. */
#define _POSIX_C_SOURCE 200809L
#include "lent.h"
#include "relcalc.h"

#include <pthread.h>
#include <stdio.h>
#include <string.h>

_Static_assert(sizeof(relcalc_record) == 6 * 8 && offsetof(relcalc_record, count) == 5 * 8, "a record's parts");
_Static_assert(sizeof(relcalc_checked) == (5 + 6 * 16) * 8 && offsetof(relcalc_checked, records) == 5 * 8, "a check's parts");
_Static_assert(sizeof(relcalc_ran) == (5 + 16) * 8 && offsetof(relcalc_ran, counts) == 5 * 8, "a run's parts");
_Static_assert(sizeof(relcalc_joined) == 4 * 8 && offsetof(relcalc_joined, length) == 3 * 8, "a join's parts");

static const char F[] = "On C10 C5\nOn C5 C2\nOn B7 C10\nHeld B7\n";
static const char F_cr_lf[] = "On C10 C5\r\nOn C5 C2\r\nOn B7 C10\r\nHeld B7\r\n";
static const char Q[] = "Dep(x,y) := TC(On(x,y)); PRINT [\"Dep\"] Dep(x,y);";
static const char page[] = "Dep B7 C10\nDep B7 C2\nDep B7 C5\nDep C10 C2\nDep C10 C5\nDep C5 C2\n";
static uint64_t store[RELCALC_STORE_WORDS];
static uint8_t output[32768];
static int passed, failed;

static void expect(int holds, const char *what)
{
    holds ? passed++ : failed++;
    if (!holds)
        printf("wrong: %s\n", what);
}
#define EXPECT(e) expect(e, #e)

static size_t length(const char *text) { return text ? strlen(text) : 0; }

static relcalc_checked check(const char *f, const char *q)
{
    return relcalc_check(lent_text(f), length(f), lent_text(q), length(q));
}

static relcalc_ran run(const char *f, const char *q, uint32_t budget, uint64_t *s, size_t words, uint8_t *o, size_t room)
{
    return relcalc_run(lent_text(f), length(f), lent_text(q), length(q), budget, lent_words(s), words, lent_bytes(o), room);
}

static relcalc_part element(const char *f, const char *q, size_t n)
{
    return relcalc_element(lent_text(f), length(f), lent_text(q), length(q), n);
}

static relcalc_chained chain(const char *f, const char *name, const char *a, const char *b, uint8_t *o, size_t room)
{
    return relcalc_chain(lent_text(f), length(f), lent_text(name), length(name), lent_text(a), length(a), lent_text(b), length(b),
                         lent_bytes(o), room);
}

static relcalc_joined join(const char *first, const char *second, uint8_t *o, size_t room)
{
    return relcalc_join(lent_text(first), length(first), lent_text(second), length(second), lent_bytes(o), room);
}

static int refused(relcalc_ran r, uint64_t refusal, uint64_t place)
{
    return !memcmp(&r, &(relcalc_ran){.refusal = refusal, .place = place}, sizeof r);
}

static int refused_check(relcalc_checked c, uint64_t refusal, uint64_t place)
{
    return !memcmp(&c, &(relcalc_checked){.refusal = refusal, .place = place}, sizeof c);
}

static int ended(relcalc_ran r, uint64_t ending, uint64_t steps, uint64_t written)
{
    return !r.refusal && !r.place && r.ending == ending && r.steps == steps && r.written == written;
}

/* the counts of a check's records, or of a run: all 16, those that are not given 0 */
static int loaded(relcalc_checked c, const uint64_t *counts)
{
    int same = !c.refusal;
    for (int i = 0; i < RELCALC_RELATIONS; i++)
        same &= c.records[i].count == counts[i];
    return same;
}
#define LOADED(c, ...) loaded(c, (const uint64_t[RELCALC_RELATIONS]){__VA_ARGS__})
#define COUNTED(r, ...) (!memcmp((r).counts, (const uint64_t[RELCALC_RELATIONS]){__VA_ARGS__}, sizeof (r).counts))

static int is_part(relcalc_part p, uint64_t text, uint64_t offset, uint64_t length)
{
    return p.text == text && p.offset == offset && p.length == length;
}

static void worked_example(void)
{
    relcalc_checked c = check(F, Q);
    EXPECT(!c.refusal && !c.place && c.universe == 4 && c.words == 77 && c.relations == 3);
    EXPECT(!memcmp(&c.records[0], &(relcalc_record){0, 0, 2, 2, 0, 3}, sizeof c.records[0]));
    EXPECT(!memcmp(&c.records[1], &(relcalc_record){0, 29, 4, 1, 4, 1}, sizeof c.records[0]));
    EXPECT(!memcmp(&c.records[2], &(relcalc_record){1, 0, 3, 2, 5, 0}, sizeof c.records[0]));
    EXPECT(!memcmp(&c.records[3], &(relcalc_record){0, 0, 0, 0, 0, 0}, sizeof c.records[0]));
    static const uint64_t tables[] = {2, 8, 0, 4, 1, 14, 12, 0, 4};
    store[77] = 7, output[63] = 7;
    EXPECT(ended(run(F, Q, 1000000, store, 78, output, 64), RELCALC_DONE, 2, 63));
    EXPECT(!memcmp(output, page, 63) && output[63] == 7);
    EXPECT(!memcmp(store, tables, sizeof tables) && store[9] == 0 && store[76] == 0 && store[77] == 7);
    EXPECT(ended(run(F, Q, 1, store, 77, output, 63), RELCALC_SPENT, 1, 0));
    EXPECT(ended(run(F, Q, 2, store, 77, output, 62), RELCALC_FULL, 1, 0));
    EXPECT(is_part(element(F, Q, 1), RELCALC_IN_FACTS, 3, 3));
    EXPECT(is_part(element(F, Q, 4), RELCALC_IN_QUERY, 0, 0));
    EXPECT(is_part(element(F, Q, SIZE_MAX), RELCALC_IN_QUERY, 0, 0));
    uint8_t numbers[66] = {0, 0, 0, 0, 9};
    EXPECT(chain(F, "On", "B7", "C2", numbers, 65).count == 4 && !memcmp(numbers, "\0\1\3\2\t", 5));
    EXPECT(chain(F, "On", "C2", "B7", numbers, 65).refusal == RELCALC_NO_CHAIN);
    EXPECT(chain(F, "On", "B7", "C2", numbers, 64).refusal == RELCALC_BUFFER_SHORT);
    EXPECT(chain(F, "Held", "B7", "C2", numbers, 65).refusal == RELCALC_NOT_IN_FACTS);
}

static void facts_with_cr_lf(void)
{
    relcalc_checked c = check(F_cr_lf, Q);
    EXPECT(!c.refusal && !c.place && c.universe == 4 && c.words == 77 && c.relations == 3);
    EXPECT(!memcmp(&c.records[0], &(relcalc_record){0, 0, 2, 2, 0, 3}, sizeof c.records[0]));
    EXPECT(!memcmp(&c.records[1], &(relcalc_record){0, 32, 4, 1, 4, 1}, sizeof c.records[0]));
    EXPECT(!memcmp(&c.records[2], &(relcalc_record){1, 0, 3, 2, 5, 0}, sizeof c.records[0]));
    static const uint64_t tables[] = {2, 8, 0, 4, 1, 14, 12, 0, 4};
    memset(store, 7, sizeof store), memset(output, 7, sizeof output);
    EXPECT(ended(run(F_cr_lf, Q, 1000000, store, 77, output, 64), RELCALC_DONE, 2, 63));
    EXPECT(!memcmp(output, page, 63) && output[63] == 7);
    EXPECT(!memcmp(store, tables, sizeof tables) && store[9] == 0 && store[76] == 0);
    EXPECT(is_part(element(F_cr_lf, Q, 0), RELCALC_IN_FACTS, 24, 2));
    EXPECT(is_part(element(F_cr_lf, Q, 2), RELCALC_IN_FACTS, 17, 2));
    EXPECT(is_part(element(F_cr_lf, Q, 3), RELCALC_IN_FACTS, 7, 2));
    uint8_t numbers[65] = {0, 0, 0, 0, 9};
    EXPECT(chain(F_cr_lf, "On", "B7", "C2", numbers, 65).count == 4 && !memcmp(numbers, "\0\1\3\2\t", 5));
}

static int checked(const char *f, const char *q, uint64_t refusal, uint64_t place, uint64_t universe)
{
    relcalc_checked c = check(f, q);
    return c.refusal == refusal && c.place == place && c.universe == universe;
}

static void line_ends(void)
{
    static char lines[32770];
    static const char q[] = "PRINT ENDL;";
    EXPECT(checked("\r", q, 0, 0, 0));
    EXPECT(checked("Held B7\n\r", q, 0, 0, 1));
    EXPECT(checked("Held B7\nHeld \"C2\"\r\n\r\n# a\r\nHeld C5 \r", q, 0, 0, 3));
    EXPECT(checked("Held B7\r\n.\rx\r\r\n", q, 0, 0, 1));
    EXPECT(checked("Held aaaabbbbccccddddeeeeffffgggghhhh\r\n", q, 0, 0, 1));
    EXPECT(checked("Held aaaabbbbccccddddeeeeffffgggghhhhi\r\n", q, RELCALC_FACT_ELEMENT, 5, 0));
    EXPECT(checked("Held \"B7\r\n", q, RELCALC_FACT_ELEMENT, 5, 0));
    EXPECT(checked("Held B7\r\nHeld \xC8\r\n", q, RELCALC_FACT_BYTE, 14, 0));
    for (int i = 0; i < 32768; i += 2)
        lines[i] = '\r', lines[i + 1] = '\n';
    EXPECT(checked(lines, q, 0, 0, 0));
    lines[32768] = '\r';
    EXPECT(checked(lines, q, RELCALC_FACTS_TOO_LONG, 32768, 0));
}

static void returns_elsewhere(void)
{
    static const char q[] = "PRINT ENDL;";
    EXPECT(checked("On C\r10 C5\r\n", q, RELCALC_FACT_BYTE, 4, 0));
    EXPECT(checked("Held B7\r\r\n", q, RELCALC_FACT_BYTE, 7, 0));
    EXPECT(checked("Held B7\r\r", q, RELCALC_FACT_BYTE, 7, 0));
    EXPECT(checked("Held B7\rHeld C2\r", q, RELCALC_FACT_BYTE, 7, 0));
    EXPECT(checked("Held B7\r.", q, RELCALC_FACT_BYTE, 7, 0));
    EXPECT(checked("# a\rb\n", q, RELCALC_FACT_BYTE, 3, 0));
    EXPECT(checked("Held \"a\rb\"\n", q, RELCALC_FACT_BYTE, 7, 0));
    EXPECT(checked(" Held\nOn a\rb c\n", q, RELCALC_FACT_BYTE, 10, 0));
    EXPECT(checked(F, "PRINT Held(x);\r\n", RELCALC_NO_TOKEN, 14, 0));
    EXPECT(checked(F, "// a\r\nPRINT ENDL;", RELCALC_NO_TOKEN, 4, 0));
    EXPECT(checked(F, "PRINT \"a\rb\";", RELCALC_NO_TOKEN, 8, 0));
    EXPECT(checked(F, "PRINT ENDL;\r", RELCALC_NO_TOKEN, 11, 0));
    uint8_t numbers[65] = {9, 9};
    relcalc_chained c = chain("On C5\r C2\n", "On", "C5", "C2", numbers, 65);
    EXPECT(c.refusal == RELCALC_FACT_BYTE && c.place == 5 && !c.count && numbers[0] == 9 && numbers[1] == 9);
}

static char *picking(const char *pattern)
{
    static char query[64];
    sprintf(query, "PRINT @\"%s\"(x);", pattern);
    return query;
}

static int prints(const char *query, uint64_t steps, const char *lines)
{
    return ended(run(F, query, 99, store, RELCALC_STORE_WORDS, output, sizeof output), RELCALC_DONE, steps, strlen(lines)) &&
           !memcmp(output, lines, strlen(lines));
}

static void patterns(void)
{
    EXPECT(prints(picking("^C1"), 1, "C10\n"));
    EXPECT(prints(picking("C"), 1, "C10\nC2\nC5\n"));
    EXPECT(prints(picking("c"), 1, ""));
    EXPECT(prints(picking("^C.$"), 1, "C2\nC5\n"));
    EXPECT(prints(picking("[^C2-5]$"), 1, "B7\nC10\n"));
    EXPECT(prints(picking("^C1*0?2+$|7"), 1, "B7\nC2\n"));
    EXPECT(prints(picking("^(B|C1){1,1}.$"), 1, "B7\nC10\n"));
    EXPECT(prints(picking("\\C\\5"), 1, "C5\n"));
    EXPECT(prints(picking("a*^B"), 1, "B7\n"));
    EXPECT(prints("Q(x) := On(x,_) & @\"^C1\"(x); PRINT Q(x);", 2, "C10\n"));
    EXPECT(prints("PRINT [\"a\"] @\"^C\"(\"C2\"), [\"b\"] @\".\"(\"Z\"), [\"c\"] @\"7$\"(_);", 1, "a\nc\n"));
    EXPECT(checked(F, picking("Z"), 0, 0, 4));
}

static void printed_quotes(void)
{
    EXPECT(prints("Held(\"5Y off the run\"); PRINT Held(x);", 2, "\"5Y off the run\"\nB7\n"));
    EXPECT(prints("Held(\"\"); Held(\" \"); Held(\"a\tb\"); Held(\"C2\"); Held(\"#x\"); PRINT Held(x);", 6,
                  "\"\"\n\" \"\n#x\nB7\nC2\n\"a\tb\"\n"));
    EXPECT(prints("R(\"a b\"); FOR v IN R(x) { PRINT v, ENDL, [v] R(x), \"c d\"; }", 4, "a b\na b \"a b\"\nc d"));
    static const char names[] = "Held(\"a b\"); PRINT Held(x);";
    EXPECT(ended(run(F, names, 9, store, RELCALC_STORE_WORDS, output, 9), RELCALC_DONE, 2, 9));
    EXPECT(ended(run(F, names, 9, store, RELCALC_STORE_WORDS, output, 8), RELCALC_FULL, 1, 0));
}

/* a page of lines of facts, read as facts: the same tuples of texts, and a relation that is absent is empty */
static void pages_read_back(void)
{
    static const char held[] = "Held \"\"\nHeld \"5Y off the run\"\nHeld B7\n", again[] = "PRINT [\"Held\"] Held(x), [\"On\"] On(x,y);";
    EXPECT(prints("Held(\"5Y off the run\"); Held(\"\"); PRINT [\"Held\"] Held(x);", 3, held));
    EXPECT(is_part(element(held, again, 0), RELCALC_IN_FACTS, 6, 0));
    EXPECT(is_part(element(held, again, 1), RELCALC_IN_FACTS, 14, 14));
    EXPECT(is_part(element(held, again, 2), RELCALC_IN_FACTS, 35, 2));
    EXPECT(ended(run(held, again, 9, store, RELCALC_STORE_WORDS, output, sizeof output), RELCALC_DONE, 1, strlen(held)));
    EXPECT(store[0] == 7 && !memcmp(output, held, strlen(held)));
}

static void counts_as_loaded(void)
{
    EXPECT(LOADED(check(F, Q), 3, 1, 0));
    EXPECT(LOADED(check(F_cr_lf, Q), 3, 1, 0));
    EXPECT(LOADED(check("On C10 C5\nOn C5 C2\nOn C10 C5\nHeld B7\nHeld B7\n", Q), 2, 1, 0));
    EXPECT(LOADED(check("Held \"B7\"\nHeld B7\nOn B7 \"C2\"\nOn \"B7\" C2\nHeld \"B7\"\n", Q), 1, 1, 0));
    EXPECT(LOADED(check("T a b c\nT \"a\" b c\nT a\tb  c \nT c b a\n", "PRINT ENDL;"), 2));
    EXPECT(LOADED(check("P\nP \nP", "PRINT ENDL;"), 1));
    EXPECT(LOADED(check("Held \"\"\nHeld \" \"\nHeld  \"\"\n# Held a\n.\nHeld b\n", "PRINT ENDL;"), 2));
    EXPECT(LOADED(check(NULL, "IF FALSE() { R(\"a\"); } PRINT P();"), 0, 0));
    EXPECT(LOADED(check(NULL, "PRINT ENDL;"), 0));
    static char lines[32769];
    for (int i = 0; i < 32768; i += 2)
        lines[i] = 'P', lines[i + 1] = '\n';
    EXPECT(LOADED(check(lines, "PRINT ENDL;"), 1));
}

/* a run whose store and output hold something else before it */
static relcalc_ran over(const char *f, const char *q, uint32_t budget, size_t room)
{
    memset(store, 7, sizeof store), memset(output, 7, sizeof output);
    return run(f, q, budget, store, RELCALC_STORE_WORDS, output, room);
}

static void counts_at_the_end(void)
{
    EXPECT(COUNTED(over(F, Q, 9, 63), 3, 1, 6) && COUNTED(over(F, Q, 1, 63), 3, 1, 6) && COUNTED(over(F, Q, 0, 63), 3, 1, 0));
    EXPECT(COUNTED(over(F, Q, 2, 62), 3, 1, 6));
    EXPECT(COUNTED(over("Held \"B7\"\nHeld B7\n", "PRINT ENDL;", 9, 1), 1));
    EXPECT(COUNTED(over(F, "Held(\"C2\"); On(\"B7\",x) := FALSE(x);", 9, 0), 2, 2));
    EXPECT(COUNTED(over(F, "On(\"C2\",\"Z\"); Held(x) := Held(x);", 9, 0), 4, 1));
    EXPECT(COUNTED(over(F, "On(x,y) := FALSE(x,y); T(x,y,z); P();", 9, 0), 0, 1, 64, 1));
    EXPECT(COUNTED(over(NULL, "P(); P() := FALSE(); P();", 2, 0), 0) && COUNTED(over(NULL, "P(); P() := FALSE(); P();", 3, 0), 1));
    static const char shrinks[] = "FOR v IN On(x,_) { On(x,y) := On(x,y) & x != v; Gone(x) := Gone(x) | x = v; PRINT v; }";
    static const uint64_t on[] = {3, 3, 3, 2, 2, 2, 2, 1, 1, 1, 1, 0, 0, 0}, gone[] = {0, 0, 0, 0, 1, 1, 1, 1, 2, 2, 2, 2, 3, 3};
    for (uint32_t steps = 0; steps < 14; steps++)
        EXPECT(COUNTED(over(F, shrinks, steps, 99), on[steps], 1, gone[steps]));
    /* B7, C10 and C5 are printed: 2, 3 and 2 bytes */
    EXPECT(COUNTED(over(F, shrinks, 99, 1), 2, 1, 1));
    EXPECT(COUNTED(over(F, shrinks, 99, 4), 1, 1, 2));
    EXPECT(COUNTED(over(F, shrinks, 99, 6), 0, 1, 3));
    static const char turns[] = "WHILE TRUE() { Held(x) := !Held(x); }";
    EXPECT(COUNTED(over(F, turns, 4, 0), 3, 1) && COUNTED(over(F, turns, 6, 0), 3, 3));
}

static void no_counts_of_refusals(void)
{
    EXPECT(refused_check(check(F, "PRINT On(x,y)"), RELCALC_NO_PROGRAM, 13));
    EXPECT(refused_check(check("Held B7\nHeld B7 C2\n", Q), RELCALC_ARITY_WRONG, 16));
    EXPECT(refused_check(check(F, "Dep(x) := TC(On(x,y));"), RELCALC_FREE_ATTRIBUTES, 0));
    EXPECT(refused(over(F, "PRINT On(x,y)", 9, 9), RELCALC_NO_PROGRAM, 13));
    EXPECT(refused(over("Held B7\nHeld B7 C2\n", Q, 9, 9), RELCALC_ARITY_WRONG, 16));
    EXPECT(refused(run(F, Q, 9, store, 76, output, 64), RELCALC_STORE_SHORT, 77) && LOADED(check(F, Q), 3, 1, 0));
}

static void quantities(void)
{
    EXPECT(prints("PRINT #(On(x,y)), #(On(x,_)), #(TRUE()), #(FALSE(x));", 1, "3310"));
    EXPECT(prints("PRINT #(Held(x) & On(x,_)) / #(On(x,_));", 1, "1/3"));
    EXPECT(prints("FOR c IN On(_,x) { PRINT c, \" \", #(On(x,c)) / #(On(x,y)), ENDL; }", 7, "C10 1/3\nC2 1/3\nC5 1/3\n"));
    EXPECT(prints("PRINT 1+2/3+4, \" \", 6/3, \" \", 0/5, \" \", 007, \" \", 999999+999999;", 1, "3/7 2/1 0/1 7 1999998"));
    EXPECT(prints("PRINT 1/0, 0/0, #(Held(x))/#(FALSE(x));", 1, "nonenonenone"));
    EXPECT(prints("PRINT [\"a\"] 2/4 = 3/6, [\"b\"] 1/3 < 1/2, [\"c\"] 5/9 < 4/7, [\"d\"] 2 > 4/2;", 1, "a\nb\nc\n"));
    EXPECT(prints("PRINT [\"a\"] 1/0 = 1, [\"b\"] 1/0 != 1, [\"c\"] 1 <= 0/0, [\"d\"] !(1/0 = 1/0);", 1, "d\n"));
    EXPECT(prints("PRINT [\"a\"] 65536 = 0/65536;", 1, ""));
    EXPECT(prints("PRINT Held(x) & (#(On(x,y)) = 3);", 1, "B7\n"));
    EXPECT(prints("WHILE #(Held(x)) < 3 { Held(x) := Held(x) | EX(y, Held(y) & On(y,x)); } PRINT #(Held(x));", 6, "3"));
    EXPECT(prints("PRINT 6/*2*//3, 6// 2\n;", 1, "2/16"));
    EXPECT(prints("PRINT 00000000000000000000000000999999;", 1, "999999"));
    EXPECT(ended(over(F, "PRINT 10/4;", 9, 3), RELCALC_DONE, 1, 3) && ended(over(F, "PRINT 10/4;", 9, 2), RELCALC_FULL, 0, 0));
    EXPECT(ended(over(F, "WHILE #(Held(x)) = 1 { P(); }", 5, 0), RELCALC_SPENT, 5, 0));
    EXPECT(ended(over(NULL, "PRINT #(TRUE(x)), #(TRUE());", 9, 2), RELCALC_DONE, 1, 2) && !memcmp(output, "01", 2));
}

static void refused_numbers(void)
{
    EXPECT(checked(F, "PRINT 1000000;", RELCALC_NUMBER, 6, 0) && checked(F, "PRINT 0001000000;", RELCALC_NUMBER, 6, 0));
    EXPECT(checked(F, "PRINT 1+1+1+1+1+1+1+1+1;", RELCALC_NUMBER, 22, 0) && checked(F, "PRINT 1+1+1+1+1+1+1+1;", 0, 0, 4));
    EXPECT(checked(F, "IF 2/1+1+1+1+1+1+1+1+#(Held(x)) < 1 { P(); }", RELCALC_NUMBER, 21, 0));
    EXPECT(checked(F, "PRINT 99999999999999999999999999999999;", RELCALC_NUMBER, 6, 0));
    EXPECT(checked(F, "PRINT 000000000000000000000000000000000;", RELCALC_NO_TOKEN, 6, 0));
    EXPECT(checked(F, "PRINT On(1000000,x);", RELCALC_NO_PROGRAM, 9, 0) && checked(F, "PRINT !1=1;", RELCALC_NO_PROGRAM, 7, 0));
    EXPECT(checked(F, "PRINT [\"a\"] 1;", RELCALC_NO_PROGRAM, 13, 0) && checked(F, "IF #(Held(x)) { P(); }", RELCALC_NO_PROGRAM, 14, 0));
    EXPECT(checked(F, "PRINT zz, @\"(\"(x), 1000000;", RELCALC_NUMBER, 19, 0));
    EXPECT(checked(F, "P(); PRINT #(TRUE(x,y,z,w));", RELCALC_FREE_ATTRIBUTES, 5, 0));
    EXPECT(checked(F, "Q(x) := #(On(x,y)) > 1;", RELCALC_FREE_ATTRIBUTES, 0, 0));
    EXPECT(refused_check(check(F, "PRINT 1000000;"), RELCALC_NUMBER, 6) && refused(over(F, "PRINT 1000000;", 9, 9), RELCALC_NUMBER, 6));
    EXPECT(is_part(element(F, "PRINT 1000000;", 0), RELCALC_IN_QUERY, 0, 0));
}

/* a chain of these numbers, in a buffer whose other bytes stay */
static int chained(const char *f, const char *name, const char *a, const char *b, const uint8_t *numbers, size_t count)
{
    uint8_t buffer[RELCALC_CHAIN_BYTES + 1], due[RELCALC_CHAIN_BYTES + 1];
    memset(buffer, 7, sizeof buffer), memset(due, 7, sizeof due), memcpy(due, numbers, count);
    relcalc_chained c = chain(f, name, a, b, buffer, RELCALC_CHAIN_BYTES);
    return !c.refusal && !c.place && c.count == count && !memcmp(buffer, due, sizeof due);
}
#define CHAINED(f, name, a, b, ...) chained(f, name, a, b, (const uint8_t[]){__VA_ARGS__}, sizeof(const uint8_t[]){__VA_ARGS__})

/* a chain refused, in a buffer that stays */
static int unchained(const char *f, const char *name, const char *a, const char *b, size_t room, uint64_t refusal, uint64_t place)
{
    uint8_t buffer[RELCALC_CHAIN_BYTES], due[RELCALC_CHAIN_BYTES];
    memset(buffer, 7, sizeof buffer), memset(due, 7, sizeof due);
    relcalc_chained c = chain(f, name, a, b, buffer, room);
    return !memcmp(&c, &(relcalc_chained){.refusal = refusal, .place = place}, sizeof c) && !memcmp(buffer, due, sizeof due);
}

/* fewest elements, then the smallest number at the earliest difference */
static void first_chains(void)
{
    EXPECT(CHAINED("R a b\nR a c\nR b d\nR c d\n", "R", "a", "d", 0, 1, 3));
    EXPECT(CHAINED("R c d\nR b d\nR a c\nR a b\n", "R", "a", "d", 0, 1, 3));
    EXPECT(CHAINED("R a b\nR b c\nR c e\nR a d\nR d e\n", "R", "a", "e", 0, 3, 4));
    EXPECT(CHAINED("R a b\nR b c\nR a c\n", "R", "a", "c", 0, 2));
    EXPECT(CHAINED("R a b\nR b y\nR y z\nR a c\nR c d\nR d z\n", "R", "a", "z", 0, 1, 4, 5));
    EXPECT(CHAINED("R z y\nR y b\nR b a\nR z x\nR x c\nR c a\n", "R", "z", "a", 5, 3, 2, 0));
    EXPECT(CHAINED("R B7 C2\nR C2 X\nR B7 C10\nR C10 X\n", "R", "B7", "X", 0, 1, 3));
    EXPECT(CHAINED("R s a\nR a t\nR s B\nR B t\n", "R", "s", "t", 2, 0, 3));
    EXPECT(CHAINED("S A\nR a b\nT c a B\n", "R", "a", "b", 2, 3));
    EXPECT(CHAINED("R x c\nR c z\nR x \"a b\"\nR \"a b\" z\n", "R", "x", "z", 2, 0, 3));
    EXPECT(CHAINED("R \"a\" b\nR b \"c\"\n", "R", "a", "c", 0, 1, 2));
    EXPECT(CHAINED("R a b\nR b z\nR a \"\"\nR \"\" z\n", "R", "a", "z", 1, 0, 3));
    EXPECT(CHAINED("R a b\r\nR a c\r\nR b d\r\nR c d\r\n", "R", "a", "d", 0, 1, 3));
}

/* with equal ends the shortest cycle, and of several the first */
static void first_cycles(void)
{
    EXPECT(CHAINED("R a a\n", "R", "a", "a", 0, 0));
    EXPECT(CHAINED("R \"\" \"\"\n", "R", "", "", 0, 0));
    EXPECT(CHAINED("R a b\nR b a\nR b b\n", "R", "b", "b", 1, 1));
    EXPECT(CHAINED("R a b\nR b c\nR c a\nR a d\nR d a\n", "R", "a", "a", 0, 3, 0));
    EXPECT(CHAINED("R a b\nR b c\nR c a\nR a d\nR d a\n", "R", "b", "b", 1, 2, 0, 1));
    EXPECT(CHAINED("R b c\nR c b\nR b a\nR a b\n", "R", "b", "b", 1, 0, 1));
    EXPECT(CHAINED("R a a\nR a b\nR b b\n", "R", "a", "b", 0, 1));
}

static void refused_chains(void)
{
    static const char ab[] = "R a b\n";
    EXPECT(unchained(ab, "R", "b", "a", 65, RELCALC_NO_CHAIN, 0) && unchained(ab, "R", "a", "a", 65, RELCALC_NO_CHAIN, 0));
    EXPECT(unchained("R a b\nR b b\n", "R", "a", "a", 65, RELCALC_NO_CHAIN, 0));
    EXPECT(unchained("R a b\nS b c\n", "R", "a", "c", 65, RELCALC_NO_CHAIN, 0));
    EXPECT(unchained(ab, "R", "a", "b", 64, RELCALC_BUFFER_SHORT, 0) && unchained(ab, "R", "b", "a", 0, RELCALC_BUFFER_SHORT, 0));
    EXPECT(unchained(ab, "R", "a", "c", 0, RELCALC_NOT_IN_FACTS, 0) && unchained(ab, "R", "\"a\"", "b", 65, RELCALC_NOT_IN_FACTS, 0));
    EXPECT(unchained(ab, "S", "a", "b", 65, RELCALC_NOT_IN_FACTS, 0));
    EXPECT(unchained("R a b c\n", "R", "a", "b", 65, RELCALC_NOT_IN_FACTS, 0));
    EXPECT(unchained("R a\nR a b\n", "S", "x", "y", 0, RELCALC_ARITY_WRONG, 8));
}

/* a join that writes these lines; the output's other bytes stay */
static int joined(const char *first, const char *second, size_t room, const char *lines)
{
    static uint8_t due[sizeof output];
    size_t written = strlen(lines);
    memset(output, 7, sizeof output), memset(due, 7, sizeof due), memcpy(due, lines, written);
    relcalc_joined j = join(first, second, output, room);
    return !memcmp(&j, &(relcalc_joined){.length = written}, sizeof j) && !memcmp(output, due, sizeof due);
}

/* a join refused, whose output stays */
static int unjoined(const char *first, const char *second, size_t room, uint64_t refusal, uint64_t place, uint64_t text)
{
    static uint8_t longer[sizeof output + 99], due[sizeof longer];
    memset(longer, 7, sizeof longer), memset(due, 7, sizeof due);
    relcalc_joined j = join(first, second, longer, room);
    return !memcmp(&j, &(relcalc_joined){.refusal = refusal, .place = place, .text = text}, sizeof j) && !memcmp(longer, due, sizeof due);
}

static int refused_first(const char *first, const char *second, uint64_t refusal, uint64_t place)
{
    return unjoined(first, second, sizeof output, refusal, place, RELCALC_OF_FIRST);
}

static int refused_second(const char *first, const char *second, uint64_t refusal, uint64_t place)
{
    return unjoined(first, second, sizeof output, refusal, place, RELCALC_OF_SECOND);
}

static int too_long(const char *first, const char *second, size_t room, uint64_t needed)
{
    return unjoined(first, second, room, RELCALC_RESULT_TOO_LONG, needed, RELCALC_OF_NEITHER);
}

/* joined in this order and the other, with room to spare, just enough and one byte short; what is written joined with itself is the same */
static int joins(const char *first, const char *second, const char *lines)
{
    size_t n = strlen(lines);
    return joined(first, second, sizeof output, lines) && joined(first, second, n, lines) && joined(second, first, n, lines) &&
           joined(lines, lines, n, lines) && (n == 0 || too_long(first, second, n - 1, n));
}

/* relations in byte order of name, tuples ascending, each once */
static void joined_texts(void)
{
    EXPECT(joins("R a\nR b\n", "R b\nR c\n", "R a\nR b\nR c\n"));
    EXPECT(joins(F, "Rated \"B7\" AA\r\nHeld C5\r\n",
                 "Held \"B7\"\nHeld C5\nOn \"B7\" C10\nOn C10 C5\nOn C5 C2\nRated \"B7\" AA\n"));
    EXPECT(joins("b x\nA x\n_a x\nA2 x\n", "A1 x\nA10 x\nA x\nB x\n", "A x\nA1 x\nA10 x\nA2 x\nB x\n_a x\nb x\n"));
    EXPECT(joins("R m\n", "R z\nR a\n", "R a\nR m\nR z\n"));
    EXPECT(joins("R b a\nR a c\n", "R a b\nR aa a\nR C2 z\nR C10 z\n", "R C10 z\nR C2 z\nR a b\nR a c\nR aa a\nR b a\n"));
    EXPECT(joins("T b a a\nT a b c\n", "T a b a\nT a a z\n", "T a a z\nT a b a\nT a b c\nT b a a\n"));
    EXPECT(joins("P\n", "P \nQ", "P\nQ\n"));
    EXPECT(joins("R a\nR a\n", "S b\nS b\nS  b\n", "R a\nS b\n"));
    EXPECT(joins("R  a\t\tb \t\n", "R\tc d", "R a b\nR c d\n"));
    EXPECT(joins("# one\n\n \t\nR a\n", "\n#\nR b\n#", "R a\nR b\n"));
    EXPECT(joins("R a\n.\n", "R b\n", "R a\nR b\n"));
    EXPECT(joins("R a\r\nR b\r", "R c\nR b\r\n", "R a\nR b\nR c\n"));
    EXPECT(joins("\r\n \r\nR a\r\n", "\r", "R a\n"));
}

/* in quotes throughout if a fact of either text quoted it */
static void joined_quotes(void)
{
    EXPECT(joins("S a\nT a b\n", "R \"a\"\n", "R \"a\"\nS \"a\"\nT \"a\" b\n"));
    EXPECT(joins("R a\n", "R \"a\"\n", "R \"a\"\n"));
    EXPECT(joins("R a\nR \"a\"\n", NULL, "R \"a\"\n"));
    EXPECT(joins("R \"a\"\n", "R B\n", "R B\nR \"a\"\n"));
    EXPECT(joins("R !\n", "R \"\"\n", "R \"\"\nR !\n"));
    EXPECT(joins("Held \"5Y off the run\"\n", "Held \"\t\"\nHeld \"\"\n", "Held \"\"\nHeld \"\t\"\nHeld \"5Y off the run\"\n"));
    EXPECT(joins("R a\n.\nR \"a\"\n", "# \"a\"\nS a\n. R \"a\"", "R a\nS a\n"));
}

static void joined_empty_and_equal(void)
{
    EXPECT(joins(NULL, NULL, "") && joins("# a\n\n", ".\nR a\n", ""));
    EXPECT(joins(NULL, "S b\nR a", "R a\nS b\n"));
    relcalc_joined none = join(NULL, NULL, NULL, 0);
    EXPECT(!memcmp(&none, &(relcalc_joined){0}, sizeof none));
    EXPECT(too_long(NULL, "P", 0, 2));
    /* one text lent twice, and one that is the end of the other */
    static const char due[] = "Held B7\nOn B7 C10\nOn C10 C5\nOn C5 C2\n";
    EXPECT(joins(F, F, due) && joins(F, F + 10, due));
}

static void refused_joins(void)
{
    EXPECT(refused_first("R a\nR b\rc\n", "S \"\n", RELCALC_FACT_BYTE, 7) && refused_second("R a\n", "R b\rc\n", RELCALC_FACT_BYTE, 3));
    EXPECT(refused_first("TRUE a\n", "9\n", RELCALC_FACT_NAME, 0) && refused_second("R a\n", "R a\n R b\n", RELCALC_FACT_NAME, 4));
    EXPECT(refused_first("R a\nR \"b\n", "R a\n", RELCALC_FACT_ELEMENT, 6) &&
           refused_second("R a\n", "R a\nR \"b\n", RELCALC_FACT_ELEMENT, 6));
    EXPECT(refused_first("S a b c d\n", "R a\n", RELCALC_ARITY_WRONG, 8) && refused_second("R a\n", "S a b c d\n", RELCALC_ARITY_WRONG, 8));
    EXPECT(refused_first("R a b\nR c\n", NULL, RELCALC_ARITY_WRONG, 8) &&
           refused_first("R a b\nR c\n", "R a b c\n", RELCALC_ARITY_WRONG, 8));
    EXPECT(refused_second("S a\n", "R a\nR b \"c\"\n", RELCALC_ARITY_WRONG, 8) &&
           refused_second("S a\n", "R a\nR\n", RELCALC_ARITY_WRONG, 4));
    /* 20 where the first text has the relation, at the name */
    EXPECT(refused_second("R a b\n", "R a b\nR a\n", RELCALC_FIRST_ARITY, 6) && refused_second("R\n", "R a\n", RELCALC_FIRST_ARITY, 0));
    EXPECT(refused_second("R a\n", "S x\nR\n", RELCALC_FIRST_ARITY, 4) && refused_second("R a\n", "R a b\n9\n", RELCALC_FIRST_ARITY, 0));
    EXPECT(refused_second("R a\n", "R a b c d\n", RELCALC_ARITY_WRONG, 8) &&
           refused_second("R a\n", "R a b\"c\n", RELCALC_FACT_ELEMENT, 4));
    EXPECT(refused_second("R a\n", "R a b\n#\x7F\n", RELCALC_FACT_BYTE, 7) &&
           refused_second("R a\n.\nR a b\n", "R b c\n", RELCALC_FIRST_ARITY, 0));
    EXPECT(unjoined("R a\n", "R\n", 0, RELCALC_FIRST_ARITY, 0, RELCALC_OF_SECOND));
    static char hashes[32770];
    memset(hashes, '#', 32769);
    EXPECT(refused_first(hashes, "9\n", RELCALC_FACTS_TOO_LONG, 32768) && refused_second("R a\n", hashes, RELCALC_FACTS_TOO_LONG, 32768));
    EXPECT(refused_first("9\n", hashes, RELCALC_FACT_NAME, 0));
    hashes[32768] = 0;
    EXPECT(joined(hashes, hashes, 0, ""));
}

/* lines N00, N01, .. */
static char *names(char *at, int from, int to)
{
    for (int i = from; i < to; i++)
        at += sprintf(at, "N%02d\n", i);
    return at;
}

/* lines E e00, E e01, .. */
static char *elements(char *at, int count)
{
    for (int i = 0; i < count; i++)
        at += sprintf(at, "E e%02d\n", i);
    return at;
}

/* 6 and 7 count those of both texts */
static void joined_limits(void)
{
    static char first[999], second[99], due[999];
    names(first, 0, 16);
    EXPECT(refused_second(first, "# a\nN00\nM\n", RELCALC_TOO_MANY_RELATIONS, 8) && joins(first, "N15\nN00\n", first));
    names(due, 0, 16), names(first, 0, 10), names(second, 10, 16);
    EXPECT(joins(first, second, due));
    names(second, 10, 17);
    EXPECT(refused_second(first, second, RELCALC_TOO_MANY_RELATIONS, 24) && refused_second(second, first, RELCALC_TOO_MANY_RELATIONS, 36));
    names(first, 0, 17);
    EXPECT(refused_first(first, "9\n", RELCALC_TOO_MANY_RELATIONS, 64));
    elements(first, 64);
    EXPECT(refused_second(first, "F e00 new\n", RELCALC_TOO_MANY_ELEMENTS, 6) && joined(first, "E e63\n", sizeof output, first));
    EXPECT(refused_second(first, "F \"new\"\nE new one\n", RELCALC_TOO_MANY_ELEMENTS, 2));
    EXPECT(refused_second(first, "E new one\n", RELCALC_FIRST_ARITY, 0));
    EXPECT(unjoined(first, "F new\n", 0, RELCALC_TOO_MANY_ELEMENTS, 2, RELCALC_OF_SECOND));
    names(elements(first, 64), 0, 15);
    EXPECT(refused_second(first, "M new\n", RELCALC_TOO_MANY_RELATIONS, 0));
    elements(first, 65);
    EXPECT(refused_first(first, "9\n", RELCALC_TOO_MANY_ELEMENTS, 386));
    elements(first, 63), strcat(strcpy(due, first), "F x x\n");
    EXPECT(refused_second(first, "F x x y\n", RELCALC_TOO_MANY_ELEMENTS, 6) && joins(first, "F x x\n", due));
}

/* pairs over 64 elements of one byte, six bytes a line, the last first or the first first */
static char *falling(char *at, char name, int count)
{
    for (int i = count; i-- > 0;)
        at += sprintf(at, "%c %c %c\n", name, '0' + i / 64, '0' + i % 64);
    return at;
}

static char *rising(char *at, char name, int count)
{
    for (int i = 0; i < count; i++)
        at += sprintf(at, "%c %c %c\n", name, '0' + i / 64, '0' + i % 64);
    return at;
}

/* 5,461 different facts, 32,766 bytes: in the slowest order, as they are written, and as many that come before them */
static char long_facts[32770], long_lines[32770], others[32770];

static void longest_joins(void)
{
    falling(falling(long_facts, 'S', 1365), 'R', 4096);
    rising(rising(long_lines, 'R', 4096), 'S', 1365);
    falling(falling(others, 'Q', 1365), 'P', 4096);
    EXPECT(strlen(long_facts) == 32766 && joins(long_facts, long_lines, long_lines) && joins(long_facts, NULL, long_lines));
    EXPECT(too_long(long_facts, others, sizeof output, 2 * 32766));
    static char due[32770] = "P\n";
    strcat(due, long_lines);
    EXPECT(joined(long_facts, "P", 32768, due) && too_long(long_facts, "P", 32767, 32768));
    /* a longer output is of no use */
    EXPECT(too_long(long_facts, "Pq", 32768, 32769) && too_long(long_facts, "Pq", sizeof output + 99, 32769));
    strcat(strcpy(due, long_facts), "Pq");
    EXPECT(too_long(due, NULL, sizeof output + 99, 32769));
    /* the element 0 stands 128 times in R, 86 times in S and once in P */
    EXPECT(too_long(long_facts, "P \"0\"\n", sizeof output, 32766 + 2 * (128 + 86) + 6));
}

static void refused_patterns(void)
{
    static const char *const wrong[] = {"", "a|", "()", "*a", "^*", "a**", "a{3}", "(a", "a)", "[]", "[b-a]", "[[:alpha:]]", "\\"};
    for (size_t i = 0; i < sizeof wrong / sizeof *wrong; i++)
        expect(checked(F, picking(wrong[i]), RELCALC_PATTERN, 7, 0), wrong[i]);
    EXPECT(is_part(element(F, picking("("), 0), RELCALC_IN_QUERY, 0, 0));
    EXPECT(checked(F, "PRINT @\"a\"(x), @ \"(\" (x), @\"\"(x);", RELCALC_PATTERN, 17, 0));
    EXPECT(checked(F, "IF FALSE() { PRINT @\"(\"(x); }", RELCALC_PATTERN, 20, 0));
    EXPECT(checked(F, "PRINT @\"\"(On);", RELCALC_PATTERN, 7, 0));
    EXPECT(checked(F, "PRINT @\"(\"(x)", RELCALC_NO_PROGRAM, 13, 0));
    EXPECT(checked(F, "FOR v IN Held(x) { PRINT @v(x); }", RELCALC_NO_PROGRAM, 26, 0));
    EXPECT(checked(F, "PRINT @\"a\"(On);", RELCALC_KIND, 11, 0));
}

static void refusals(void)
{
    memset(store, 7, sizeof store), memset(output, 7, sizeof output);
    EXPECT(refused(run(F, Q, 9, store, 76, output, 64), RELCALC_STORE_SHORT, 77));
    EXPECT(refused(run(F, "PRINT On(x,y)", 9, store, 76, output, 64), RELCALC_NO_PROGRAM, 13));
    EXPECT(refused(run("Held B7\r\r\n", "PRINT ENDL;", 9, store, 76, output, 64), RELCALC_FACT_BYTE, 7));
    EXPECT(refused(run(F, "PRINT ENDL;\r\n", 9, store, 76, output, 64), RELCALC_NO_TOKEN, 11));
    EXPECT(refused(run(F, picking("C{3}"), 9, store, 76, output, 64), RELCALC_PATTERN, 7));
    EXPECT(refused(run(F, "PRINT 1000000;", 9, store, 76, output, 64), RELCALC_NUMBER, 6));
    int same = 1;
    for (size_t i = 0; i < 76; i++)
        same &= store[i] == 0x0707070707070707;
    for (size_t i = 0; i < 64; i++)
        same &= output[i] == 7;
    EXPECT(same);
}

static void empty_and_equal(void)
{
    EXPECT(check(NULL, NULL).refusal == RELCALC_NO_PROGRAM);
    EXPECT(refused(run(NULL, "", 0, NULL, 0, NULL, 0), RELCALC_NO_PROGRAM, 0));
    EXPECT(ended(run(NULL, "PRINT ENDL;", 5, NULL, 0, NULL, 0), RELCALC_FULL, 0, 0));
    EXPECT(ended(run(NULL, "PRINT FALSE();", 5, NULL, 0, NULL, 0), RELCALC_DONE, 1, 0));
    EXPECT(chain(NULL, NULL, NULL, NULL, NULL, 0).refusal == RELCALC_NOT_IN_FACTS);
    static const char one[] = ".\nPRINT ENDL;";
    EXPECT(check(one, one).refusal == RELCALC_NO_TOKEN);
    static const char blank[] = "\n\n \t\n";
    EXPECT(check(blank, blank).refusal == RELCALC_NO_PROGRAM && check(blank, blank).place == 5);
}

static void largest_sizes(void)
{
    static char facts[32770], query[16386], ring[64 * 11 + 1];
    char *at = facts;
    for (int i = 0; i < 64; i++)
        at += sprintf(at, "R0 e%02d e%02d e00\n", i, (i + 1) % 64);
    for (int r = 1; r < 16; r++)
        at += sprintf(at, "R%d e00 e00 e00\n", r);
    memset(at, '\n', facts + 32768 - at);
    memset(query + sprintf(query, "R1(x,y,z) := R0(x,y,z); PRINT EX(z, R1(x,y,z));"), ' ', 16384 - 47);
    relcalc_checked c = check(facts, query);
    EXPECT(!c.refusal && c.universe == 64 && c.words == RELCALC_STORE_WORDS && c.relations == 16);
    EXPECT(LOADED(c, 64, 1, 1, 1, 1, 1, 1, 1, 1, 1, 1, 1, 1, 1, 1, 1));
    relcalc_ran r = run(facts, query, UINT32_MAX, store, RELCALC_STORE_WORDS, output, sizeof output);
    EXPECT(ended(r, RELCALC_DONE, 2, 512) && COUNTED(r, 64, 64, 1, 1, 1, 1, 1, 1, 1, 1, 1, 1, 1, 1, 1, 1));
    r = run(facts, "PRINT #(TRUE(x,y,z)), \" \", #(R0(x,y,z)) / 64+64;", 9, store, RELCALC_STORE_WORDS, output, sizeof output);
    EXPECT(ended(r, RELCALC_DONE, 1, 10) && !memcmp(output, "262144 1/2", 10));
    r = run(facts, "R0(x,y,z) := FALSE(x,y,z); R15(x,y,z);", 9, store, RELCALC_STORE_WORDS, output, 0);
    EXPECT(COUNTED(r, 0, 1, 1, 1, 1, 1, 1, 1, 1, 1, 1, 1, 1, 1, 1, 262144));
    facts[32768] = '\n';
    EXPECT(check(facts, query).refusal == RELCALC_FACTS_TOO_LONG && check(facts, query).place == 32768);
    facts[32768] = 0, query[16384] = ' ';
    EXPECT(check(facts, query).refusal == RELCALC_QUERY_TOO_LONG && check(facts, query).place == 16384);
    for (int i = 0; i < 64; i++)
        sprintf(ring + 11 * i, "On e%02d e%02d\n", i, (i + 1) % 64);
    uint8_t numbers[RELCALC_CHAIN_BYTES];
    EXPECT(chain(ring, "On", "e05", "e05", numbers, sizeof numbers).count == 65);
}

/* Makes calls on a thread whose stack is filled with a pattern, and answers how much of it was used. */
static _Alignas(4096) uint8_t stack[1 << 20];

static void *run_deep(void *query)
{
    EXPECT(!check(F, query).refusal);
    EXPECT(ended(run(F, query, 9, store, RELCALC_STORE_WORDS, output, sizeof output), RELCALC_DONE, 1, 0));
    return NULL;
}

/* joins a text with the longest facts */
static void *join_long(void *first)
{
    relcalc_joined j = join(first, long_facts, output, sizeof output);
    EXPECT(first == others ? j.refusal == RELCALC_RESULT_TOO_LONG : j.length == strlen(long_facts));
    return NULL;
}

static size_t stack_of(void *(*calls)(void *), char *text)
{
    pthread_attr_t attributes;
    pthread_t thread;
    memset(stack, 0xA5, sizeof stack);
    pthread_attr_init(&attributes);
    pthread_attr_setstack(&attributes, stack, sizeof stack);
    EXPECT(!pthread_create(&thread, &attributes, calls, text) && !pthread_join(thread, NULL));
    size_t free = 0;
    while (free < sizeof stack && stack[free] == 0xA5)
        free++;
    return sizeof stack - free;
}

static size_t stack_used(char *query) { return stack_of(run_deep, query); }

/* PRINT of `levels` times `open`, n conjunctions of P() and an atom, and as often `close`, the last time `last`. */
static char *deep_query(const char *open, int levels, int n, const char *atom, const char *close, const char *last)
{
    static char query[4096];
    char *at = query + sprintf(query, "PRINT ");
    for (int i = 0; i < levels; i++)
        at += sprintf(at, "%s", open);
    for (int i = 0; i < n; i++)
        at += sprintf(at, "P()&");
    at += sprintf(at, "%s", atom);
    for (int i = 1; i < levels; i++)
        at += sprintf(at, "%s", close);
    sprintf(at, "%s;", levels ? last : "");
    return query;
}

static void small_stack(void)
{
    struct { const char *shape; size_t used; } stacks[] = {
        { "32 levels", stack_used(deep_query("(", 32, 0, "P()", ")", ")")) },
        { "the longest chain of &", stack_used(deep_query("", 0, 510, "P()", "", "")) },
        { "one within 32 comparisons", stack_used(deep_query("(", 32, 462, "P()", "<=P())", "<=P())")) },
        { "one within 32 EX and comparisons", stack_used(deep_query("EX(x,", 32, 438, "P()", ">=P())", "<=P())")) },
        { "one with two columns", stack_used(deep_query("", 0, 510, "On(x,y)", "", "")) },
        { "one within 32 counts", stack_used(deep_query("#(", 32, 470, "P()", ")=1", ")=1")) },
        { "one with two columns within 32 counts", stack_used(deep_query("#(", 32, 469, "On(x,y)", ")=1", ")=1")) },
        { "one with a column within 32 EX", stack_used(deep_query("EX(y,", 32, 470, "On(x,y)", ")", ")")) },
        { "a pattern of 15 groups within 32 levels",
          stack_used(deep_query("(", 32, 0, "@\"(((((((((((((((a)))))))))))))))\"(_)", ")", ")")) },
        { "a pattern of 9 repeated groups", stack_used(deep_query("", 0, 0, "@\"(((((((((a*)*)*)*)*)*)*)*)*)*x\"(_)", "", "")) },
        { "a join of the longest texts with the same facts", stack_of(join_long, long_lines) },
        { "a join of the longest texts with different facts", stack_of(join_long, others) },
    };
    for (size_t i = 0; i < sizeof stacks / sizeof *stacks; i++) {
        printf("stack: %zu bytes in %s\n", stacks[i].used, stacks[i].shape);
        EXPECT(stacks[i].used < 256 * 1024);
    }
}

int main(void)
{
    worked_example();
    facts_with_cr_lf();
    line_ends();
    returns_elsewhere();
    patterns();
    refused_patterns();
    printed_quotes();
    pages_read_back();
    counts_as_loaded();
    counts_at_the_end();
    no_counts_of_refusals();
    quantities();
    refused_numbers();
    first_chains();
    first_cycles();
    refused_chains();
    joined_texts();
    joined_quotes();
    joined_empty_and_equal();
    refused_joins();
    joined_limits();
    longest_joins();
    refusals();
    empty_and_equal();
    largest_sizes();
    small_stack();
    printf("%d passed, %d failed\n", passed, failed);
    return failed > 0;
}
