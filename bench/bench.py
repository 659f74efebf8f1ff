"""Times of six queries over 64 elements, 220 pairs and 20 held, in relcalc and beside it in SQLite, SWI-Prolog, clingo and C by hand; then of
relcalc's other parts and calls.

Every system must print the same rows. bench/run builds the programs that this starts."""
import os
import random
import shutil
import sqlite3
import subprocess
import sys
import time
from fractions import Fraction

to = sys.argv[1]
r = random.Random(64220)
ELEMENTS = [f"e{i:02d}" for i in range(64)]
PAIRS = sorted(r.sample([(a, b) for a in ELEMENTS for b in ELEMENTS if a != b], 220))
HELD = sorted(r.sample(ELEMENTS, 20))

QUERIES = {
    "closure": (
        "Dep(x,y) := TC(On(x,y)); PRINT Held(x) & Dep(x,y);",
        "WITH RECURSIVE dep(x, y) AS (SELECT a, b FROM pairs UNION SELECT dep.x, p.b FROM dep JOIN pairs p ON p.a = dep.y) "
        "SELECT x, y FROM dep WHERE x IN (SELECT a FROM held) ORDER BY 1, 2",
        ("X-Y", "held(X), dep(X,Y)"),
    ),
    "composition": (
        "PRINT EX(y, On(x,y) & On(y,z));",
        "SELECT DISTINCT p.a, q.b FROM pairs p JOIN pairs q ON p.b = q.a ORDER BY 1, 2",
        ("X-Z", "on(X,Y), on(Y,Z)"),
    ),
    "cycles": (
        "PRINT On(x,y) & On(y,z) & On(z,x);",
        "SELECT p.a, q.a, s.a FROM pairs p JOIN pairs q ON p.b = q.a JOIN pairs s ON q.b = s.a AND s.b = p.a ORDER BY 1, 2, 3",
        ("X-Y-Z", "on(X,Y), on(Y,Z), on(Z,X)"),
    ),
    "universal": (
        "PRINT FA(y, On(x,y) -> Held(y));",
        "SELECT a FROM elements WHERE NOT EXISTS "
        "(SELECT 1 FROM pairs p WHERE p.a = elements.a AND p.b NOT IN (SELECT a FROM held)) ORDER BY 1",
        ("X", "element(X), not strays(X)"),
    ),
    # 64^4 assignments, few of which any atom leaves: only a filter of the values makes it fast
    "squares": (
        "PRINT EX(z, On(w,x) & On(x,y) & On(y,z) & On(z,w));",
        "SELECT DISTINCT p.a, q.a, s.a FROM pairs p JOIN pairs q ON p.b = q.a JOIN pairs s ON q.b = s.a "
        "JOIN pairs t ON s.b = t.a AND t.b = p.a ORDER BY 1, 2, 3",
        ("W-X-Y", "on(W,X), on(X,Y), on(Y,Z), on(Z,W)"),
    ),
    # two elements are alike also where neither is on y, so no atom rules out a pair: no filter helps, each of them has to be looked at
    "alike": (
        "PRINT FA(y, On(x,y) <-> On(z,y));",
        "SELECT e.a, f.a FROM elements e, elements f WHERE NOT EXISTS "
        "(SELECT 1 FROM pairs p WHERE p.a = e.a AND NOT EXISTS (SELECT 1 FROM pairs q WHERE q.a = f.a AND q.b = p.b)) AND NOT EXISTS "
        "(SELECT 1 FROM pairs p WHERE p.a = f.a AND NOT EXISTS (SELECT 1 FROM pairs q WHERE q.a = e.a AND q.b = p.b)) ORDER BY 1, 2",
        ("X-Z", "element(X), element(Z), not apart(X,Z)"),
    ),
}
NOT = "\\+"  # as SWI-Prolog writes it
DEPTHS = [(64, range(1, 5)), (8, range(1, 8))]
LENGTH = 32768  # bytes of facts
# the last four repeat repeats, three of them as deep as 32 bytes allow
PATTERNS = ["^aab", "[0-9]+Y$", "b(a|bb)*$", ".*a.*b.*a.*b.*a.*b$", "(a*)*c", "(((a{0,8}){0,8}){0,8}){0,8}", "^(((a?){8,8}){8,8}){8,8}c", "^(((((((((a+)+)+)+)+)+)+)+)+)+"]
LIMIT = 2  # seconds: nested quantifiers that take longer are not measured
# the operators, then the manual's programs for them (section 2.3)
CLOSURES = {
    "`TC`": "Result(x,y) := TC(On(x,y));",
    "`TCFAST`": "Result(x,y) := TCFAST(On(x,y));",
    "by `FOR`": "Result(x,y) := On(x,y); Node(x) := Result(x,_) & Result(_,x); "
    "FOR node IN Node(x) { Result(x,y) := Result(x,y) | (Result(x,node) & Result(node,y)); }",
    "by `WHILE`": "Result(x,y) := On(x,y); Prev(x,y) := FALSE(x,y); "
    "WHILE Prev(x,y) != Result(x,y) { Prev(x,y) := Result(x,y); Result(x,z) := Result(x,z) | EX(y, Result(x,y) & Result(y,z)); }",
}


def file(name, text):
    path = os.path.join(to, name)
    with open(path, "w") as f:
        f.write(text)
    return path


def facts(elements, pairs, held):
    lines = [f"Element {e}" for e in elements] + [f"On {a} {b}" for a, b in pairs] + [f"Held {a}" for a in held]
    return "\n".join(lines) + "\n"


def paged(*words, seconds=None):
    """The times in a program's first line, and the page after it."""
    first, _, page = subprocess.run(words, check=True, capture_output=True, text=True, timeout=seconds).stdout.partition("\n")
    return [float(t) for t in first.split()], page


def program(*words, seconds=None):
    """The times in a program's first line, and the rows after it, sorted."""
    times, page = paged(*words, seconds=seconds)
    return times, sorted(page.splitlines())


def shortest(call):
    """The shortest time of a call in microseconds, over 0.3 seconds and at least 3 turns, and its answer."""
    best, begin, turns = 1e300, time.perf_counter(), 0
    while turns < 3 or time.perf_counter() - begin < 0.3:
        start = time.perf_counter()
        answer = call()
        best = min(best, time.perf_counter() - start)
        turns += 1
    return best * 1e6, answer


def database():
    db = sqlite3.connect(":memory:")
    db.execute("CREATE TABLE pairs (a TEXT, b TEXT, PRIMARY KEY (a, b)) WITHOUT ROWID")
    for table in ("held", "elements"):
        db.execute(f"CREATE TABLE {table} (a TEXT PRIMARY KEY) WITHOUT ROWID")
    db.executemany("INSERT INTO pairs VALUES (?, ?)", PAIRS)
    db.executemany("INSERT INTO held VALUES (?)", [(a,) for a in HELD])
    db.executemany("INSERT INTO elements VALUES (?)", [(a,) for a in ELEMENTS])
    return db


def sqlite(sql):
    """With the tables built anew, and on tables that are there."""
    whole, rows = shortest(lambda: database().execute(sql).fetchall())
    db = database()
    alone, _ = shortest(lambda: db.execute(sql).fetchall())
    return [whole, alone], sorted(" ".join(row) for row in rows)


def clauses(negation):
    lines = [f"element({e})." for e in ELEMENTS] + [f"on({a},{b})." for a, b in PAIRS] + [f"held({a})." for a in HELD]
    rules = [
        "dep(X,Y) :- on(X,Y).",
        "dep(X,Z) :- dep(X,Y), on(Y,Z).",
        f"strays(X) :- on(X,Y), {negation} held(Y).",
        f"apart(X,Z) :- on(X,Y), element(Z), {negation} on(Z,Y).",
        f"apart(X,Z) :- on(Z,Y), element(X), {negation} on(X,Y).",
    ]
    return "\n".join(lines + rules) + "\n"


def prolog(row, body):
    """Facts loaded, the table of dep anew each time."""
    text = (
        f":- table dep/2.\n{clauses(NOT)}"
        f"rows(L) :- abolish_all_tables, findall({row}, ({body.replace('not', NOT)}), All), sort(All, L).\n"
        "best(0, T, T) :- !.\n"
        "best(N, T0, T) :- get_time(A), rows(_), get_time(B), T1 is min(T0, B - A), M is N - 1, best(M, T1, T).\n"
        "show(A-B) :- !, show(A), write(' '), write(B).\nshow(A) :- write(A).\n"
        ":- initialization((best(100, 1.0e9, T), U is T * 1000000, writeln(U), rows(L),"
        " forall(member(R, L), (show(R), nl)), halt)).\n"
    )
    return program("swipl", "-q", file("bench.pl", text))


def clingo(row, body):
    """The whole process, its start included."""
    text = clauses("not") + f"row({row.replace('-', ',')}) :- {body}.\n"
    path = file("bench.lp", text + f"#show row/{row.count('-') + 1}.\n")
    taken, out = shortest(lambda: subprocess.run(["clingo", "-V0", path], capture_output=True, text=True).stdout)
    rows = [w[4:-1].replace(",", " ") for w in out.split() if w.startswith("row(")]
    return [taken], sorted(rows)


def shown(times, i=0):
    return "not installed" if times is None else f"{times[i]:,.1f}"


def ratio(times, i, by):
    return "not installed" if times is None else f"{times[i] / by:,.2f}"


def table(head, rows):
    rows = [head, ["---"] * len(head)] + rows
    for row in rows:
        print("| " + " | ".join(row) + " |")


def compared():
    path = file("facts.rsf", facts(ELEMENTS, PAIRS, HELD))
    (check, loading), _ = program(os.path.join(to, "relcalc"), path, file("query.rml", "PRINT ENDL;"))
    times, ratios = [], []
    for name, (rml, sql, logic) in QUERIES.items():
        (_, run), want = program(os.path.join(to, "relcalc"), path, file("query.rml", rml))
        answers = {"SQLite": sqlite(sql), "C": program(os.path.join(to, "bits"), path, name)}
        for system, command, call in (("SWI-Prolog", "swipl", prolog), ("clingo", "clingo", clingo)):
            answers[system] = call(*logic) if shutil.which(command) else (None, want)
        for system, (_, got) in answers.items():
            if got != want:
                sys.exit(f"{name}: {system} and relcalc print different rows")
        database_times, bits, swipl, asp = (answers[system][0] for system in ("SQLite", "C", "SWI-Prolog", "clingo"))
        own = run - loading
        times.append(
            [name, str(len(want))]
            + [shown([run]), shown([own]), shown(database_times), shown(database_times, 1), shown(swipl), shown(asp), shown(bits)]
        )
        ratios.append(
            [name, ratio(database_times, 0, run), ratio(asp, 0, run), ratio(database_times, 1, own), ratio(swipl, 0, own), f"{run / bits[0]:,.0f}"]
        )
    table("query,rows,relcalc,less loading,SQLite with load,SQLite query,SWI-Prolog,clingo,C on bits".split(","), times)
    print(f"\nLoading is {loading:,.1f}: a run of `PRINT ENDL;`, which asks for nothing. Its check takes {check:,.1f}.\n")
    table(
        "query,SQLite with load / relcalc,clingo / relcalc,SQLite query / less loading,SWI-Prolog / less loading,relcalc / C".split(","),
        ratios,
    )


def nest(attributes, inside):
    return "PRINT " + "".join(f"EX({x}," for x in attributes) + inside + ")" * len(attributes) + ";"


def within_limit(path, query):
    """The time of a run that ends within the limit. The program makes at least three."""
    try:
        (_, run), _ = program(os.path.join(to, "relcalc"), path, file("query.rml", query), seconds=3 * LIMIT + 1)
    except subprocess.TimeoutExpired:
        return None
    return run if run < LIMIT * 1e6 else None


def visits(run, count):
    return ["not measured"] * 2 if run is None else [f"{run:,.1f}", f"{run * 1000 / count:,.1f}"]


def nested():
    """No element is on itself here, so neither inside ever decides."""
    rows = []
    for size, depths in DEPTHS:
        path = file("few.rsf", facts(ELEMENTS[:size], [p for p in PAIRS if max(p) < f"e{size:02d}"] or [("e00", "e01")], []))
        for depth in depths:
            attributes = ("abcd" * 8)[:depth]
            last = f"On({attributes[-1]},{attributes[-1]})"
            every = " | ".join(f"On({x},{x})" for x in sorted(set(attributes)))
            runs = [within_limit(path, nest(attributes, inside)) for inside in (last, every)]
            rows.append([str(size), str(depth), f"{size**depth:,}"] + [cell for run in runs for cell in visits(run, size**depth)])
    table(
        ["elements", "depth", "innermost visits", "of the last alone", "nanoseconds a visit", "of every attribute", "nanoseconds a visit"], rows
    )


def falling(name, count):
    """So many different pairs over 64 elements of one byte, the last first: each goes before all that a check has counted of its relation."""
    letters = [chr(c) for c in range(48, 112)]
    pairs = [(a, b) for a in letters for b in letters][:count]
    return [f"{name} {a} {b}\n" for a, b in reversed(pairs)]


def reading():
    """Facts at the length limit, the same lines with LF and with CR LF, and as many different pairs as there is room for, in an order that is slow
    to count. `PRINT ENDL;` asks for nothing; a check and a run both read them twice."""
    query = file("query.rml", "PRINT ENDL;")
    texts = []
    for name, end, count in (("LF", "\n", LENGTH // 11), ("LF", "\n", LENGTH // 12), ("CR LF", "\r\n", LENGTH // 12)):
        texts.append((name, [f"On e{i % 64:02d} e{i * 7 % 61:02d}{end}" for i in range(count)]))
    first, *rest = falling("R", 4096)
    pairs = [first] + falling("S", LENGTH // 6 - 4096) + rest  # the relation whose fact comes first is counted first
    texts += [("different pairs, rising", pairs[::-1]), ("different pairs, falling", pairs)]
    rows = []
    for name, lines in texts:
        text = "".join(lines)
        (check, run), _ = program(os.path.join(to, "relcalc"), file("long.rsf", text), query)
        rows.append([name, f"{len(lines):,}", f"{len(text):,}", f"{check:,.1f}", f"{run:,.1f}"])
    table(["facts", "lines", "bytes", "check", "run"], rows)


def picking():
    """Patterns over 64 elements of 32 bytes each, which end in all ways to write a and b six times. A check lowers the query, so it matches them."""
    elements = ["a" * 26 + f"{i:06b}".replace("0", "a").replace("1", "b") for i in range(64)]
    path = file("long.rsf", "".join(f"Element {e}\n" for e in elements))
    (without, _), _ = program(os.path.join(to, "relcalc"), path, file("query.rml", "PRINT Element(x);"))
    rows = []
    for pattern in PATTERNS:
        (check, run), picked = program(os.path.join(to, "relcalc"), path, file("query.rml", f'PRINT @"{pattern}"(x);'))
        rows.append([f"`{pattern}`".replace("|", "\\|"), str(len(picked)), f"{check:,.1f}", f"{run:,.1f}", f"{(check - without) / 64:,.2f}"])
    table(["pattern", "elements picked", "check", "run", "one match"], rows)
    print(f"\nThe check of `PRINT Element(x);` takes {without:,.1f}.")


def quantities():
    """What each query must print, by counting in Python. The last three print the same rows: without a count, with one that is asked for each word
    of answers, and with one that is asked once."""
    starts = {a for a, _ in PAIRS}
    chained = sum(b == c for _, b in PAIRS for c, _ in PAIRS)
    share = Fraction(len(starts & set(HELD)), len(starts))
    rows = sorted(f"{a} {b}" for a, b in PAIRS)
    yield "PRINT #(Held(x));", [str(len(HELD))]
    yield "PRINT #(On(x,y));", [str(len(PAIRS))]
    yield "PRINT #(On(x,y) & On(y,z));", [str(chained)]
    yield "PRINT #(TRUE(x,y,z));", [str(len(ELEMENTS) ** 3)]
    yield "PRINT #(Held(x) & On(x,_)) / #(On(x,_));", [f"{share.numerator}/{share.denominator}"]
    yield "PRINT On(x,y);", rows
    yield "PRINT On(x,y) & (#(On(x,y) & On(y,z)) > 3);", rows
    yield "Many() := #(On(x,y) & On(y,z)) > 3; PRINT On(x,y) & Many();", rows


def counting():
    """Counts over the facts of the first table."""
    path = file("facts.rsf", facts(ELEMENTS, PAIRS, HELD))
    (_, loading), _ = program(os.path.join(to, "relcalc"), path, file("query.rml", "PRINT ENDL;"))
    rows = []
    for query, want in quantities():
        (_, run), got = program(os.path.join(to, "relcalc"), path, file("query.rml", query))
        if got != want:
            sys.exit(f"{query} prints something else")
        rows.append([f"`{query}`", str(len(got)), f"{run:,.1f}", f"{run - loading:,.1f}"])
    table(["query", "lines", "run", "less loading"], rows)


def reached(first):
    """The elements that one or more pairs lead to."""
    found, ends = set(), [first]
    while ends:
        a = ends.pop()
        new = {b for c, b in PAIRS if c == a} - found
        found |= new
        ends += new
    return found


def closing():
    """The closure of the first table by each of the ways to write it."""
    want = sorted(f"{a} {b}" for a in HELD for b in reached(a))
    path = file("facts.rsf", facts(ELEMENTS, PAIRS, HELD))
    (_, loading), _ = program(os.path.join(to, "relcalc"), path, file("query.rml", "PRINT ENDL;"))
    rows = []
    for way, text in CLOSURES.items():
        (_, run), got = program(os.path.join(to, "relcalc"), path, file("query.rml", f"{text} PRINT Held(x) & Result(x,y);"))
        if got != want:
            sys.exit(f"closure, {way}: different rows")
        rows.append([way, str(len(got)), f"{run:,.1f}", f"{run - loading:,.1f}"])
    table(["closure", "rows", "run", "less loading"], rows)


def first_chain(pairs, first, second):
    """One element more each turn, from the first on: of the lists that newly reach an element the smallest stays."""
    reached = {}
    last = {first: [first]}
    while last and second not in reached:
        lists = sorted(chain + [b] for a, chain in last.items() for x, b in pairs if x == a)
        last = {chain[-1]: chain for chain in reversed(lists) if chain[-1] not in reached}
        reached.update(last)
    return reached.get(second)


def longest(pairs):
    """Two elements whose first chain has as many elements as any, and two without a chain, if there are such."""
    asked = [(a, b) for a in ELEMENTS for b in ELEMENTS]
    chains = {q: first_chain(pairs, *q) for q in asked}
    most = max(len(c) for c in chains.values() if c)
    return next(q for q in asked if chains[q] and len(chains[q]) == most), next((q for q in asked if not chains[q]), None)


def questions():
    """Facts, their pairs, and two elements: in those of the first table a pair, a chain as long as any, and none; a ring, which has the longest of
    all; and facts at the length limit."""
    book = facts(ELEMENTS, PAIRS, HELD)
    far, apart = longest(PAIRS)
    for name, ends in (("a pair", PAIRS[0]), ("the longest", far), ("none", apart)):
        yield f"{name}, {len(PAIRS)} pairs", book, PAIRS, *ends
    ring = list(zip(ELEMENTS, ELEMENTS[1:] + ELEMENTS[:1]))
    yield "round a ring, 64 pairs", facts([], ring, []), ring, "e00", "e00"
    lines = [(f"e{i % 64:02d}", f"e{i * 7 % 61:02d}") for i in range(LENGTH // 11)]
    pairs = sorted(set(lines))
    yield f"the longest, {len(lines):,} lines", facts([], lines, []), pairs, *longest(pairs)[0]


def chaining():
    """Each answer must be what Python finds. A name that is not there is refused as soon as the facts are read."""
    rows = []
    for name, text, pairs, a, b in questions():
        path = file("facts.rsf", text)
        numbers = sorted({e for line in text.splitlines() for e in line.split()[1:]})
        chain = first_chain(pairs, a, b)
        want = " ".join(str(numbers.index(e)) for e in chain) if chain else "refused 17 0"
        (taken,), got = program(os.path.join(to, "chain"), path, "On", a, b)
        if got != [want]:
            sys.exit(f"chain, {name}: {got} and not {want}")
        (reading,), _ = program(os.path.join(to, "chain"), path, "Under", a, b)
        rows.append([name, str(len(chain)) if chain else "refused 17", f"{taken:,.1f}", f"{taken - reading:,.1f}"])
    table(["chain", "elements", "call", "less reading"], rows)


def files():
    """Two files of 250 lines, 30 pairs in both; then two at the length limit, with the same facts and with different ones, whose result is too long.
    Falling, each fact goes before all that a join has entered."""
    pairs = random.Random(250).sample([(a, b) for a in ELEMENTS for b in ELEMENTS if a != b], 430)
    held = [r.sample(ELEMENTS, 20) for r in (random.Random(1), random.Random(2))]
    yield "250 lines each", facts([], pairs[:230], held[0]), facts([], pairs[200:], held[1])
    most = [falling("S", LENGTH // 6 - 4096) + falling("R", 4096), falling("Q", LENGTH // 6 - 4096) + falling("P", 4096)]
    for order, turn in (("rising", -1), ("falling", 1)):
        first, second = ("".join(lines[::turn]) for lines in most)
        yield f"the same facts, {order}", first, first
        yield f"different facts, {order}", *((second, first) if turn < 0 else (first, second))


def in_order(*texts):
    """What a join of texts without quotes must write."""
    return "".join(" ".join(words) + "\n" for words in sorted({tuple(line.split()) for text in texts for line in text.splitlines()}))


def entered(*rows):
    """The rows of both files put into one table and read from it in order."""
    db = sqlite3.connect(":memory:")
    db.execute("CREATE TABLE facts (r TEXT, a TEXT, b TEXT, PRIMARY KEY (r, a, b)) WITHOUT ROWID")
    for values in rows:
        db.executemany("INSERT OR IGNORE INTO facts VALUES (?, ?, ?)", values)
    return db.execute("SELECT r, a, b FROM facts ORDER BY 1, 2, 3").fetchall()


def joining():
    """What is written must be what Python, SQLite and C by sorting lines have."""
    rows = []
    for name, *texts in files():
        paths = [file(f"{which}.rsf", text) for which, text in zip(("first", "second"), texts)]
        want = in_order(*texts)
        (call, unwritten), got = paged(os.path.join(to, "join"), *paths)
        (lines,), by_hand = paged(os.path.join(to, "lines"), *paths)
        values = [[(line.split() + [""])[:3] for line in text.splitlines()] for text in texts]
        loaded, union = shortest(lambda: entered(*values))
        due = want if len(want) <= LENGTH else f"refused 21 {len(want)}\n"
        if (got, by_hand, "".join(" ".join(row).rstrip() + "\n" for row in union)) != (due, want, want):
            sys.exit(f"join, {name}: different lines")
        written = [f"{len(want):,}", f"{call:,.1f}", f"{call - unwritten:,.1f}"] if got == want else ["refused 21", f"{call:,.1f}", "none"]
        counts = [f"{len(text.splitlines()):,}" for text in (texts[0], want)]
        rows.append([name, *counts, *written, f"{loaded:,.1f}", f"{lines:,.1f}"])
    table("files,lines in each,different,bytes written,join,of it writing,SQLite with load,C by lines".split(","), rows)


print(f"SQLite {sqlite3.sqlite_version}, Python {sys.version.split()[0]}; shortest times in microseconds\n")
compared()
print()
nested()
print()
reading()
print()
picking()
print()
counting()
print()
chaining()
print()
joining()
print()
closing()
