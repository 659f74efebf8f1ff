"""Why is it on the list? A query prints the held bonds that hang on C5, and each line is shown with the first chain that leads there."""
import sys

from relcalc import Ending, Refusal, Refused, Relcalc

# from B7 to C5: two chains of three elements, by C10 and by C20, and a longer one by C1
FACTS = b"""\
On C10 C5
On C5 C2
On B7 C10
On B7 C20
On C20 C5
On B7 C1
On C1 C10
On C10 C1
On "5Y off the run" C20
On B9 C2
Held B7
Held B9
Held "5Y off the run"
"""
QUERY = b'PRINT Held(x) & EX(y, TC(On(x,y)) & y = "C5");'
rc = Relcalc()


def listed():
    """The lines of the query's page, one element each."""
    ran = rc.run(FACTS, QUERY)
    if ran.ending is not Ending.DONE:
        sys.exit("a page that is spent or full lacks lines: do not act on it")
    return ran.output.decode().splitlines()


def bare(line):
    """The text of a line's one element: a page may have it in quotes, and no element holds a quote."""
    return line.strip('"')


def why(first, second):
    """The first chain of facts On between two elements."""
    try:
        return " -> ".join(text.decode() for text in rc.chain_texts(FACTS, "On", first, second))
    except Refused as refused:
        if refused.refusal is not Refusal.NO_CHAIN:
            raise
        return "no chain"


for line in listed():
    print(f"{line}: {why(bare(line), 'C5')}")
for first, second in [("B9", "C5"), ("C10", "C10")]:
    print(f"{first} to {second}: {why(first, second)}")
