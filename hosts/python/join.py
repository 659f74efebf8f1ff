"""The rates file and the credit file as one: what a join writes, a query over it that needs both, and two files that are refused."""
import sys

from relcalc import Ending, RefusedJoin, Relcalc

RATES = b"""\
# rates, saved with LF
On C10 C5
On C5 C2
On B7 C10
On "5Y off the run" C5
Held B7
"""
CREDIT = b"""\
# credit, saved with CR LF\r
Rated "B7" AA\r
Rated "5Y off the run" BBB\r
Held "5Y off the run"\r
Held B7\r
"""
# On has two elements in the rates file, and a quote is left open
NO_CURVE = b"Rated B7 AA\nOn C5\n"
NO_QUOTE = b'Held B7\n\nHeld "5Y off the run\n'
QUERY = b'PRINT ["on C2:"] EX(y, TC(On(x,y)) & y = "C2") & Rated(x,r);'
rc = Relcalc()


def page(facts):
    """The query's page over facts."""
    ran = rc.run(facts, QUERY)
    if ran.ending is not Ending.DONE:
        sys.exit("a page that is spent or full lacks lines: do not act on it")
    return ran.output.decode()


def why_not(first, second):
    """Why two texts are not joined: which text, its line and the refusal."""
    try:
        rc.join(first, second)
    except RefusedJoin as refused:
        at = rc.explain_join(refused, first, second).at
        where = f"{at.text}, line {at.line}" if at else "neither text"
        return f"{where}: refused {refused.refusal.value}"
    sys.exit("two files that should be refused")


joined = rc.join(RATES, CREDIT)
print(joined.decode() + page(joined), end="")
for texts in [(RATES, NO_CURVE), (NO_QUOTE, CREDIT)]:
    print(why_not(*texts))
