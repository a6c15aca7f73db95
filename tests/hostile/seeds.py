"""What the runs begin with: models with the words that go with them, and pieces of texts and of command lines."""
import dataclasses


@dataclasses.dataclass(frozen=True)
class Model:
    """A model's text, and words for it: whole variables, a budget's statement and limits, cuts, forms; scenarios."""
    name: str
    text: bytes
    names: str = "x"
    statement: str = "1"
    limits: str = "0,1"
    cuts: str = "d=10"
    forms: tuple = ("objective", "need")
    scenarios: bytes = b""


MODELS = [
    Model("one", b"uncertain d in [8, 12]\nvar x\nminimise x\nrow need: x >= d\n", scenarios=b"d\n9\n12\n13\n"),
    Model("waiting", b"uncertain d in [8, 12]\nvar x >= 0\nadaptive y(d) >= 0\nminimise 3*x + 2*y\n"
          b"row need: x + y >= d\n", forms=("need", "y.lower"), scenarios=b"d\n8\n19/2\n12\n"),
    Model("stock", b"uncertain d1 in [8, 12]\nuncertain d2 in [8, 12]\nbudget 1: d1 at 10 by 2, d2 at 10 by 2\nvar x\n"
          b"adaptive y(d1) >= 0\nminimise 2*x + 2*y - d1\nrow now: x >= d1\nrow all: x + y >= d1 + d2\n",
          limits="0,1/2,1,3/2,2", cuts="d1=10,d2=19/2", forms=("now", "all", "objective", "y.lower"),
          scenarios=b"d2,d1\r\n8,12\r\n10,10\r\n\"9\",19/2\r\n"),
    Model("endless", b"uncertain d >= 0\nvar x\nminimise x\nrow need: x >= d\n"),
    Model("free", b"var x\nminimise x\n"),
    Model("empty", b"uncertain d in [3, 2]\nvar x in [0, 3]\nminimise x\n"),
    Model("price", b"uncertain p in [1, 3]\nvar x in [0, 5]\nmaximise p*x\n", cuts="p=2",
          forms=("objective", "x.upper"), scenarios=b"p\n1\n3\n"),
    Model("constant", b"uncertain d in [8, 12]\nadaptive y()\nminimise y\nrow lo: y >= d\nrow hi: y <= d + 1\n"),
    Model("storm", b"uncertain s in [0, 6]\nuncertain d in [8, 12]\nover calm\nset s <= 2 over calm\nvar x >= 0\n"
          b"adaptive y(s) >= 0\nminimise 2*x + y\nrow least: x - s + y >= 10\nrow all: x - s + y >= d over calm\n"
          b"row spare: y <= 1 over calm\n", cuts="s=2", forms=("least", "all", "spare"),
          scenarios=b"s,d,calm.s,calm.d\n0,8,0,8\n6,12,2,12\n6,12,6,12\n"),
    Model("fractions", b"uncertain a in [1/2, 7/3]\nset 3*a <= 13/2\nvar x >= 0\nvar z >= 0\n"
          b"minimise 1/17*x + 1/19*z\nrow r: a*x + 2/7*z = 5 + 1/3*a\nrow s: x <= 40\n",
          cuts="a=1", forms=("r.le", "r.ge", "s"), scenarios=b"a\n1/2\n13/6\n"),
    Model("mix", b"uncertain u in [-1, 1]\nuncertain v in [-1, 1]\nbudget 3/2: u at 0 by 1, v at 0 by 1\nvar a >= 0\n"
          b"var b >= 0\nmaximise 7*a + 9*b\nrow m: (3 + 1/4*u)*a + (4 + 1/2*v)*b <= 240\nrow n: 2*a + 5*b <= 150\n",
          limits="0,1,3/2,2", cuts="u=0,v=1/2", forms=("m", "n"), scenarios=b"u,v\n-1,1/2\n1,1\n"),
    Model("rays", b"uncertain d in [-2, 2]\nuncertain e >= 0\nset d + e <= 2\nset e - d <= 2\nvar x\nadaptive y(d)\n"
          b"minimise x\nrow up: y >= d\nrow down: y >= -d\nrow pay: x >= y + e\n",
          cuts="d=0", forms=("up", "down", "pay"), scenarios=b"e,d\n0,2\n1,-1\n"),
    Model("limits", b"uncertain d1 in [8, 12]\nuncertain d2 in [8, 12]\nset d1 >= 17/2\n"
          b"budget 1: d1 at 13 by 2, d2 at 10 by 2\nvar x\nminimise x\nrow need: x >= d1 + d2\n",
          statement="2", limits="0,1/2,3", cuts="d2=9", scenarios=b"d1,d2\n12,10\n"),
    Model("weeks", b"model 2\nuncertain d[i] in [8, 12] for i = 1 to 2\nbudget 1: d[i] at 10 by 2 for i = 1 to 2\n"
          b"var x\nadaptive y[t](d[i] for i = 1 to t - 1) >= 0 for t = 2 to 2\nminimise 2*x + 2*y[2] - d[1]\n"
          b"row now: x >= d[1]\nrow all: x + y[2] >= sum(i = 1 to 2: d[i])\n",
          limits="0,1/2,1,3/2,2", cuts="d_1=10,d_2=19/2", forms=("now", "all", "objective", "y_2.lower"),
          scenarios=b"d_2,d_1\r\n8,12\r\n10,10\r\n"),
    Model("rounds", b"# rounds\n model 2\nuncertain d[k, p] in [0, 6] for k = 0 to 1, p = 1 to 2\n"
          b"over calm[k] for k = 1 to 2\nset sum(k = 0 to 1: sum(p = 1 to 2: d[k, p])) <= 14\n"
          b"set d[k - 1, p] <= 3 over calm[k] for k = 1 to 2, p = k to 2\n"
          b"budget 3/2: d[k, p] at 3 by 1/2 for k = 0 to 1, p = k + 1 to 2, d[1, 1] at 2 by 4 over calm[1 + 1]\n"
          b"var x[t] in [0, 40] for t = 2 - 2 to 1\n"
          b"adaptive y[t](d[k, p] for k = 0 to t, p = 1 to 2 - k) >= 0 for t = 0 to 1\n"
          b"minimise sum(t = 0 to 1: 3*x[t] + y[t]) + sum(t = 1 to 0: x[t])\n"
          b"row need[t]: sum(i = 0 to t: x[i] + y[i]) >= sum(i = 0 to t: d[i, 1] + d[i, 2]) for t = 0 to 1\n"
          b"row least: x[0] + y[0] >= d[0, 1] over calm[1]\n",
          names="x_0,x_1", statement="5", cuts="d_0_1=3", forms=("need_0", "need_1", "least", "x_1.upper")),
    Model("falls", b"uncertain z1 in [0, 1]\nuncertain z2 in [0, 1]\nuncertain z3 in [0, 1]\nset z1 + z2 + z3 <= 2\n"
          b"var x1 in [0, 30]\nvar x2 in [0, 30]\nvar x3 in [0, 30]\nmaximise (3127191 - 1937381*z1)*x1"
          b" + (4241571 - 2869883*z2)*x2 + (5318643 - 3853257*z3)*x3\nrow all: x1 + x2 + x3 <= 100\n",
          names="x1,x2", cuts="z1=1/2", forms=("all", "x1.upper"), scenarios=b"z1,z2,z3\n1,1/2,0\n"),
    # solved over deep rows: the counterpart, and by cuts a search
    Model("deep", b"uncertain p >= 0\nuncertain q >= 0\nset 3000000021*p + 5000000029*q <= 8000000050\n"
          b"set 2000000014*p + 1000000009*q <= 3000000023\nvar x\nminimise x\n"
          b"row need: x >= 5000000035*p + 6000000038*q\n", cuts="p=1", scenarios=b"p,q\n1,1\n0,1\n"),
    Model("trucks", b"uncertain d in [8, 13]\nvar x in [0, 10]\nminimise x\nrow need: 2*x >= d\n", scenarios=b"d\n8\n"),
    Model("halves", b"var x in [0, 10]\nminimise x\nrow need: 2*x = 7\n", forms=("need.le", "need.ge")),
    Model("runaway", b"var x in [0, 3]\nvar z\nminimise z\nrow need: 2*x >= 3\n"),
    Model("bins", b"uncertain w in [1, 2]\nbudget 1: w at 3/2 by 1/2\nvar a in [0, 4]\nvar b in [0, 3]\n"
          b"var c in [0, 1]\nmaximise 5*a + 4*b + 3*c\nrow m: 6*a + 4*b + w*c <= 23\nrow n: a + 2*b - c <= 11/2\n",
          names="a,b,c", limits="0,1/3,1", cuts="w=5/4", forms=("m", "n"), scenarios=b"w\n1\n3/2\n"),
]
BY_NAME = {model.name: model for model in MODELS}

# Texts that together hold every kind of token: there each byte stands in the place of one of each kind.
TOKENS = [
    b"# what may come\nuncertain d in [8, 12]\r\nuncertain e <= 3\nover s\n\tset 2*d <= 1/2*(e + 40) over s\n"
    b"set d - e >= -1\nbudget 1: d at 10 by 2, e at 0 by 1\nvar x in [-1, 40]\nvar z_1 >= 0\nadaptive y(d, e) >= 0\n"
    b"minimise x + y # the cost\nrow a: x + y = d + z_1\n",
    b"var x <= 7\nmaximise x\n", b"var x\nminimize x\n", b"var x\nmaximize 2*x\n",
    b"model 2 # again\nuncertain d[i, j] in [8, 12] for i = 1 to 2, j = i to 2\nover s[1 + 1]\n"
    b"set d[1, 2] <= 4 + sum(k = 1 to 2 - 1: d[k, k]) over s[2]\n"
    b"budget 1: d[i, 2] at 10 by 2 for i = 1 to 2, d[1, 1] at 9 by 1 over s[2]\nvar x[t] >= 0 for t = 0 to 1\n"
    b"adaptive y[t](d[1, j] for j = 1 to t, d[2, 2]) >= 0 for t = 1 to 2\n"
    b"minimise x[0] - sum(t = 0 to 1: 2*x[t]*1) for z = 1 to 1\nrow r[t]: x[t - 1] = y[t] over s[2] for t = 1 to 2\n",
]
# Each token of these is replaced by each of KINDS, and each of KINDS stands in front of it.
INDEXED = [
    b"model 2\nuncertain d[i, j - 1] in [8, 12] for i = 1 to 2, j = i + 1 to 3\nvar x\nminimise x\n"
    b"row r: x >= sum(k = 1 to 2: d[1, k])\n",
    b"model 2\nuncertain d[t] for t = 1 to 2\nbudget 1: d[t] at 1 by 1 for t = 1 to 1, d[2] at 1 by 1\n"
    b"adaptive y(d[t] for t = 1 to 2)\nminimise 1\n",
]
KINDS = [kind.encode() for kind in (
    "uncertain set budget var adaptive minimise maximise row in at by over objective model sum for to "
    "d x i j k t q 0 1 2 999 1000 4611686018427387904 + - * / ( ) [ ] , : = <= >=").split()] + [b"\n"]
# Models whose certificates, and with their names whose trees, together hold every kind of line.
CERTIFIED = ("stock", "constant", "endless", "runaway", "price", "storm")
BRANCHED = ("trucks", "halves", "runaway", "bins")
# A tree of `runaway` with a leaf that is open, which `tree` doesn't print.
OPEN = (b"tree unbounded\nbest 2\nbranch x 1\nopen\nleaf\ncertificate unbounded\nvalue 0\nscale 1\nplan x 2\n"
        b"move z -1\nmove tau -1\nend\n")
TABLES = [b"\xef\xbb\xbfd1,d2\n8, 12\t\r\n10,-10/1\r\"9\",19/2\n\n\"1\"\"0\",\"11\"\n"]
OWN_WORDS = [line.split() for line in (
    "whole m.rob a,b_2", "sweep m.rob 01 0,1/2", "sweeptext m.rob 2 3/4", "cells m.rob d=-1/2,e1=10",
    "celltext m.rob d=10", "text 0012", "gen 0007", "solve m.rob --bits=16", "prove m.rob --route cuts",
    "worst m.rob c.cert need.le", "checktree m.rob x t.tree")]

PIECES = [piece.encode() for piece in (
    "uncertain set budget var adaptive minimise minimize maximise maximize row in at by over objective tau model sum "
    "for to [i] [t-1] [1,2] i t d_1 999 1000 100 101 d x y z need _ a1 0 1 2 7 1/2 0/1 1/0 00 4611686018427387903 "
    "4611686018427387904 "
    "99999999999999999999999999 + - * / ( ) [ ] , : = <= >= < > # -1 -0 - -- , \" \"\" . ; "
    "certificate optimal infeasible unbounded value scale inside plan move cover hold item end tree best leaf branch "
    "open d.upper"
).split()] + [b" ", b"\n", b"\r", b"\t", b"\r\n", b"\n\n", b"\x00", b"\xc3\xa9", b"\xef\xbb\xbf", b"(" * 51, b"x" * 33,
              b"9" * 400]

WORDS = ["m.rob", "m.rob", "c.cert", "s.csv", "t.tree", "nope", "", "-", "--", "--bits", "--bits=8", "--bits=62",
         "--bits=9", "--bits=", "8", "62", "--route", "--route=dual", "--route=cuts", "dual", "cuts", "/", ".",
         "/dev/null", "m.rob\n", "m.rob/", "--help", "-h", "--version", "solve", "ä", "x" * 5000, "x", "a,b", "x,x",
         "1", "0,1", "2,1/2", "d=10", "d=", "objective", "007", "4294967296"]
# a character of a command's own word is changed into one of these
SIGNS = "0123456789abdxz_.,=/-+ \n\t\"'#*é"
