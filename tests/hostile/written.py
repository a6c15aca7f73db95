"""Random texts of version 2: ranges that name others, sums inside sums, lists with ranges. About one in three reads."""

NUMBERS = ("1", "2", "3", "1/2", "7", "4/2", "007")
ODD_NUMBERS = ("0", "1/0", "0/5", "255", "256", "4611686018427387903", "4611686018427387904")
ODD_ATOMS = ("q", "d", "0", "999", "1000", "99999999999999999999")


class Writer:
    """Writes lines one after another. Of each declared name it knows the values that its indices may have, of each
    range around a place its values."""

    def __init__(self, rng):
        self.rng, self.around, self.count = rng, [], 0
        self.declared = {"uncertain": [], "var": [], "adaptive": [], "over": []}

    def seldom(self, part=40):
        return self.rng.randrange(part) == 0

    # ---- indices and ranges

    def index(self, low, high):
        """An index with a value from low to high, mostly"""
        if self.seldom():
            return self.rng.choice(ODD_ATOMS)
        fitting = [name for name, least, most in self.around if low <= least and most <= high]
        before = [name for name, least, most in self.around if low <= least - 1 and most - 1 <= high]
        kinds = [str(self.rng.randint(low, high)), *fitting, *fitting, *(f"{name} - 1" for name in before)]
        index = self.rng.choice(kinds)
        return f"{index} + 1 - 1" if self.seldom(15) else index

    def range(self, low, high, whole=False):
        """A range of values from low to high, of all of them where it is whole; it is put around what comes next"""
        free = [name for name in "ijkstuvw" if name not in [around[0] for around in self.around]]
        name = self.rng.choice("ijk" if self.seldom(60) or not free else free)
        start, end = (str(low), str(high)) if whole else (self.index(low, low + 1), self.index(low + 1, high))
        if self.seldom(30):
            end = self.rng.choice(("0", "30", "100", "101"))
        self.around.append((name, low, high))
        return f"{name} = {start} to {end}"

    def ranges(self, count, whole=False):
        """So many ranges behind `for`"""
        found = [self.range(1, 3, whole and not self.seldom()) for _ in range(count)]
        return " for " + ", ".join(found) if found else ""

    def few(self, often):
        return self.rng.choice((1, 1, 2)) if self.rng.random() < often else 0

    def leave(self, count):
        del self.around[len(self.around) - count:]

    # ---- names and expressions

    def declare(self, kind):
        """A new name with its ranges, and how many"""
        self.count += 1
        count = self.few(0.6)
        behind = self.ranges(count, whole=True)
        own = self.around[len(self.around) - count:]
        name = f"{self.rng.choice('dxyz')}{1 if self.seldom() else self.count}" + "_" * (26 if self.seldom() else 0)
        if kind in self.declared:
            self.declared[kind].append((name, [(low, high) for _, low, high in own]))
        return name + listed([own_name for own_name, _, _ in own]), behind, count

    def ref(self, *kinds):
        known = [one for kind in kinds for one in self.declared[kind]]
        if not known or self.seldom(150):
            return "x[1]"
        name, extents = self.rng.choice(known)
        return name + listed([self.index(low, high) for low, high in extents])

    def number(self):
        return self.rng.choice(ODD_NUMBERS if self.seldom(100) else NUMBERS)

    def expression(self, depth, *kinds):
        parts = [self.term(depth, *kinds) for _ in range(self.rng.choice((1, 1, 2, 3)))]
        text = "-" * self.seldom(8) + parts[0]
        for part in parts[1:]:
            text += self.rng.choice((" + ", " - ")) + part
        return text

    def term(self, depth, *kinds):
        factor = f"{self.number()}*" if self.rng.random() < 0.3 else ""
        if depth and self.rng.random() < 0.3:
            return f"{factor}({self.expression(depth - 1, *kinds)})"
        if depth and self.rng.random() < 0.5:
            bound = self.range(1, 3)
            text = f"{factor}sum({bound}: {self.expression(depth - 1, *kinds)})"
            self.leave(1)
            return text
        text = factor + (self.number() if self.seldom(6) else self.ref(*kinds))
        return text + "*" + self.ref("uncertain", "var") if self.seldom(60) else text

    # ---- lines

    def over(self):
        return " over " + self.ref("over") if self.declared["over"] and self.rng.random() < 0.3 else ""

    def bounds(self):
        return self.rng.choice(("", f" in [-{self.number()}, {self.number()}]", f" >= {self.number()}", " <= 9"))

    def sides(self, *kinds):
        return self.expression(2, *kinds) + self.rng.choice((" <= ", " >= ", " = ")) + self.expression(2, *kinds)

    def items(self, behind_name):
        """Items of different names, each with ranges of its own"""
        known, found = self.declared["uncertain"], []
        for name, extents in self.rng.sample(known, self.rng.randint(1, len(known))) if known else ():
            ranges = self.ranges(len(extents))
            own = [one for one, _, _ in self.around[len(self.around) - len(extents):]]
            indices = [self.index(1, 3) if self.seldom(8) else one for one in own]
            found.append(name + listed(indices) + behind_name() + ranges)
            self.leave(len(extents))
        return ", ".join(found) or "x[1]"

    def deviation(self):
        return f" at {self.number()} by {self.number()}"

    def line(self, kind):
        if kind == "budget":
            return f"budget {self.number()}: {self.items(self.deviation)}{self.over()}"
        if kind in ("uncertain", "var", "over"):
            name, behind, count = self.declare(kind)
            text = f"{kind} {name}{'' if kind == 'over' else self.bounds()}"
        elif kind == "adaptive":
            name, behind, count = self.declare(kind)
            text = f"adaptive {name}({self.items(str)}){self.bounds()}"
        elif kind == "row":
            name, behind, count = self.declare(kind)
            text = f"row {name}: {self.sides('var', 'adaptive', 'uncertain')}{self.over()}"
        else:
            count = self.few(0.5 if kind == "set" else 0.03)
            behind = self.ranges(count)
            text = f"{kind} " + (self.sides("uncertain") if kind == "set" else self.expression(3, "var", "adaptive"))
            text += self.over()
        self.leave(count)
        return text + behind

    def text(self):
        some = self.rng.choice
        kinds = (["uncertain"] * some((1, 2)) + ["over"] * some((0, 0, 1))
                 + some(([], ["set"], ["budget"], ["set", "budget"])) + ["var"] * some((1, 2))
                 + ["adaptive"] * some((0, 1)) + [some(("minimise", "maximise"))]
                 + ["row"] * some((0, 1, 2)))
        if self.seldom(20):
            self.rng.shuffle(kinds)
        return "".join(line + "\n" for line in ["model 2", *map(self.line, kinds)]).encode()


def listed(indices):
    return "[" + ", ".join(indices) + "]" if indices else ""


def written(rng):
    """A text of version 2"""
    return Writer(rng).text()
