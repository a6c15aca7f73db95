#!/usr/bin/env python3
"""How time and memory grow with a model's size: families of models, each by both routes, up to the limits on models.

    python3 bench/families.py                           # crates/robust/out/robust
    python3 bench/families.py --limit 20 --only lot     # a short look at one family

It prints a table in Markdown. A run that takes longer than the limit is ended, and larger ones of its family and route
are left out. A peak under 20 MB isn't told exactly: that of this script counts.
"""
import argparse
import os
import pathlib
import resource
import tempfile

TOP = pathlib.Path(__file__).resolve().parent.parent


def lot(periods):
    """Lot sizing: each order may depend on all earlier demands; one budget."""
    means = [10 + (3 - t) % 4 for t in range(periods)]
    orders = ["x1"] + [f"y{t}" for t in range(2, periods + 1)]
    demands = [f"d{t}" for t in range(1, periods + 1)]
    lines = [f"uncertain {d} in [{mean - 2}, {mean + 2}]" for d, mean in zip(demands, means)]
    lines.append("budget 1: " + ", ".join(f"{d} at {mean} by 2" for d, mean in zip(demands, means)))
    lines.append("var x1 >= 0")
    lines += [f"adaptive {orders[t]}({', '.join(demands[:t])}) >= 0" for t in range(1, periods)]
    stocks = [f"({' + '.join(orders[:t])} - {' - '.join(demands[:t])})" for t in range(1, periods + 1)]
    lines.append(f"minimise ({' + '.join(orders)}) + {' + '.join(stocks)}")
    lines += [f"row need{t}: {' + '.join(orders[:t])} >= {' + '.join(demands[:t])}" for t in range(1, periods + 1)]
    return lines


def transport(customers):
    """Three plants that are built now, and flows to customers that follow each its demand; one budget."""
    ids = range(1, customers + 1)
    mean, deviation = (lambda k: 30 + 7 * k % 40), (lambda k: 5 + 3 * k % 10)
    lines = [f"uncertain d{k} in [{mean(k) - deviation(k)}, {mean(k) + deviation(k)}]" for k in ids]
    lines.append("budget 2: " + ", ".join(f"d{k} at {mean(k)} by {deviation(k)}" for k in ids))
    lines += [f"var z{i} in [0, {40 * customers}]" for i in (1, 2, 3)]
    lines += [f"adaptive s{i}_{k}(d{k}) >= 0" for i in (1, 2, 3) for k in ids]
    building = [f"{10 + 2 * i}*z{i}" for i in (1, 2, 3)]
    moving = [f"{3 + (5 * i + 3 * k) % 7}*s{i}_{k}" for i in (1, 2, 3) for k in ids]
    lines.append("minimise " + " + ".join(building + moving))
    lines += [f"row meet{k}: s1_{k} + s2_{k} + s3_{k} >= d{k}" for k in ids]
    lines += [f"row cap{i}: {' + '.join(f's{i}_{k}' for k in ids)} <= z{i}" for i in (1, 2, 3)]
    return lines


def dense(products):
    """A production mix: each product's share of each of two resources is uncertain, with a budget for each resource."""
    ids = range(1, products + 1)
    share, off = (lambda i, j: 3 + (7 * i + 5 * j) % 9), (lambda i, j: 1 + (i + j) % 2)
    pairs = [(i, j) for i in (1, 2) for j in ids]
    lines = [f"uncertain a{i}_{j} in [{share(i, j) - off(i, j)}, {share(i, j) + off(i, j)}]" for i, j in pairs]
    lines += ["budget 2: " + ", ".join(f"a{i}_{j} at {share(i, j)} by {off(i, j)}" for j in ids) for i in (1, 2)]
    lines += [f"var x{j} >= 0" for j in ids]
    lines.append("maximise " + " + ".join(f"{17 + 5 * j % 13}*x{j}" for j in ids))
    lines += [f"row use{i}: {' + '.join(f'a{i}_{j}*x{j}' for j in ids)} <= {300 + 10 * i}" for i in (1, 2)]
    return lines


def sets(count):
    """Named sets, from calm to wild, over seven demands: an order now, and one that follows two, against each set."""
    demands = [f"d{k}" for k in range(1, 8)]
    lines = [f"uncertain {d} in [8, 12]" for d in demands]
    for number in range(1, count + 1):
        lines += [f"over s{number}", f"set {' + '.join(demands)} <= {70 + number} over s{number}"]
    lines += ["var x >= 0", "adaptive y(d1, d2) >= 0", "minimise 2*x + 3*y"]
    for number in range(1, count + 1):
        lines.append(f"row r{number}: x + y >= {' + '.join(demands[:2 + number % 5])} over s{number}")
    lines.append("row all: x + 2*y >= d1 + d2 + d3")
    return lines


def ring(count, prices=(1,)):
    """Orders that each may follow every demand and serve two of them, round a ring, at these prices in turn; all other
    numbers are 0, 1 and 2."""
    demands, orders = [f"d{k}" for k in range(count)], [f"y{k}" for k in range(count)]
    lines = [f"uncertain {d} in [0, 2]" for d in demands]
    lines.append("budget 2: " + ", ".join(f"{d} at 1 by 1" for d in demands))
    lines.append("var x >= 0")
    lines += [f"adaptive {y}({', '.join(demands)}) >= 0" for y in orders]
    lines.append("minimise x + " + " + ".join(f"{prices[k % len(prices)]}*{y}" for k, y in enumerate(orders)))
    for k in range(count):
        after = (k + 1) % count
        lines.append(f"row pair{k}: x + {orders[k]} + {orders[after]} >= {demands[k]} + {demands[after]}")
    lines.append(f"row all: {' + '.join(orders)} >= {' + '.join(demands)}")
    return lines


def priced(count):
    """The ring with three prices. By cuts it takes more rounds: 46 with three orders, where the ring takes 21."""
    return ring(count, (1, 2, 3))


# of each the sizes; the last one is the greatest, or the greatest of its kind, that the limits on models let through
FAMILIES = {"lot": (lot, (4, 8, 12, 16, 20, 24, 27)), "transport": (transport, (4, 8, 12, 16, 18)),
            "dense": (dense, (6, 12, 18, 23, 25)), "sets": (sets, (2, 4, 8)), "ring": (ring, (4, 8, 12, 16, 19, 23)),
            "prices": (priced, (3, 4, 6, 8, 12, 16, 19, 23))}


def timed(program, words, seconds):
    """The processor's seconds, the peak in megabytes, and the first line; None where it was ended."""
    with tempfile.TemporaryFile() as out:
        actions = [(os.POSIX_SPAWN_DUP2, out.fileno(), 1)]
        process = os.posix_spawn(program, [program, *words], {}, file_actions=actions)
        resource.prlimit(process, resource.RLIMIT_CPU, (seconds, seconds + 1))
        _, status, used = os.wait4(process, 0)
        out.seek(0)
        first = out.read(100).split(b"\n")[0].decode()
    if os.waitstatus_to_exitcode(status) < 0:
        return None
    return used.ru_utime + used.ru_stime, used.ru_maxrss / 1024, first


def cell(done, seconds):
    if done is None:
        return f"over {seconds} s"
    time, memory, first = done
    answer = " ".join(first.split()[:4]) if first.startswith("too wide") else first
    return f"{time:.3f} s, {'under 20' if memory < 20 else round(memory)} MB, {answer}"


def main():
    parser = argparse.ArgumentParser(description=__doc__.splitlines()[0])
    parser.add_argument("--robust", default=str(TOP / "crates/robust/out/robust"), help="the built program")
    parser.add_argument("--limit", type=int, default=60, help="the processor's seconds after which a run is ended")
    parser.add_argument("--only", action="append", help="this family alone; it may be given several times")
    options = parser.parse_args()
    print("| family | size | counterpart | cuts |\n|---|---|---|---|")
    with tempfile.TemporaryDirectory() as folder:
        model = pathlib.Path(folder, "m.rob")
        for name in options.only or FAMILIES:
            make, sizes = FAMILIES[name]
            over = set()
            for size in sizes:
                model.write_text("".join(line + "\n" for line in make(size)))
                cells = []
                for route in ("dual", "cuts"):
                    if route in over:
                        cells.append("-")
                        continue
                    done = timed(options.robust, ["solve", str(model), "--route", route], options.limit)
                    cells.append(cell(done, options.limit))
                    if done is None:
                        over.add(route)
                print(f"| {name} | {size} | {' | '.join(cells)} |", flush=True)


if __name__ == "__main__":
    main()
