"""Times of genhs and of its phases at doubling sizes: the best of three runs each, in milliseconds.

Each run has the status that it is to end with; a run that ends with another one stops the whole.
"""
import os
import random
import subprocess
import sys
import time

top, work = sys.argv[1], sys.argv[2]
GENHS = os.path.join(top, "crates/gh_cli/out/gh_cli")
BENCH = os.path.join(top, "crates/gh_bench/out/gh_bench")
MACHINE = os.path.join(top, "crates/bench_machine/out/bench_machine")


# What the program ends with: an end, a refusal, a budget that is used up.
ENDED, REFUSED, OUT_OF_STEPS = 0, 1, 3


def best(command, status=ENDED):
    """The least time of three runs, each of which is to end with that status."""
    times = []
    for _ in range(3):
        begin = time.perf_counter()
        run = subprocess.run(command, stdout=subprocess.DEVNULL, stderr=subprocess.PIPE, check=False)
        times.append(time.perf_counter() - begin)
        if run.returncode != status:
            said = run.stderr.decode(errors="replace").strip()
            sys.exit(f"bench: status {run.returncode} in the place of {status}: {' '.join(command)}: {said}")
    return 1000 * min(times)


def table(title, unit, sizes, make, command, status=ENDED):
    print(title)
    before = None
    for size in sizes:
        path = os.path.join(work, "bench.hs")
        with open(path, "wb") as file:
            file.write(make(size))
        ms = best(command(path, size), status)
        cost = "" if before is None else f"   x {ms / before:.2f}"
        print(f"  {size:>9} {unit}  {ms:9.1f} ms{cost}")
        before = ms
    print()


def identifiers(size):
    source = random.Random(7)
    words, total = [], 0
    while total < size:
        word = "".join(source.choice("abcdefgh") for _ in range(source.randint(1, 12)))
        words.append(word)
        total += len(word) + 1
    return "\n".join(words)[:size].encode()


def comments(size):
    return (b"{- a {- nested -} comment -} -- and one to the end\n" * (size // 50 + 1))[: size // 51 * 51]


def string(size):
    return b'"' + b"x" * (size - 2) + b'"'


def blocks(size):
    return (b"f x = case x of\n  A -> let y = x\n           z = y in z\n  B -> x\n" * (size // 64))[:size // 66 * 66]


KIB = [1024 * 2 ** k for k in range(6, 11)]
for name, make in (("identifiers", identifiers), ("comments", comments), ("one string", string)):
    table(f"lexing, {name}", "bytes", KIB, make, lambda path, size: [BENCH, "lex", path])
table("lexing and layout, blocks", "bytes", KIB, blocks, lambda path, size: [BENCH, "lay", path])


def declarations(size):
    return (b"f x = g x 1\n" * (size // 12))[: size // 12 * 12]


def operands(size):
    return b"x = " + b" + ".join([b"y"] * size)


def elements(size):
    return b"x = [" + b", ".join([b"y"] * size) + b"]"


table("a check by the whole grammar, declarations", "bytes", KIB, declarations, lambda path, size: [GENHS, "check", path], REFUSED)
TENS = [12500 * 2 ** k for k in range(4)]
table("a check by the whole grammar, one expression", "operands", TENS, operands, lambda path, size: [GENHS, "check", path], REFUSED)
table("a check by the whole grammar, one list", "elements", TENS, elements, lambda path, size: [GENHS, "check", path], REFUSED)

# A file of one item that nests so deep. Its check refuses it by 9, since no phase is built for its form, or by 10, where it is too
# deep.
NESTED = {
    "parentheses": lambda n: "x = " + "(" * n + "y" + ")" * n,
    "lists": lambda n: "x = " + "[" * n + "y" + "]" * n,
    "left sections": lambda n: "x = " + "(" * n + "y" + " +)" * n,
    "right sections": lambda n: "x = " + "(+ " * n + "y" + ")" * n,
    "types": lambda n: "x :: " + "(" * n + "A" + ")" * n,
    "patterns": lambda n: "f " + "(" * n + "x" + ")" * n + " = y",
    "left sides": lambda n: "(" * n + "f x" + ") y" * n + " = y",
    "lambdas": lambda n: "x = " + "\\a -> " * n + "y",
    "if, in the last part": lambda n: "x = " + "if a then b else " * n + "y",
    "if, in the test": lambda n: "x = " + "if " * n + "a" + " then b else c" * n,
    "let, in the body": lambda n: "x = " + "let { a = b } in " * n + "y",
    "let, in a binding": lambda n: "x = " + "let { a = " * n + "y" + " } in z" * n,
    "case, of a case": lambda n: "x = " + "case " * n + "a" + " of { b -> c }" * n,
    "case, in an alternative": lambda n: "x = " + "case a of { b -> " * n + "c" + " }" * n,
    "case, behind a guard": lambda n: "x = " + "case a of { b | c -> " * n + "c" + " }" * n,
    "where": lambda n: "x = y where { " * n + "a = b" + " }" * n,
}


def refusal(make, depth):
    """The number of the refusal, or "none" where the program gave no answer."""
    path = os.path.join(work, "nested.hs")
    with open(path, "w") as file:
        file.write(make(depth) + "\n")
    run = subprocess.run([GENHS, "check", path], stdout=subprocess.DEVNULL, stderr=subprocess.PIPE, check=False)
    line = run.stderr.decode(errors="replace").split(": ")
    return line[1].split()[0] if run.returncode == 1 and len(line) > 1 else "none"


def deepest_answer(make):
    """The greatest number of levels, by bisection, for which the program answers."""
    low, high = 1, 65536
    while low + 1 < high:
        middle = (low + high) // 2
        if refusal(make, middle) != "none":
            low = middle
        else:
            high = middle
    return low


print("levels inside one another: the refusal of 2,000, and the most levels that are answered")
for name, make in NESTED.items():
    print(f"  {name:<26} {refusal(make, 2000):>4}  {deepest_answer(make):>6}")
print()


def program(size):
    return b'module Main where { main = "' + b"x" * size + b'" }'


table("a run that prints a string", "bytes", [2 ** k for k in range(16, 20)], program,
      lambda path, size: [GENHS, "run", "--steps", "2000000", path])


def chain(size):
    items = ["main = b0"] + [f"b{i} = b{i + 1}" for i in range(size - 2)] + [f'b{size - 2} = "x"']
    return ("module Main where { " + "; ".join(items) + " }").encode()


table("a run through a chain of bindings", "bindings", [5000 * 2 ** k for k in range(4)], chain,
      lambda path, size: [GENHS, "run", "--steps", "2000000", path])


def layout_chain(size):
    items = ["main = b0"] + [f'b{i} = "x" ++ b{i + 1}' for i in range(size - 2)] + [f'b{size - 2} = "x"']
    return "\n".join(items).encode()


table("a check of joined bindings, by layout", "bindings", [5000 * 2 ** k for k in range(4)], layout_chain,
      lambda path, size: [GENHS, "check", path])


def peak(command):
    """The greatest memory of a process, in bytes."""
    child = subprocess.Popen(command, stdout=subprocess.DEVNULL, stderr=subprocess.DEVNULL)
    _, _, usage = os.wait4(child.pid, 0)
    return usage.ru_maxrss * 1024


print('a run that prints for ever: main = "ab" ++ main')
endless = os.path.join(work, "endless.hs")
with open(endless, "w") as file:
    file.write('module Main where { main = "ab" ++ main }\n')
for steps in (250000, 500000, 1000000, 2000000):
    run = [GENHS, "run", "--steps", str(steps), endless]
    ms = best(run, OUT_OF_STEPS)
    print(f"  {steps:>9} reductions  {ms:9.1f} ms   {steps / ms / 1000:6.2f} million a second   {peak(run) / 2 ** 20:8.1f} MiB")
print()

print("the machine, 2000000 reductions: a counting loop, a list of 100000 cells, a list printed without end, deep unevaluated terms, a stack that grows")
for shape in ("loop", "list", "print", "deep", "stack"):
    ms = best([MACHINE, shape])
    print(f"  {shape:>9}  {ms:9.1f} ms   {2000 / ms:6.2f} million a second   {peak([MACHINE, shape]) / 2 ** 20:8.1f} MiB")
