"""The number of jumps made to each label (document 02, point 2): cases with a lent number, each with the sentence that it rests on.

A case is calls, checks of what the last one left, the number and the place of its refusal (0 and 0 where it is accepted), and why. What is
expected is written here from documents 01 and 02; words, labels and jumps of frames are counted in tools/decks/reference.py."""
import random

from cases import FINISH, SEED  # puts tools/ on the path
from orders import CONST
from reference import Code, Head, epilogue, prologue

LIMIT = 4096
SELF, MAIN, PRO, EPI, DONE, SUCCESS, EPILOGUE = range(2032, 2039)
MARK = 2**32 - 1  # what stands in the list's memory before it

ABOVE = "02: a lent number above 4,096 is number 2: a jump looks at its own label's"
AT = "02: at 4,096 the jump doesn't fit, number 7"
HAS = "02: the record of a label gains the number of jumps made to it"
FINISHING = "02: a lent number above 4,096 is number 2, finishing and the list at all"
LIST = "02: list exactly the set labels whose number is 0, in rising order"
BEFORE = "02: before an accepted finish, number 2, place 0"
ORDER = "01: order 12, 8, 1, 3, 2, 9, 10, 11, 4, 7"
OWN = "02: a jump looks at its own label's; these make none to it"
TWICE = "01: number 4, label already set"
RECORD = "01: number 2, a record with a length beyond the buffer or no multiple of 4, or over 4,096 jumps"


# ---- calls that lend, and checks


def made(label, n):
    return ("made", [label, n])


def lent(length, jumps, closed=0):
    return ("record", [length, jumps, closed])


def entry(label, n, place=None):
    """The number of jumps made to a label, and its place."""
    return ("entry", [label, n, 0 if place is None else place + 1])


def record(length, jumps, closed=0):
    return ("is", [length, jumps, closed])


def listed(*labels):
    return ("listed", [len(labels), *labels, MARK, MARK, MARK][:4])


def unlisted():
    return ("unlisted", [2, 0])


# ---- what jumps


def jumpers(label):
    """Calls that jump to a label: the call, how many jumps, how many words."""
    for kind in range(6):
        yield ("jump", [kind, label, 0]), 1, 1
    yield ("beq", [label]), 1, 1
    yield ("bne", [label]), 1, 1
    yield ("load_x_from_label", [10, label]), 2, 2
    yield ("j", [label, 0]), 2, 2
    if label < CONST:
        # by name and by `emit`: by the first operand
        yield from ((("branch_if", [c, label, e]), 2, 4) for c in (0, 1) for e in (0, 1))
    elif label < SELF:
        yield from ((("load_const", [d, label - CONST]), 2, 2) for d in (10, 11))


def frame(name, cap, states, obs):
    """A frame's call, its words, the labels that it jumps to, and its labels' places."""
    code = Code(65536)
    items = (prologue if name == "prologue_indirect" else epilogue)(Head("indirect", cap, states, obs, 0, 0))
    code.place(items, 1)
    return (name, [cap, states, obs, 0]), len(code.words), [label for _, _, _, label, _ in code.jumps], code.labels


FRAMES = [(name, 3, states, obs) for name in ("prologue_indirect", "epilogue_indirect") for states in (0, 16, 17) for obs in (0, 16, 17)]


# ---- one jump more


def answer(n, times):
    """The number for so many jumps to a label with number n."""
    return 2 if n > LIMIT else 7 if n + times > LIMIT else 0


def orders():
    """Every call that jumps, with numbers about the limit."""
    why = {0: HAS, 2: ABOVE, 7: AT}
    for label in (7, 1022, CONST, CONST + 1007, SELF, EPILOGUE):
        for call, times, words in jumpers(label):
            for n in (0, 4093, 4094, 4095, 4096, 4097, 2**32 - 1):
                number = answer(n, times)
                after = (4 * words, times) if number == 0 else (0, 0)
                checks = [entry(label, n if number else n + times), record(*after)]
                yield [made(label, n), call], checks, number, 0, why[number]


def frames():
    """Both ends of an indirect frame: each of its labels with numbers about the limit, alone."""
    for row in FRAMES:
        call, words, targets, places = frame(*row)
        for label in (SELF, MAIN, PRO, EPI, DONE, SUCCESS, EPILOGUE):
            for n in (4095, 4096, 4097):
                number = answer(n, targets.count(label)) if label in targets else 0
                checks = [entry(l, (n if l == label else 0) + (0 if number else targets.count(l)), None if number else places.get(l))
                          for l in sorted({label, *targets})]
                checks.append(record(0, 0) if number else record(4 * words, len(targets)))
                yield [made(label, n), call], checks, number, 0, {0: HAS if label in targets else OWN, 2: ABOVE, 7: AT}[number]
    for name, labels in (("prologue_indirect", (MAIN, PRO)), ("epilogue_indirect", (DONE, EPI))):
        call = (name, [0, 17, 17, 0])
        # two numbers at once: 2 wherever it stands
        for one, other in (labels, labels[::-1]):
            yield [made(one, 4096), made(other, 4097), call], [entry(one, 4096), entry(other, 4097)], 2, 0, ABOVE
            yield [made(one, 4095), made(other, 4096), call], [entry(one, 4095), entry(other, 4096), record(0, 0)], 7, 0, AT


def others():
    """What makes no jump to a label doesn't look at its number, and keeps it."""
    for n in (1, 4096, 4097, 2**32 - 1):
        for call, label in (("set_label", [7]), 7), (("label", [7]), 7), (("label", [8]), 8), (("add_const", [5, 1, 2]), CONST + 5):
            words = 2 if label > CONST else 0
            yield [("pad", [3]), made(label, n), call], [entry(label, n, 12), record(12 + 4 * words, 0)], 0, 0, OWN
        yield [made(7, n), ("branch_if", [0, 8, 0])], [entry(7, n), entry(8, 2), record(16, 2)], 0, 0, OWN
        yield [made(7, n), ("branch_if", [1, 8, 0])], [entry(7, n), entry(8, 2), record(16, 2)], 0, 0, OWN
        yield [made(7, n), ("append_word", [1])], [entry(7, n), record(4, 0)], 0, 0, OWN
        for label in (SUCCESS, EPILOGUE):
            place = 0 if label == SUCCESS else 4
            yield [made(label, n), ("load_used_registers", [0])], [entry(label, n, place), record(4, 0)], 0, 0, OWN
        every = [made(label, n) for label in range(SELF, EPILOGUE + 1)]
        yield [*every, ("prologue_fast", [0, 1, 0])], [entry(SELF, n), entry(MAIN, n), record(44, 0)], 0, 0, OWN
        yield [*every, ("epilogue_fast", [0, 1, 0, 0])], [entry(DONE, n), entry(EPI, n), record(36, 0)], 0, 0, OWN
        yield [("set_label", [7]), made(CONST + 5, n), ("set_label", [7])], [entry(7, 0, 0), entry(CONST + 5, n)], 4, 0, TWICE
        yield [("set_label", [7]), made(7, n), ("set_label", [7])], [entry(7, n, 0), record(0, 0)], 4, 0, TWICE
        yield [("label", [7]), made(7, n), ("label", [7])], [entry(7, n, 0), record(0, 0)], 4, 0, TWICE


# ---- which number comes first


def ranks():
    """Two faults at once."""
    for n in (4096, 4097):
        low = 7 if n == LIMIT else 2
        # 8, 1 and 3 before 2
        for label in (7, CONST, DONE):
            for call, _, _ in jumpers(label):
                yield [FINISH, made(label, n), call], [entry(label, n), record(0, 0, 1)], 8, 0, ORDER
        yield [made(7, n), ("branch_if", [32, 7, 0])], [entry(7, n), record(0, 0)], 1, 0, ORDER
        yield [made(7, n), ("branch_if", [33, 7, 0])], [entry(7, n), record(0, 0)], 1, 0, ORDER
        yield [made(7, n), ("load_x_from_label", [32, 7])], [entry(7, n), record(0, 0)], 1, 0, ORDER
        yield [made(7, n), ("j", [7, 32])], [entry(7, n), record(0, 0)], 1, 0, ORDER
        yield from (([made(7, n), ("jump", [kind, 7, 32])], [entry(7, n), record(0, 0)], 1, 0, ORDER) for kind in range(6))
        yield [made(CONST, n), ("load_const", [32, 0])], [entry(CONST, n), record(0, 0)], 1, 0, ORDER
        yield [made(CONST, n), ("branch_if", [0, CONST, 0])], [entry(CONST, n), record(0, 0)], 3, 0, ORDER
        yield [made(CONST, n), ("branch_if", [1, CONST, 1])], [entry(CONST, n), record(0, 0)], 3, 0, ORDER
        # a constant above 1,007 has no label: 1,024 + 1,008 is @self's
        yield [made(SELF, n), ("load_const", [0, 1008])], [entry(SELF, n), record(0, 0)], 9, 0, "01: k at most 1,007"
        yield [made(SELF, n), ("load_const", [1, 1008])], [entry(SELF, n), record(0, 0)], 9, 0, "01: k at most 1,007"
        # 2 before 7, and no room is no other number
        for call, _, words in jumpers(7):
            yield [("pad", [16385 - words]), made(7, n), call], [entry(7, n), record(65540 - 4 * words, 0)], low, 0, ORDER
        for call, times, _ in jumpers(CONST):
            yield [("jumps", [4097 - times]), made(CONST, n), call], [entry(0, 4097 - times), entry(CONST, n)], low, 0, ORDER
    yield from frame_ranks()


def frame_ranks():
    """Of frames: 2 before 9 and 4, and both before 7."""
    wide = [(5000, 16, 16, 0), (5000, 17, 17, 0), (0, 5000, 0, 0), (0, 0, 5000, 0), (0, 16, 16, 4097), (0, 17, 17, 4097)]
    for name, first, loop in (("prologue_indirect", MAIN, PRO), ("epilogue_indirect", DONE, EPI)):
        for row in wide:
            copied = row[1] if name == "prologue_indirect" else row[2]
            for n in (4096, 4097):
                yield [made(first, n), (name, [*row])], [entry(first, n), record(0, 0)], 2 if n > LIMIT else 9, 0, ORDER
                number = 2 if n > LIMIT and copied > 16 else 9
                yield [made(loop, n), (name, [*row])], [entry(loop, n), record(0, 0)], number, 0, ORDER
        for copied in (16, 17):
            call, words, targets, places = frame(name, 0, copied, copied)
            for n in (4096, 4097):
                for label in targets:
                    checks = [entry(label, n, places[label]), record(4 * words, len(targets))]
                    yield [call, made(label, n), call], checks, 2 if n > LIMIT else 4, 0, ORDER
                yield [("pad", [16384]), made(first, n), call], [entry(first, n), record(65536, 0)], 2 if n > LIMIT else 7, 0, ORDER


def unsaved():
    """Of a load in a deck with this mask: 2 and 9 before 11, and that before 7."""
    for d in (8, 9, 18, 27):
        for n in (0, 4094, 4095, 4096, 4097):
            number = 2 if n > LIMIT else 11
            yield [made(CONST, n), ("load_const_in", [d, 0, 0])], [entry(CONST, n), record(0, 0)], number, 0, ORDER
            number = answer(n, 2)
            after = (8, 2) if number == 0 else (0, 0)
            checks = [entry(CONST, n if number else n + 2), record(*after)]
            yield [made(CONST, n), ("load_const_in", [d, 0, 1 << d])], checks, number, 0, {0: HAS, 2: ABOVE, 7: AT}[number]
            yield [made(SELF, n), ("load_const_in", [d, 1008, 0])], [entry(SELF, n), record(0, 0)], 9, 0, ORDER
            yield [FINISH, made(CONST, n), ("load_const_in", [d, 0, 0])], [entry(CONST, n), record(0, 0, 1)], 8, 0, ORDER
    yield [made(CONST, 4097), ("load_const_in", [32, 0, 0])], [entry(CONST, 4097), record(0, 0)], 1, 0, ORDER


def lents():
    """A lent record: 2 before 9, 10, 4 and 7, behind 8, 1 and 3; and a jump count of 4,096."""
    calls = [("append_word", [1]), ("branch_if", [0, 7, 0]), ("add_const", [1008, 0, 0]), ("load_float", [10, 5, 2048]), ("label", [7])]
    calls += [("prologue_indirect", [5000, 0, 0, 0]), FINISH]
    for row in ((65540, 0), (2, 0), (0, 4097)):
        for call in calls:
            yield [("set_label", [7]), lent(*row), call], [record(*row), entry(7, 0, 0)], 2, 0, RECORD
        yield [lent(*row), ("branch_if", [32, 7, 0])], [record(*row)], 1, 0, ORDER
        yield [lent(*row), ("branch_if", [0, 1024, 0])], [record(*row)], 3, 0, ORDER
        yield [lent(*row, 1), ("branch_if", [0, 7, 0])], [record(*row, 1)], 8, 0, ORDER
    for call, _, _ in jumpers(7):
        yield [lent(0, 4096), call], [entry(7, 0), record(0, 4096)], 7, 0, "01: at most 4,096 jumps"


# ---- one after the other, finishing, the list


def several(rng):
    """Jumps to some labels, one behind the other, until one is refused."""
    labels = rng.sample([*range(1024), *range(CONST, CONST + 1008)], 4)
    numbers = {label: rng.choice([0, 0, 4090, 4094]) for label in labels}
    calls, length, jumps, number = [made(label, n) for label, n in numbers.items()], 0, 0, 0
    for _ in range(rng.randint(3, 14)):
        label = rng.choice(labels)
        call, times, words = rng.choice(list(jumpers(label)))
        calls.append(call)
        number = answer(numbers[label], times)
        if number:
            break
        numbers[label], length, jumps = numbers[label] + times, length + 4 * words, jumps + times
    checks = [entry(label, n) for label, n in numbers.items()] + [record(length, jumps)]
    return calls, checks, number, 0, AT if number else HAS


def finishing():
    """Finishing looks at all numbers."""
    for label in (0, 7, 63, 64, 900, 1023, CONST, 1983, 1984, 2031, SELF, EPILOGUE):
        yield [made(label, 4096), FINISH], [entry(label, 4096), record(0, 0, 1), listed()], 0, 0, FINISHING
        for n in (4097, 2**31, 2**32 - 1):
            yield [made(label, n), FINISH], [entry(label, n), record(0, 0), unlisted()], 2, 0, FINISHING
            yield [("set_label", [label]), made(label, n), FINISH], [entry(label, n, 0), record(0, 0)], 2, 0, FINISHING
        yield [("set_label", [label]), made(label, 4096), FINISH], [entry(label, 4096, 0), record(0, 0, 1), listed()], 0, 0, FINISHING
        yield [FINISH, made(label, 4097), FINISH], [entry(label, 4097), record(0, 0, 1)], 8, 0, "01: finishing 8, 2"
    yield [("beq", [7]), made(900, 4097), FINISH], [record(4, 1)], 2, 0, "01: finishing 8, 2, then 5"
    yield [("beq", [7]), made(900, 4096), FINISH], [record(4, 1)], 5, 0, "01: finishing 8, 2, then 5"
    far = [("pad", [1]), ("beq", [7]), ("pad", [1024]), ("set_label", [7])]
    yield [*far, made(900, 4097), FINISH], [record(4104, 1)], 2, 0, "01: finishing 8, 2, then 5, then 6"
    yield [*far, made(900, 4096), FINISH], [record(4104, 1)], 6, 4, "01: finishing 8, 2, then 5, then 6"
    yield [("set_label", [7]), made(7, 4095), ("beq", [7]), FINISH], [entry(7, 4096, 0), record(4, 1, 1), listed()], 0, 0, FINISHING


def lists():
    """Labels that are set and never jumped to, after an accepted finish and not before."""
    yield [("label", [7]), FINISH], [entry(7, 0, 0), listed(7)], 0, 0, LIST
    yield [("branch_if", [0, 7, 0]), ("label", [7]), FINISH], [entry(7, 2, 16), record(16, 2, 1), listed()], 0, 0, LIST
    yield [("load_const", [0, 3]), ("add_const", [3, 1, 1]), FINISH], [entry(CONST + 3, 2, 8), listed()], 0, 0, LIST
    yield [("add_const", [0, 1, 1]), FINISH], [entry(CONST, 0, 0), listed(CONST)], 0, 0, LIST
    yield [made(7, 5), FINISH], [entry(7, 5), listed()], 0, 0, LIST
    yield [("label", [1023]), ("label", [0]), ("label", [500]), FINISH], [listed(0, 500, 1023)], 0, 0, LIST
    yield [*(("set_label", [n]) for n in range(2039)), ("beq", [1]), FINISH], [("listed", [2038, 0, 2, 3])], 0, 0, LIST
    behind = [("save_used_registers", [0]), ("load_used_registers", [0])]
    fast = [("prologue_fast", [0, 1, 0]), *behind, ("epilogue_fast", [0, 1, 0, 0]), FINISH]
    yield fast, [listed(SUCCESS, EPILOGUE)], 0, 0, LIST
    for cells in (0, 16, 17):
        calls = [("prologue_indirect", [0, cells, cells, 0]), *behind, ("epilogue_indirect", [0, cells, cells, 0]), FINISH]
        looped = [(label, 1) for label in (PRO, EPI) if cells > 16]
        numbers = [(MAIN, 1), (DONE, 1), *looped, (SELF, 0), (SUCCESS, 0), (EPILOGUE, 0)]
        places = after_all(cells)
        checks = [entry(label, n, places[label]) for label, n in numbers]
        yield calls, [*checks, listed(SELF, SUCCESS, EPILOGUE)], 0, 0, LIST
    yield from unlisted_cases()


def unlisted_cases():
    """The list refused."""
    yield [("label", [7])], [unlisted()], 0, 0, BEFORE
    yield [("beq", [7]), FINISH], [unlisted()], 5, 0, BEFORE
    yield [("label", [7]), FINISH, ("label", [8])], [listed(7)], 8, 0, LIST
    for label in (0, 7, 900, 1983, 1984, EPILOGUE):
        yield [("label", [7]), FINISH, made(label, 4097)], [entry(label, 4097, 0 if label == 7 else None), unlisted()], 0, 0, FINISHING
        yield [("label", [9]), FINISH, made(label, 4096)], [listed(9)], 0, 0, LIST
    for row in ((65540, 0), (2, 0), (65535, 0), (0, 4097), (2**32 - 4, 0), (0, 2**32 - 1)):
        yield [("label", [7]), lent(*row, 1)], [unlisted(), record(*row, 1)], 0, 0, RECORD
    yield [("label", [7]), lent(65536, 4096, 1)], [listed(7)], 0, 0, LIST
    yield [("label", [7]), lent(65536, 4096, 0)], [unlisted()], 0, 0, BEFORE


def after_all(cells):
    """Places of an indirect routine's labels, with no line behind line 1."""
    code, head = Code(65536), Head("indirect", 0, cells, cells, 0, 0)
    code.place([*prologue(head), ("label", SUCCESS), 0, ("label", EPILOGUE), *epilogue(head)], 1)
    return code.labels


def family():
    """Calls, checks, number, place and reason."""
    for make in (orders, frames, others, ranks, unsaved, lents, finishing, lists):
        yield from make()
    rng = random.Random(f"{SEED} made")
    yield from (several(rng) for _ in range(60))
