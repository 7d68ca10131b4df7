#!/usr/bin/env python3
"""Makes random builder calls by scripts of cases_builders, and compares each answer and the trees with those of a plain model.

usage: random_builders.py PROGRAM [CALLS]

Two messages are built side by side, by 50 calls each, and each copies from the other. The model has a tree for each, which it
edits by rules, and never looks at the messages. Segments have few words, so that many pointers are far, and a message has a
number of them. So a call that takes words may be refused by OutOfMemory: only the program tells which. Such a call is tried
again as refused, and then nothing may have changed, except a content that was copied in part. The same holds for a copy whose
limit of words lies within the costs that pads leave open. Ends with status 1 at the first difference.
"""
import collections
import os
import random
import re
import subprocess
import sys
import tempfile

from builder_trees import BITS_OF_WIDTH, BYTE, INLINE, POINTER, Node, Refused, Slot, below, blob, copied, framed, reads_list

CALLS, PAIR, LOOKED_AT, PASSES, LARGEST, LEVELS = 100_000, 100, 4, 1000, 60, 6
DIFFERS = re.compile(r"line (\d+) of scripts differs: (.*)")
KINDS = {"struct": 0, "pointers": 1, "structs": 2}
LETTERS = {"Err(Refused(OutOfMemory))": "m", "Err(Refused(ReadLimitExceeded))": "g"}
WIDTHS = {1: 0, 2: 1, 3: 2, 4: 4, 5: 8}


class Differs(Exception):
    """The program answers otherwise than the model."""


def nothing():
    """Leaves a tree as it is."""


class Call:
    """A call: its words, its answer and what it does; and the states that it may leave if room or its limit refuses it."""

    def __init__(self, path):
        self.words, self.answer, self.do = list(path), "k", nothing
        self.takes, self.left, self.limit, self.costs = False, [nothing], None, (0, 0)

    def may_be(self, letter):
        """Whether it may be refused so."""
        return self.takes if letter == "m" else self.limit is not None and self.limit < self.costs[1]


def walk(rng, root, levels, is_read):
    """A random pointer some way down, the words of the path to it, and what reading the path costs at least and at most."""
    slot, words, cost, steps = root, [], 0, 0
    for _ in range(levels):
        node = slot.get()
        if node is None or not node.kids:
            break
        kid, kind = rng.randrange(len(node.kids)), KINDS[node.sort]
        element, pointer = ((0, kid), (kid, 0), divmod(kid, max(node.pointers, 1)))[kind]
        words += [kind, element, pointer] if is_read else [kind, 0, 0, element, pointer]
        cost, steps = cost + node.cost(), steps + 1
        slot = Slot(node.kids, kid)
    return slot, [steps, *words], (cost, cost + 2 * steps)


def struct_got(slot, data, pointers):
    """Whether getting a struct of these sizes takes words, and what makes it."""
    node = slot.get()
    if node is None:
        return data + pointers > 0, lambda: slot.put(Node("struct", data=data, pointers=pointers))
    if node.sort != "struct":
        raise Refused("ec")
    return data > node.data or pointers > node.pointers, lambda: node.widen(data, pointers)


def structs_got(slot, data, pointers):
    """Whether getting a list of structs of these sizes takes words, the number of structs, and what makes it."""
    node = slot.get()
    if node is None:
        return False, 0, nothing
    if node.sort == "struct":
        raise Refused("ec")
    count, _, _ = node.row()
    if node.sort == "structs" and data <= node.data and pointers <= node.pointers:
        return False, count, nothing
    return True, count, lambda: node.widen(data, pointers)


def below_or_at(rng, count):
    """A number below a count, now and then the count itself."""
    return rng.randrange(count + 1) if rng.randrange(8) == 0 else rng.randrange(max(count, 1))


def words_of(node):
    """The data words of a struct of a value as it can be read."""
    return node.data if node and node.sort in KINDS else int(bool(node))


def set_in_struct(rng, call, slot, index=None):
    """Gets a struct, or one of a list of structs, and sets a field of it."""
    data, pointers, node = rng.randrange(4), rng.randrange(4), slot.get()
    width, value, data_now = rng.choice(list(BITS_OF_WIDTH)), rng.getrandbits(64), max(data, words_of(node))
    bits = BITS_OF_WIDTH[width]
    offset = below_or_at(rng, 64 * data_now // bits)
    call.words += [13, data, pointers] if index is None else [15, data, pointers, index]
    call.words += [offset, width, value]
    if index is None:
        (call.takes, make), count = struct_got(slot, data, pointers), 1
    else:
        call.takes, count, make = structs_got(slot, data, pointers)
    if node is not None:
        data_now = max(data, node.row()[1])
    is_there = (index or 0) < count and offset * bits < 64 * data_now

    def do():
        make()
        if is_there:
            at = (index or 0) * data_now + offset * bits // 64
            slot.get().set_bits(at, offset * bits % 64, width, value)

    call.answer, call.do = "k" if is_there else "x", do


def set_in_structs(rng, call, slot):
    node = slot.get()
    set_in_struct(rng, call, slot, below_or_at(rng, node.count if node else 0))


def expected_of(rng, node):
    """A size of elements to ask for: mostly that of the list."""
    size = {"numbers": node.size, "pointers": POINTER}.get(node.sort, INLINE) if node else INLINE
    return rng.choice((rng.randrange(8), size, size))


def set_in_list(rng, call, slot):
    """Gets a list, and sets an element as a number of the expected width."""
    node, value = slot.get(), rng.getrandbits(64)
    expected, index = expected_of(rng, node), below_or_at(rng, node.count if node else 0)
    call.words += [14, expected, index, value]
    count, width = reads_list(node, expected, True), WIDTHS.get(expected)

    def do():
        if index < count and width is not None and node.words:
            node.set_bits(index * (node.data if node.sort == "structs" else 1), 0, width, value)

    call.answer, call.do = "k" if index < count else "x", do


def write_blob(rng, call, slot):
    """Writes bytes into data or a text, pushes a piece to a text, clears a text, or sets a byte of data."""
    node, verb = slot.get(), rng.choice((16, 28, 29, 30, 30, 31))
    room = node.count if node else 0
    at = below_or_at(rng, room)
    piece = bytes(rng.choice((rng.randrange(256), 97, 0)) for _ in range(rng.randrange(max(room - at, 0) + 2)))
    if verb == 30:
        piece = bytes([rng.randrange(128)]) if rng.randrange(2) else "Wört".encode()
    if verb == 16:
        piece = bytes([rng.randrange(256)])
    call.words += {16: [16, at, piece[0] if piece else 0], 31: [31], 30: [30, at, len(piece), *piece]}.get(verb, [verb, 0, at, len(piece), *piece])
    count = blob(node, verb in (29, 30, 31))
    is_there = verb == 31 or at + len(piece) <= count

    def do():
        if verb == 31 and node:
            node.words = [0] * node.count
        elif is_there and node:
            node.words[at : at + len(piece)] = list(piece)

    told = {16: "k", 31: "k0", 30: f"k{at + len(piece)}"}.get(verb, f"k{count}")
    call.answer, call.do = told if is_there else "x", do


def new_blob(rng, call, slot):
    """A new text or new data: of zeros, or of bytes."""
    is_text, given = rng.randrange(2), [rng.randrange(256) for _ in range(rng.randrange(20))]
    node = Node("numbers", BYTE, len(given) + is_text)
    if rng.randrange(2):
        call.words += [3 if is_text else 4, len(given)]
    else:
        call.words += [5 if is_text else 6, len(given), *given]
        node.words = given + [0] * is_text
    call.do, call.takes = lambda: slot.put(node), node.count > 0


def new_value(rng, call, slot):
    """A new struct or list, or null."""
    way, data, pointers = rng.randrange(7), rng.randrange(4), rng.randrange(4)
    if way == 0:
        call.words, node = [*call.words, 7], None
    elif way < 3:
        call.words, node = [*call.words, 0, data, pointers], Node("struct", data=data, pointers=pointers)
        call.takes = data + pointers > 0
    elif way < 5:
        size, count = rng.randrange(7), rng.randrange(20)
        call.words, node = [*call.words, 1, size, count], Node("numbers", size, count)
        if size == POINTER:
            node = Node("pointers", count=count)
        call.takes = count > 0 and size > 0
    else:
        count = rng.randrange(5)
        call.words, node = [*call.words, 2, count, data, pointers], Node("structs", 0, count, data, pointers)
        call.takes = True
    call.do = lambda: slot.put(node)


def got_value(rng, call, slot):
    """Gets of each kind, which make or widen what is there, and tell lengths."""
    way, data, pointers = rng.randrange(8, 13), rng.randrange(4), rng.randrange(4)
    if way == 8:
        call.words += [8, data, pointers, 0]
        call.takes, call.do = struct_got(slot, data, pointers)
    elif way == 9:
        expected = expected_of(rng, slot.get())
        call.words += [9, expected, 0]
        call.answer = f"k{reads_list(slot.get(), expected, True)}"
    elif way == 10:
        call.words += [10, data, pointers, 0]
        call.takes, count, call.do = structs_got(slot, data, pointers)
        call.answer = f"k{count}"
    else:
        call.words += [way, 0]
        call.answer = f"k{blob(slot.get(), way == 11)}"


def struct_read(node, index):
    """A struct that is read: the value, or an element of it as a list of structs; and what reading it costs."""
    if node is not None and (node.sort == "struct") != (index is None):
        raise Refused("ec")
    if index is None:
        return node or Node("struct"), node.cost() if node else 0
    if index >= (node.row()[0] if node else 0):
        raise Refused("x")
    return node.element(index), node.cost()


def pay(rng, call, path, own, kids):
    """Notes what a copy costs: the path, what is read, and the values below, with two words of pads at most for each. Now and
    then there is a limit near that."""
    count, cost = map(sum, zip((0, 0), *(below(it) for it in kids)))
    if count > LARGEST:
        raise OverflowError
    call.costs = path[0] + own + cost, path[1] + own + cost + 2 * (count + 1)
    call.limit = max(0, rng.choice(call.costs) + rng.randrange(-2, 3)) if rng.randrange(4) == 0 else None
    call.takes = True


def copied_value(rng, call, slot, other):
    """A copy of a value, of a struct, of an element, or of a list of the other message."""
    source, steps, path = walk(rng, other, rng.randrange(LEVELS), True)
    node, verb, index = source.get(), rng.choice((17, 17, 18, 19, 24)), rng.randrange(4)
    expected = expected_of(rng, node)
    call.words += [verb, 1, 0, 0, index, expected, *steps]
    if verb == 17:
        new, own, kids = node, 0, [node]
    elif verb == 19:
        reads_list(node, expected, False)
        empty = {POINTER: Node("pointers", count=0), INLINE: Node("structs", count=0)}.get(expected, Node("numbers", expected, 0))
        new, own, kids = node or empty, node.cost() if node else 0, node.kids if node else []
    else:
        new, own = struct_read(node, index if verb == 24 else None)
        kids = new.kids
    pay(rng, call, path, own, kids)
    new = copied(new)
    call.do = lambda: slot.put(new)


def copied_content(rng, call, slot, other):
    """The content of a struct of the other message, copied to a struct or to an element of a list of structs."""
    source, steps, path = walk(rng, other, rng.randrange(LEVELS), True)
    verb, index = rng.choice((20, 20, 21, 32)), rng.randrange(4)
    call.words += [verb, 1, 0, 0, index, 0, *steps]
    read, own = struct_read(source.get(), index if verb == 32 else None)
    if verb == 21:
        call.takes, count, make = structs_got(slot, 0, 0)
    else:
        (call.takes, make), count, index = struct_got(slot, 0, 0), 1, 0
    if index >= count:
        call.answer, call.do = "x", make
        return
    _, data, pointers = slot.get().row() if slot.get() else (1, 0, 0)
    words = (read.words + [0] * data)[:data]
    kids = [copied(it) for it in (read.kids + [None] * pointers)[:pointers]]

    def do(so_far=pointers):
        make()
        slot.get().words[index * data : (index + 1) * data] = words
        slot.get().kids[index * pointers : index * pointers + so_far] = kids[:so_far]

    call.left = [nothing] + [lambda so_far=it: do(so_far) for it in range(pointers)]
    call.do = do
    pay(rng, call, path, own, kids)


def any_call(rng, root, other):
    """A random call at a random pointer. If the rules refuse it, the refusal is its answer; a copy that is too large is null."""
    slot, path, _ = walk(rng, root, rng.choice((0, *range(1, LEVELS + 1), *range(1, LEVELS + 1))), False)
    call, node = Call(path), slot.get()
    sets = {"struct": [set_in_struct], "numbers": [set_in_list, set_in_structs], "pointers": [set_in_structs]}
    sets = sets.get(node.sort, [set_in_structs, set_in_list]) if node else [set_in_struct, set_in_structs]
    if node and node.sort == "numbers" and node.size == BYTE:
        sets = [write_blob, write_blob, set_in_list]
    if rng.randrange(20) == 0:
        sets = [set_in_struct, set_in_structs, set_in_list, write_blob]
    way = rng.choice([new_value, new_blob, got_value, copied_value, copied_content, rng.choice(sets), rng.choice(sets)])
    try:
        way(rng, call, slot, other) if way in (copied_value, copied_content) else way(rng, call, slot)
    except Refused as refused:
        call.answer = str(refused)
    except OverflowError:
        call = Call([*path, 7])
        call.do = lambda: slot.put(None)
    return call


class Script:
    """A pair of messages: its lines, and which call each line tells of."""

    def __init__(self, seed):
        self.seed, self.refused, self.states, self.counts = seed, {}, {}, collections.Counter()
        self.play()

    def segments(self, rng, message):
        """A line of the words that a message's segments have at least."""
        return f"5 {message} " + " ".join(map(str, [it := rng.randrange(2, 25), *(rng.randrange(13) for _ in range(it))]))

    def play(self):
        """Makes the calls; those that the program refused for room or a limit are refused."""
        rng, trees = random.Random(self.seed), ([None], [None])
        self.lines = ["0 1 1", self.segments(rng, 0), self.segments(rng, 1)]
        self.calls, self.answers, self.looks, self.counts = [], {}, {}, collections.Counter()
        for number in range(PAIR):
            message = number % 2
            call = any_call(rng, Slot(trees[message], 0), Slot(trees[1 - message], 0))
            self.calls.append(call)
            letter = self.refused.get(number) or ("g" if call.limit is not None and call.limit < call.costs[0] else None)
            self.lines.append(f"8 {'-' if call.limit is None else call.limit} 64 4096")
            self.lines.append(f"2 {message} " + " ".join(map(str, call.words)))
            if letter:
                call.left[self.states.get(number, 0)]()
            elif call.answer[0] == "k" or call.answer == "x":
                call.do()
            self.answers[len(self.lines)] = number
            self.lines.append(f"= e{letter}" if letter else f"= {call.answer}")
            self.counts[f"refused for {'room' if letter == 'm' else 'a limit'}" if letter else "done" if call.answer[0] == "k" else "refused"] += 1
            if letter or number % LOOKED_AT == 0 or number == PAIR - 1:
                self.lines.append(f"1 {framed(trees[0][0])} {framed(trees[1][0])}")
                self.looks[len(self.lines)] = number

    def correct(self, line, answer):
        """Takes a refusal into account that the rules leave open; any other difference ends the run."""
        letter, number = LETTERS.get(answer), self.answers.get(line)
        if number is not None and letter and number not in self.refused and self.calls[number].may_be(letter):
            self.refused[number] = letter
            return self.play()
        number = self.looks.get(line)
        is_refused = number is not None and (number in self.refused or self.lines[line - 2].startswith("= eg"))
        if is_refused and self.states.get(number, 0) + 1 < len(self.calls[number].left):
            self.states[number] = self.states.get(number, 0) + 1
            return self.play()
        said = "\n".join(self.lines[:3] + self.lines[max(line - 6, 3) : line + 1])
        raise Differs(f"pair {self.seed}, line {line}: {answer}\n{said}")


def differences(program, scripts, folder):
    """The scripts that differ, each with the line and its answer."""
    with open(os.path.join(folder, "scripts"), "w", encoding="utf-8") as file:
        for it in scripts:
            file.write("\n".join(it.lines) + "\n")
    run = subprocess.run([program, "scripts"], cwd=folder, capture_output=True, text=True, check=False)
    found = [(int(line), answer) for line, answer in DIFFERS.findall(run.stdout)]
    if f"{len(scripts) - len(found)} scripts of scripts are as they should be" not in run.stdout or (run.returncode == 0) != (not found):
        raise Differs(f"status {run.returncode}: {run.stdout[-500:]}{run.stderr[-500:]}")
    first, at = 1, iter(scripts)
    script = next(at)
    for line, answer in found:
        while line > first + len(script.lines):
            first, script = first + len(script.lines), next(at)
        yield script, line - first, answer


def main(program, calls=CALLS):
    """Prints the counts, and returns the status."""
    program, counts = os.path.abspath(program), collections.Counter()
    everything = [Script(seed) for seed in range(int(calls) // PAIR)]
    left = everything
    with tempfile.TemporaryDirectory() as folder:
        try:
            while left:
                differing = list(differences(program, left, folder))
                for script, line, answer in differing:
                    script.correct(line, answer)
                left = [it for it, _, _ in differing]
        except Differs as differs:
            print(differs)
            return 1
    for it in everything:
        counts += it.counts
    print(f"builder calls: {', '.join(f'{what} {count}' for what, count in sorted(counts.items()))}")
    return int(len(counts) < 4)


if __name__ == "__main__":
    if sys.argv[1:] in (["-h"], ["--help"]):
        sys.exit(print(__doc__))
    sys.exit(main(*sys.argv[1:]))
