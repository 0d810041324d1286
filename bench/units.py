#!/usr/bin/env python3
"""Writes the unit files on which the bench measures.

usage: units.py OUT-FOLDER

Makes OUT-FOLDER and writes into it straight-N.unit, branching-N.unit and loops-N.unit, of N instructions each, for N of
8, 32, 64 and 128, and the units that the interpreter runs: countdown.unit, stores.unit and division.unit.
The bytes are the same every time.
"""
import os
import sys

NAMES = "NOP HALT LIT LITF POP DUP SWAP LOAD STORE ADD SUB MUL DIV EQ LT NOT JMP JF DJMP IN OUT".split()
CODES = {name: code for code, name in enumerate(NAMES)}
JUMPS = {"JMP", "JF", "DJMP"}
LAST = {"HALT", "JMP", "DJMP"}
LOCAL = {"LOAD", "STORE"}
WITH_ARGUMENT = JUMPS | LOCAL | {"LIT", "LITF"}
SIZES = (8, 32, 64, 128)
MOST_LOCALS = 16


# Pieces of code. A jump counts from its own place, so a piece means the same wherever it stands.


def piece(text):
    """The instructions of a listing, as pairs of a name and an argument: `;` and line ends part them, `here:` before one
    names its place for the jumps of the same listing, and a name after the last instruction is the place that follows."""
    found, places = [], {}
    for word in text.replace("\n", ";").split(";"):
        while ":" in word:
            label, word = word.split(":", 1)
            places[label.strip()] = len(found)
        if word.strip():
            found.append(word.split())
    return [instruction(place, words, places) for place, words in enumerate(found)]


def instruction(place, words, places):
    """One instruction of a listing, its argument counted from its own place where it names one."""
    name, arguments = words[0], words[1:]
    assert len(arguments) == (name in WITH_ARGUMENT), words
    if name in JUMPS:
        return name, places[arguments[0]] - place
    return name, int(arguments[0]) if arguments else 0


def cycle(pieces, count):
    """The first `count` pieces of a list of functions of the turn, taken in turn, one after another."""
    return [one for turn in range(count) for one in pieces[turn % len(pieces)](turn)]


# straight: no jumps; eight instructions a piece.


def folded(turn):
    """A sum and a product of constants, through a store that is dead once its loads are folded."""
    x = turn % MOST_LOCALS
    return piece(f"LIT {turn + 2}; LIT {turn + 5}; ADD; STORE {x}; LOAD {x}; LIT {turn + 3}; MUL; OUT")


def kept(turn):
    """Stores of an input and of what is made from it, which nothing can tidy, and a load of the known local before."""
    x, y, z = ((turn + more) % MOST_LOCALS for more in (-1, 0, 1))
    return piece(f"IN; STORE {y}; LOAD {y}; LOAD {x}; SUB; STORE {z}; LOAD {z}; OUT")


def overwritten(turn):
    """A store that another makes dead at once."""
    x = (turn + 1) % MOST_LOCALS
    return piece(f"LIT {turn}; STORE {x}; LIT {turn + 4}; STORE {x}; IN; LOAD {x}; DIV; OUT")


def compared(turn):
    """A known comparison, turned round and stored for nobody."""
    x = (turn + 1) % MOST_LOCALS
    return piece(f"IN; LIT {turn}; LIT {turn + 1}; EQ; NOT; SWAP; OUT; STORE {x}")


def straight(size):
    last = piece("IN; LIT 7; STORE 0; LOAD 0; SWAP; SUB; OUT; HALT")
    return cycle([folded, kept, overwritten, compared], (size - len(last)) // 8) + last


# branching: forward jumps only; twelve instructions a piece, and eight in two of them.


def diamond(turn):
    """Two arms that store and meet again, chosen by an input or by an earlier local, with code after the jump that no
    run comes to. In one of three both arms store the same number."""
    x, earlier = turn % MOST_LOCALS, (turn - 2) % MOST_LOCALS
    value = f"LOAD {earlier}" if turn in (2, 5, 8) else "IN"
    first, second = turn + 10, turn + (10 if turn % 3 == 2 else 20)
    return piece(f"""
        {value}; LIT 5000000; LT; JF second
        LIT {first}; STORE {x}; JMP meet; LIT 1
        second: LIT {second}; STORE {x}
        meet: LOAD {x}; OUT
    """)


def decided(turn):
    """The same with a comparison that is known, so that one arm is never run."""
    x = turn % MOST_LOCALS
    return piece(f"""
        LIT {turn}; LIT {turn + turn % 2}; EQ; JF second
        LIT {turn + 10}; STORE {x}; JMP meet; LIT 1
        second: LIT {turn + 20}; STORE {x}
        meet: LOAD {x}; OUT
    """)


def one_arm():
    """An output that a comparison of the input may skip."""
    return piece("IN; DUP; LIT 5000000; LT; JF skip; DUP; OUT; skip: POP")


def branching(size):
    last = piece("IN; LIT 10; LT; JF second; JMP meet; second: LIT 3; STORE 0; meet: HALT")
    front = one_arm() if size == 64 else []
    return front + cycle([diamond, decided, diamond], (size - len(front) - len(last)) // 12) + last


# loops: a chain of locals in which each takes over from the next, and the last takes another constant in the inner loop.
# So one more local stops being known in each round of the analysis, and liveness goes back over the same edges.


def start_chain(chain):
    return "; ".join(f"LIT 1; STORE {x}" for x in range(chain))


def move_chain(chain):
    return "; ".join(f"LOAD {x + 1}; STORE {x}" for x in range(chain - 1))


def multiply_chain(chain):
    return "; ".join(f"LOAD {x}; LOAD {x + 1}; MUL; STORE {x}" for x in range(chain))


def second_inner():
    return f"""
        third: IN; LIT 4000000; LT; NOT; JF done
        {multiply_chain(10)}
        LOAD 0; OUT; JMP third
        done:
    """


def nested(chain, more):
    """An outer loop with a part that folds and an inner loop that moves the chain. No input is below zero, so that a run
    stays in the outer loop until its budget is spent."""
    return piece(f"""
        {start_chain(chain)}
        LIT 7; STORE 15
        outer: IN; LIT 0; LT; NOT; JF leave
        LOAD 15; LIT 6; MUL; OUT
        LOAD 0; OUT
        inner: IN; LIT 12000000; LT; JF out
        {move_chain(chain)}
        LIT 2; STORE {chain - 1}; JMP inner
        out: {more}
        JMP outer
        leave: HALT
    """)


def loops(size):
    if size == 8:
        return piece("LIT 1; STORE 0; again: LOAD 0; OUT; LIT 2; STORE 0; JMP again; JMP again")
    return nested({32: 3, 64: 11, 128: 15}[size], second_inner() if size == 128 else "")


# The units that the interpreter runs; each spends any budget that the bench gives.


def countdown():
    """Some 2^31 rounds of eight instructions."""
    return piece("""
        LIT 2147483647; STORE 0
        again: LOAD 0; LIT 1; SUB; STORE 0; LOAD 0; LIT 0; EQ; JF again
        HALT
    """)


def stores():
    """The sign of a sequence without an end chooses between two arms."""
    return piece("""
        LIT 1; STORE 0; LIT 0; STORE 1; LIT 0; STORE 2
        again: LOAD 0; LIT 1103515245; MUL; LIT 12345; ADD; STORE 0
        LOAD 0; LIT 0; LT; JF other
        LOAD 1; LIT 1; ADD; STORE 1; JMP again
        other: LOAD 2; LOAD 1; ADD; STORE 3; LOAD 3; STORE 2; JMP again
    """)


def division():
    """One input and one output in nine steps."""
    return piece("""
        LIT 7; STORE 0; LIT 0; STORE 1
        again: IN; LOAD 0; DIV; OUT; LOAD 1; LIT 1; ADD; STORE 1; JMP again
    """)


# Files


def locals_of(code):
    return max((argument + 1 for name, argument in code if name in LOCAL), default=0)


def check(code, size=None):
    """Stops at code that is no unit of `size` instructions; what reaches what is for a reader of units to refuse."""
    assert 1 <= len(code) <= 128 and size in (None, len(code)), (size, len(code))
    assert locals_of(code) <= MOST_LOCALS
    assert code[-1][0] in LAST, code[-1]
    for place, (name, argument) in enumerate(code):
        assert -(2**31) <= argument < 2**31, (place, argument)
        assert name in WITH_ARGUMENT or argument == 0, (place, name)
        assert name not in LOCAL or argument >= 0, (place, argument)
        assert name != "LITF" or argument in (0, 1), (place, argument)
        assert name not in JUMPS or 0 <= place + argument < len(code), (place, argument)


def unit_file(code):
    """The bytes of a unit's file; no instruction here drops values under its literal."""
    body = bytes([1, locals_of(code)]) + len(code).to_bytes(2, "big")
    for name, argument in code:
        body += bytes([CODES[name], 0]) + argument.to_bytes(4, "big", signed=True)
    return body + (sum(body) % 65521).to_bytes(2, "big")


def units():
    """All units, as a name, the code and the wanted number of instructions."""
    for shape in (straight, branching, loops):
        for size in SIZES:
            yield f"{shape.__name__}-{size}", shape(size), size
    for unit in (countdown, stores, division):
        yield unit.__name__, unit(), None


def main():
    if len(sys.argv) != 2:
        sys.exit("usage: units.py OUT-FOLDER")
    os.makedirs(sys.argv[1], exist_ok=True)
    for name, code, size in units():
        check(code, size)
        file = unit_file(code)
        assert len(file) == 6 + 6 * len(code)
        with open(os.path.join(sys.argv[1], f"{name}.unit"), "wb") as out:
            out.write(file)


if __name__ == "__main__":
    main()
