#!/usr/bin/env python3
"""Respells the definitions, fields and lemmas of crates/ as the language's library spells its own.

usage: respell.py [TOP]      once, at the top of the repository, after the toolchain's port.py

Definitions, fields and lemmas are in snake case. A dash joins two names that both exist ("length-held"), and a fact keeps
its capital ("Good-act"); any other word of a name is added with "_". Names that Rattle makes, functions of src/, strings,
inputs and outputs are not touched: no name below is one of theirs. Refuses, and changes nothing, where a new name
already stands in one of the files of its crate.
"""
import os, re, sys

DEFINITIONS = {
    "bytecode": """
        place-stays:place_stays part-is:part_is rest-is:rest_is in-range:operands_in_range
        fileNumber:file_number unitNumber:unit_number shortNumber:short_number readNumber:read_number
        dropsOf:drops_of argOf:arg_of
    """,
    "machine": """
        endingNumber:ending_number isKind:is_kind flagIn:flag_in sameZ:same_z stackAfter:stack_after turnAt:turn_at
        onTurn:on_turn wholeRun:whole_run thenIn:then_in poppedNumber:popped_number poppedFlag:popped_flag
        droppedBy:dropped_by putOrTrap:put_or_trap
    """,
    "derricksage": "",
}

LEMMAS = {
    "bytecode": """
        again-is:again_is arg-fits:arg_fits be16-of:be16_of be32-toZ:be32-to_z toZ-be32:to_z-be32 blank-all:blank_all
        body-long:body_long bytes-long:bytes_long code-file:code_file computed-is:computed_is encoded-from:encoded_from
        encoded-one:encoded_one file-long:file_long file-summed:file_summed flag-fits:flag_fits
        head-is:head_is in-range-at:in_range_at joined-front:joined_front joined-long:joined_long joined-part:joined_part
        joined-parts:joined_parts last-is:last_is low-16:low_16 no-fault:no_fault no-file-fault:no_file_fault
        one-fault:one_fault one-file-fault:one_file_fault one-instr:one_instr one-outcome:one_outcome
        put-after:put_after read-from:read_from read-stops:read_stops reads-back:reads_back rest-long:rest_long
        same-from-spells:same_from_spells same-unit:same_unit sfits-in32:SFits-in32 sized-from:sized_from
        sound-from:sound_from spells-from-same:spells_from_same steps-write:steps_write summed-from:summed_from
        summed-says:summed_says whole-file:whole_file word-one:word_one write-back:write_back write-more:write_more
        writes-back:writes_back written-front:written_front
    """,
    "machine": """
        answer-alike:answer_alike dead-step:dead_step from-alike:from_alike nth-set-other:slice_get-slice_set_other
        turn-out:turn_out turn-set:turn-slice_set same-turns:same_turns turned-alike:turned_alike
        answered-same:answered_same asks-able:asks_able below-push:below_push divided-is:divided_is drop-jmp:drop_jmp
        drop-later:drop_later dup-way:dup_way follow-on:follow_on follow-to:follow_to free-arrives:Free-arrives
        good-act:Good-act good-branched:Good-branched good-combined:Good-combined good-cond:Good-cond
        good-copied:Good-copied good-dropped:Good-dropped good-exchanged:Good-exchanged good-given:Good-given
        good-literal:Good-literal good-loaded:Good-loaded good-negated:Good-negated good-onto:Good-onto
        good-operated:Good_operated good-room:Good_room good-stored:Good-stored good-taken:Good-taken
        good-then:Good-then_in good-way:Good_way holds-any:holds_any le-less:le_less lit-way:lit_way
        load-way:load_way mag-neg:mag-neg_ℤ mag-quot:mag-quot_z moved-rest:moved_rest next-inside:next_inside
        next-some:next_some only-false:only_false operation-way:operation_way quot-wraps:quot_wraps
        reached-inside:reached_inside read-lands:read_lands rest-lands:rest_lands run-spent:run_spent
        short-below:short_below stays-inside:stays_inside store-way:store_way stuck-inapplicable:stuck_inapplicable
        within-arrives:Within-arrives within-proceeds:Within-proceeds within-tests:Within-tests within-turn:Within-turn
        wrapped-bits:wrapped_bits write-lands:write_lands
    """,
    "derricksage": "long-enough:long_enough just-the-file:just_the_file",
}

# a name of antt goes on over these
PART = r"[\w'′\-]"


def pairs(table):
    return {crate: dict(pair.split(":") for pair in text.split()) for crate, text in table.items()}


def sources(top, crate):
    for folder in ("src", "specs", "proofs"):
        for here, _, names in os.walk(os.path.join(top, "crates", crate, folder)):
            for name in sorted(names):
                if name.endswith((".rt", ".antt")):
                    yield os.path.join(here, name)


def read(path):
    with open(path, encoding="utf-8") as f:
        return f.read()


def word(name):
    return re.compile(f"(?<!{PART}){re.escape(name)}(?!{PART})")


def main():
    top = sys.argv[1] if len(sys.argv) > 1 else "."
    tables = [pairs(DEFINITIONS), pairs(LEMMAS)]
    files = {path: crate for crate in DEFINITIONS for path in sources(top, crate)}
    texts = {path: read(path) for path in files}
    taken = [
        f"{path}: {new} is there already"
        for path, crate in files.items()
        for table in tables
        for new in table[crate].values()
        if word(new).search(texts[path])
    ]
    if taken:
        sys.exit("\n".join(taken))
    # a crate's names are used in the crates above it too, and no two crates give one name two spellings
    names = {}
    for table in tables:
        for crate in table.values():
            for old, new in crate.items():
                assert names.setdefault(old, new) == new, old
    pattern = re.compile(f"(?<!{PART})(?:{'|'.join(map(re.escape, sorted(names, key=len, reverse=True)))})(?!{PART})")
    changed = 0
    for path, text in texts.items():
        new = pattern.sub(lambda m: names[m.group(0)], text)
        if new != text:
            changed += 1
            with open(path, "w", encoding="utf-8") as f:
                f.write(new)
    print(f"respell: {changed} files changed")


main()
