"""Proves that a function returns the hash of the definition for every length, in four steps.

1. `check_short_lengths`: the lengths that do not reach the loop, one by one.
2. `reach_the_head`: the lengths first + turn * turns, where `turns` is unknown: to the loop's head, and one turn more.
   From the two states follows a guess of the state after `done` turns, with a fresh word for all that is not linear.
3. `turn_once`: from that state with done < turns, a turn gives the same state for done + 1, and some fresh words have
   become the definition's folds of themselves: these are the lanes, which were the definition's lanes at the start.
4. `return_at_the_end`: from that state with done = turns, the function returns the definition's end from those lanes.

The loop and the state are guessed from runs. A wrong guess leads to a refusal, and to nothing else."""

import terms
from linear import (POOL, Assumed, Refusal, add, assume, is_kind, known, linear, make, most_turns, name, parts, signed,
                    substitute, subtract)
from model import Definition
from terms import byte, multiply, xor

DEFAULT = (0x2D358DCCAA6C78A5, 0x8BB84B93962EACC9, 0x4B33A62ED433D4A3, 0x4D5A2DA51DE1AA47, 0xA0761D6478BD642F,
           0xE7037ED1A0B428DB, 0x90ED1765281C388C)
FORMS = "_with_secrets", "_with_seed", ""
FIRST = 2000  # the length of the run that finds the loop


class Everywhere:
    def __contains__(self, _):
        return True


def seed_of(word, is_v1):
    """Returns the seed that the definition derives from a word."""
    return xor(word, *multiply(xor(word, DEFAULT[0 if is_v1 else 2]), DEFAULT[1]))


class Hash:
    """Calls a function that hashes a message, and knows what it must return."""
    def __init__(self, machine, version, form):
        is_v1 = version == "v1"
        count = 3 if is_v1 else 7
        self.machine, self.function, self.arguments, self.sizes = machine, machine.symbol(version, form), [], {}
        self.seed, *secrets = 0x763305BBE7BEA536 if is_v1 else 0x422765567D8FBFD6, *DEFAULT[:count]
        if form == "_with_secrets":
            self.seed, *secrets = (make("secret", 64, index) for index in range(count + 1))
            self.arguments, self.sizes = [name("secrets")], {"secrets": 8 * count + 8}
        elif form == "_with_seed":
            self.arguments = [make("seed", 64)]
            self.seed = seed_of(*self.arguments, is_v1)
        self.definition = Definition(version, secrets, terms)

    def begin(self, length, pointer):
        self.machine.begin(self.function, [pointer, length, *self.arguments], length, self.sizes)

    def start(self, length):
        """Returns the lanes, the place from which on bytes are to be folded, and their number."""
        return [self.definition.start(length, self.seed)] * self.definition.lanes, 0, length

    at_loop = start  # the same at the first turn of the loop

    def check(self, length, lanes, place, rest):
        """Compares what was returned with the definition, from lanes that have folded all before a place."""
        require_equal(self.machine.result(), self.definition.finish(length, lanes, place, rest), "the hash")


def require_equal(found, wanted, what):
    """Refuses another term than the wanted one, and tells of a small part in which they differ."""
    is_same = found == wanted
    while not is_same and is_kind(found, "xor", "low", "high") and is_kind(wanted, found.kind):
        ours, theirs = (set(term.parts[1] if term.kind == "xor" else term.parts) for term in (found, wanted))
        only = [max(part, key=lambda word: getattr(word, "kind", ""), default=None)
                for part in (ours - theirs, theirs - ours)]
        if None in only:
            break
        found, wanted = only
    if not is_same:
        raise Refusal(f"{what} is another term, with {found} and not {wanted}")


def find_loop(call):
    """Returns the head of the first loop, and the bytes of a turn: by how much an address in the message grows."""
    machine, seen = call.machine, {}
    assume(FIRST)
    call.begin(FIRST, name("message"))
    while machine.at not in seen:
        seen[machine.at] = machine.state()
        if not machine.run(Everywhere()):
            raise Refusal("no loop")
    pairs = [(seen[machine.at].get(key), word) for key, word in machine.state().items()]
    turns = {subtract(word, old) for old, word in pairs if word != old and
             all(is_kind(one, "linear") and parts(one)[1].get("message") == 1 for one in (old, word))}
    if len(turns) != 1 or not known(*turns) or min(turns) % call.definition.row:
        raise Refusal(f"turns of {turns} bytes")
    return machine.at, turns.pop()


def check_short_lengths(call, head):
    """Takes step 1. Returns the least length that reaches the loop and is above two limits: the machine's, and the
    version's, up to which a message has no row. A null pointer to no bytes is tried by itself."""
    for length in range(FIRST):
        call.lengths = f"length {length}"
        assume(length)
        for pointer in (name("message"), 0)[:1 + (length == 0)]:
            call.begin(length, pointer)
            if call.machine.run([head] * (length > max(call.machine.limit, call.definition.limit))):
                return length
            call.check(length, *call.start(length))
    raise Refusal("no length reaches the loop")


def reach_the_head(call, head, length, most):
    """Takes step 2. Returns the general state, and what its fresh words are before the first turn."""
    assume(length, 0, most)
    call.begin(length, name("message"))
    states = []
    for least in (0, 1):
        assume(length, least, most)
        if not call.machine.run([head]):
            raise Refusal("does not reach the loop")
        states.append(call.machine.state())
    general = generalise(*states)
    return general, match(general, states[0], 0)


def word_of(value):
    """Returns the word of which a byte of memory is a part, and the index of the byte; a register has no index."""
    return value.parts if is_kind(value, "byte") else (value, None)


def word_at(state, key, index):
    """Returns the same of the value at a key. A byte of memory that is a number, where another state has the byte at
    `index` of a word, is a part of the number in the eight bytes there."""
    word, own = word_of(state.get(key))
    if own is None and index is not None and key[0] != "word":
        these = [state.get((key[0], key[1] - index + at)) for at in range(8)]
        if all(isinstance(one, int) for one in these):
            return int.from_bytes(bytes(these), "little"), index
    return word, own


def generalise(before, after):
    """Guesses the state after `done` turns. What is equal stays, a linear word that grows by a constant has it times
    `done`, and all else is a fresh word, the same for the same two words. Other bytes of memory are forgotten."""
    general, fresh = {}, {}
    for key, value in before.items():
        new, other = word_of(after.get(key, value))
        old, index = word_at(before, key, other)
        grows = subtract(new, old) if is_kind(old, "linear") and is_kind(new, "linear") else None
        if value == after.get(key, value):
            general[key] = value
        elif index == other and (index is not None or key[0] == "word"):
            word = add(old, name("done"), signed(grows)) if known(grows) else \
                fresh.setdefault((old, new), make("after", 64, len(fresh)))
            general[key] = word if index is None else byte(word, index)
    return general


def general_at(general, done):
    """Returns the general state after so many turns."""
    moved = {}
    for key, value in general.items():
        word, index = word_of(value)
        word = substitute(word, "done", done)
        moved[key] = word if index is None else byte(word, index)
    return moved


def match(general, actual, done):
    """Returns what each fresh word stands for, if an actual state is the general one; else refuses."""
    meaning = {}
    for key, value in general_at(general, done).items():
        word, index = word_of(value)
        found, other = word_at(actual, key, index)
        if is_kind(word, "after") and index == other:
            word = meaning.setdefault(word, found)
        if word != found or index != other:
            raise Refusal(f"a turn does not keep the state: {key} is {found}, and not {word}")
    return meaning


def turn_once(call, head, turn, length, most, general, before):
    """Takes step 3. Returns the fresh words that are the lanes."""
    definition, done, lanes, (starts, origin, _) = call.definition, name("done"), [], call.at_loop(length)
    assume(length, 1, most, is_turning=True)
    call.machine.resume(general_at(general, done), head)
    if not call.machine.run([head]):
        raise Refusal("the loop ends early")
    after, place = match(general, call.machine.state(), add(done, 1)), add(origin, done, turn)
    for index, start in enumerate(starts):
        found = []
        for word in (word for word in after if before[word] == start):
            folded = word
            for row in range(0, turn, definition.row):
                folded = definition.fold(folded, index, add(place, row + 16 * index))
            found += [word] * (after[word] == folded)
        if not found:
            raise Refusal(f"no word is lane {index}, which folds the pair at {place} + {16 * index}")
        lanes.append(found[0])
    return lanes


def return_at_the_end(call, head, turn, length, most, general, lanes):
    """Takes step 4. The bytes that remain after the last turn have a known number."""
    turns, (_, origin, rest) = name("turns"), call.at_loop(length)
    assume(length, 0, most)
    call.machine.resume(general_at(general, turns), head)
    if call.machine.run():
        raise Refusal("does not return")
    call.check(length, lanes, add(origin, turns, turn), add(rest, turns, -turn))


def prove(make_call):
    """Shows that the function of a call is the definition for every length, or refuses. Returns what it did."""
    call = make_call()
    Assumed.low, Assumed.top, call.lengths = call.machine.low, call.machine.top, f"length {FIRST}"
    try:
        head, turn = find_loop(call)
        least = check_short_lengths(call, head)
        for first in range(least, least + turn):
            POOL.clear()
            call, length = make_call(), linear(first, {"turns": turn})
            call.lengths, most = f"lengths {length}", most_turns(first, turn)
            general, before = reach_the_head(call, head, length, most)
            lanes = turn_once(call, head, turn, length, most, general, before)
            return_at_the_end(call, head, turn, length, most, general, lanes)
    except Refusal as refusal:
        raise Refusal(f"{call.function}, {call.lengths}: {refusal}") from None
    return f"{least} lengths one by one, then {turn} classes of lengths"
