"""Shows calls beside the hashes, which have no loop: the secrets of a seed, and a shard."""

from argument import DEFAULT, Refusal, require_equal, seed_of
from linear import Assumed, assume, make, name
from terms import join, multiply


def check_seed_secrets(machine):
    """Compares the structs that are written with the seeds and the default secrets."""
    for version, count in ("", 7), ("v1_", 3):
        word = make("seed", 64)
        machine.begin(f"rapidhash_{version}seed_secrets", [word, name("stream")], 0, {"stream": 8 * count + 8})
        machine.run()
        for index, wanted in enumerate([seed_of(word, count == 3), *DEFAULT[:count]]):
            found = join(machine.memory.get(("stream", 8 * index + at)) for at in range(8))
            require_equal(found, wanted, f"word {index} of {version}seed_secrets")


def check_shard(machine):
    """Compares a shard with the high half of the product of the hash and the count."""
    words = make("hash", 64), make("count", 64)
    machine.begin("shard", words, 0, {})
    machine.run()
    require_equal(machine.result(), multiply(*words)[1], "the shard")


def show_calls(library, shard):
    """Checks the secrets of a library, or the shard of a file, or both. Yields why they are refused."""
    for machine, check in (library, check_seed_secrets), (shard, check_shard):
        try:
            if machine:
                Assumed.low, Assumed.top = machine.low, machine.top
                assume(0)
                check(machine)
        except Refusal as refusal:
            yield str(refusal)
