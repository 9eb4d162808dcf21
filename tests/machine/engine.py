"""Compares the rules of WebAssembly with node, over random numbers, and runs code that must be refused."""

import json
import random

import webassembly
from cases import ROOM, shell
from linear import Assumed, Refusal, assume, linear, name

# Functions for branches, calls and stores: their type and code.
CODES = {
    "loop": ("i32 i32", "i32", "loop local.get 0 local.get 1 i32.add local.set 0 local.get 0 i32.const 9999 i32.lt_u "
             "br_if 0 end local.get 0"),
    "leave": ("i32 i32", "i32", "block block local.get 0 local.get 1 i32.lt_u br_if 1 local.get 0 i32.const 7 i32.eq "
              "br_if 0 i32.const 5 return end i32.const 6 return end local.get 1 i32.const 1 i32.add"),
    "skip": ("i32 i32", "i32", "i32.const 9 block local.get 0 br 0 end local.get 1 i32.sub"),
    "tee": ("i32 i32", "i32", "local.get 0 local.tee 1 local.get 1 i32.add"),
    "dead": ("i32 i32", "i32", "local.get 0 local.get 1 return block (result i32) i32.const 0 end"),
    "call": ("i32 i32", "i32", "local.get 1 local.get 0 call $leave"),
}
REFUSED = {
    "f64_load": ("i32", "f64", "local.get 0 f64.load", "no rule"),
    "f32_load": ("i32", "f32", "local.get 0 f32.load", "no rule"),
    "v128_load": ("i32", "v128", "local.get 0 v128.load", "no rule"),
    "wraps": ("i32", "i32", "local.get 0 i32.const 2147483647 i32.add i32.const 5 i32.lt_u", "leave 32 bits"),
    "undecided": ("i32", "i32", "local.get 0 i32.const 99999 i32.lt_u", "not decided"),
    "past": ("i32", "i64", "local.get 0 i64.load offset=1993", "a read of 8 bytes"),
}
LOW = "local.get 0 i64.extend_i32_u i64.const 63 i64.and i32.wrap_i64"  # an address below 64
NODE = """const {calls, memory} = JSON.parse(fs.readFileSync(0));
const {exports} = new WebAssembly.Instance(new WebAssembly.Module(fs.readFileSync("engine.wasm")));
for (const [name, ...words] of calls) {
    new Uint8Array(exports.memory.buffer).set(memory);
    const result = exports[name](...words.map((word) => word[0] === "i32" ? Number(word[1]) : BigInt(word[1])));
    console.log(String(BigInt.asUintN(typeof result === "number" ? 32 : 64, BigInt(result))));
}"""


def functions():
    """Yields the name, the arguments, the result and the code of a function for each instruction."""
    for text in webassembly.OF_TWO:
        kind, _, action = text.partition(".")
        yield text.replace(".", "_"), f"{kind} {kind}", "i32" if action in ("lt_u", "gt_u", "ge_u", "eq") else kind, \
            f"local.get 0 local.get 1 {text}"
    for text in webassembly.OF_ONE:
        yield text.replace(".", "_"), "i64" if "wrap" in text else "i32", text.partition(".")[0], f"local.get 0 {text}"
    for kind, action in [("i64", one) for one in webassembly.SIZES] + [
            ("i32", one) for one in webassembly.SIZES if "32" not in one]:
        full = f"{kind}.{action}"
        yield full.replace(".", "_"), "i32", kind, (f"{LOW} {full} offset=3" if "load" in action else
                                  f"i32.const 16 local.get 0 {'i64.extend_i32_u' * (kind == 'i64')} {full} "
                                  f"i32.const 12 {kind}.load")
    yield from ((label, *one) for label, one in CODES.items())
    yield from ((label, *one[:3]) for label, one in REFUSED.items())


class Alone(webassembly.Machine):
    """Has only bytes at addresses that are numbers."""
    def locate(self, address, size, is_write=False):
        return "space", address


def engine_agrees(draw=random.Random(1), times=20):
    """Runs each function of random numbers by node and by the rules. Yields what differs, and what is not refused."""
    these = [*functions()]
    (ROOM / "engine.wat").write_text("(module (memory (export \"memory\") 1)" + "".join(
        f'(func ${label} (export "{label}") (param {given}) (result {result}) {code})\n'
        for label, given, result, code in these) + ")")
    (ROOM / "engine.mjs").write_text('import fs from "node:fs";\n' + NODE)
    memory, choices = list(draw.randbytes(96)), [0, 1, 2, 7, 31, 32, 63, 64, 9998, webassembly.HALF, 1 << 31]
    calls = [[label, *((kind, draw.choice(choices + [draw.getrandbits(32), draw.getrandbits(64)]) &
                        (webassembly.HALF if kind == "i32" else ~0)) for kind in given.split())]
             for label, given, *_ in these if label not in REFUSED for _ in range(times)]
    calls = [call if call[0] != "loop" else ["loop", call[1], ("i32", 1 + draw.randrange(999))] for call in calls]
    (ROOM / "calls").write_text(json.dumps({"calls": [[label, *((kind, str(word)) for kind, word in words)]
                                                      for label, *words in calls], "memory": memory}))
    status, said = shell("cd $ROOM && wat2wasm engine.wat && node engine.mjs <calls")
    assert status == 0, said
    module = webassembly.Module(ROOM / "engine.wasm")
    for (label, *words), real in zip(calls, map(int, said.split()), strict=True):
        machine = Alone(module)
        machine.begin(label, [word for _, word in words], 0, {})
        machine.memory = {("space", at): one for at, one in enumerate(memory)}
        machine.run()
        if machine.result() != real:
            yield f"{label} of {words} is {real}, and not {machine.result()}"
    yield from not_refused(module)


def not_refused(module):
    """Yields code that is accepted, though it must be refused, or is refused for another reason."""
    Assumed.low, Assumed.top = webassembly.Machine.low, webassembly.Machine.top
    for label, (*_, wanted) in REFUSED.items():
        assume(linear(2000, {"turns": 112}), 0, 1 << 20)
        machine = webassembly.Machine(module)
        machine.begin(label, [name("message")], 2000, {})
        try:
            reason = f"accepted: {machine.run()}"
        except Refusal as refusal:
            reason = str(refusal)
        yield from [f"{label}: {reason}"] * (wanted not in reason)
