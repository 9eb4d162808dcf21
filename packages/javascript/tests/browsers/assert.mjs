// The part of node:assert that the tests need, for browsers.

/** Returns a value as text, with its type. */
function show(value) {
  if (ArrayBuffer.isView(value) || Array.isArray(value)) return `[${Array.from(value, show)}]`;
  return typeof value === "bigint" ? `${value}n` : JSON.stringify(value) ?? String(value);
}

function check(holds, text) {
  if (!holds) throw new Error(text);
}

/** Checks that the thrown value has these members. */
function checkFault(fault, wanted) {
  check(fault !== undefined, "nothing is thrown");
  for (const [key, value] of Object.entries(wanted)) {
    const holds = value instanceof RegExp ? value.test(fault[key]) : fault[key] === value;
    check(holds, `${key} is ${show(fault[key])}, and not ${value}`);
  }
}

export default {
  ok: (value) => check(value, "is not true"),
  equal: (left, right) => check(Object.is(left, right), `${show(left)} is not ${show(right)}`),
  notEqual: (left, right) => check(!Object.is(left, right), `${show(left)} twice`),
  deepEqual(left, right) {
    check(left.constructor === right.constructor && show(left) === show(right),
      `${show(left)} is not ${show(right)}`);
  },
  throws(call, wanted) {
    let fault;
    try {
      call();
    } catch (error) {
      fault = error;
    }
    checkFault(fault, wanted);
  },
  rejects: (promise, wanted) => promise.then(() => checkFault(undefined, wanted), (fault) => checkFault(fault, wanted)),
};
