// The part of node:test that the tests need, for browsers. Each test runs after the previous one.

/** The results of the tests so far. */
export let results = Promise.resolve([]);

export function test(name, call) {
  results = results.then(async (before) => {
    const fault = await Promise.resolve().then(call).then(() => undefined, String);
    return [...before, { name, fault }];
  });
}
