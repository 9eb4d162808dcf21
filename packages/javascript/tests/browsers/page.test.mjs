// Runs the tests that suite.html lists in the browser that BROWSER names, and uses the page
// packages/javascript/page there. SERVER has both, as `first/suite.html` and `browser`. The files are in FILES. Their
// hashes by each version of the package come from TOOL, the program rapidhash.
import assert from "node:assert/strict";
import { execFileSync } from "node:child_process";
import { readFileSync, rmSync, writeFileSync } from "node:fs";
import { join } from "node:path";
import { after, before, test } from "node:test";

import { loadSync } from "yervound-rapidhash";

import { browse, waitFor } from "./driver.mjs";

const { BROWSER, SERVER, FILES, TOOL, SCREENSHOT } = process.env;
const library = loadSync();
const versions = Object.keys(library).filter((name) => `${name}Hex` in library);

/** Returns the tool's options for a version. */
function optionsOf(version) {
  if (version === "v3Protected") return ["--v3", "--protected"];
  return [`--${version.replace("_", ".").replace(/[A-Z]/, (letter) => `-${letter.toLowerCase()}`)}`];
}

/** Returns the hashes of a file, keyed by version. */
function hashesOf(name) {
  const hash = (words) => execFileSync(TOOL, [...words, join(FILES, name)], { encoding: "utf8" }).trim();
  return Object.fromEntries(versions.map((version) => [version, hash(optionsOf(version))]));
}

// Returns the page's content for each file: how it ended, its progress, and both columns of each version.
const look = `return Object.fromEntries([...document.querySelectorAll("article")].map((article) => [
  article.querySelector("h2").textContent, {
    end: article.dataset.end, part: article.querySelector("progress").value,
    state: article.querySelector(".state").textContent,
    rows: Object.fromEntries([...article.querySelectorAll("tbody tr")].map((row) =>
      [row.dataset.version, [...row.querySelectorAll("td")].map((cell) => cell.textContent)])) }]))`;

let browser;
before(async () => {
  browser = await browse(BROWSER);
  await browser.open(`${SERVER}/browser/index.html`);
});
after(() => browser?.end());

async function choose(...names) {
  await browser.type(await browser.find("#files"), names.map((name) => join(FILES, name)).join("\n"));
}

/** Returns the page's content for a file that has ended, after at most this number of seconds. */
function ended(name, seconds = 20) {
  return waitFor(`the end of ${name}`, seconds, async () => {
    const file = (await browser.run(look))[name];
    return file?.end && file;
  });
}

function compare(rows, wanted) {
  const decimals = Object.fromEntries(Object.entries(rows).map(([version, [, decimal]]) => [version, decimal]));
  assert.deepEqual(decimals, wanted);
  for (const [digits, decimal] of Object.values(rows))
    assert.equal(digits, BigInt(decimal).toString(16).padStart(16, "0"));
}

test("two chosen files, one of 200 MB, as it goes", async () => {
  const hashes = { large: hashesOf("large"), double: hashesOf("double") };
  assert.equal(hashes.large.v3, "17274253787457370873");
  await choose("large", "double");
  const halfway = await waitFor("a part of double", 120, async () => {
    const { double } = await browser.run(look);
    return (double?.part > 0 || double?.end) && double;
  });
  assert.equal((await browser.run(look)).large.end, "done");
  assert.ok(halfway.part < 1);
  assert.match(halfway.state, /^\d[\d,]+ of 200,000,000 bytes$/);
  assert.match(halfway.rows.v3[0], /^[0-9a-f]{16}$/);
  assert.notEqual(halfway.rows.v3[1], hashes.double.v3);
  assert.deepEqual(halfway.rows.v1, ["", ""]);
  for (const [name, wanted] of Object.entries(hashes)) {
    const file = await ended(name, 120);
    assert.equal(file.end, "done");
    assert.equal(file.part, 1);
    compare(file.rows, wanted);
  }
  if (SCREENSHOT) writeFileSync(SCREENSHOT, Buffer.from(await browser.picture(), "base64"));
});

/** Drops a file with the text "hello". */
function drop(name) {
  return browser.run(`const files = new DataTransfer();
    files.items.add(new File(["hello"], arguments[0]));
    document.body.dispatchEvent(
      new DragEvent("drop", { dataTransfer: files, bubbles: true, cancelable: true }))`, name);
}

test("a dropped file", async () => {
  await drop("dropped");
  const { end, rows } = await ended("dropped");
  assert.equal(end, "done");
  assert.deepEqual(rows.v3, ["2e2d7651b45f7946", "3327445792987248966"]);
});

// Without its refusal, a browser would leave the page for a dropped file.
test("events of a drop", async () => {
  const found = await browser.run(`const dataTransfer = new DataTransfer();
    return ["dragenter", "dragover", "dragleave", "dragover", "drop"].map((name) =>
      [document.body.dispatchEvent(new DragEvent(name, { dataTransfer, bubbles: true, cancelable: true })),
        document.getElementById("zone").className])`);
  assert.deepEqual(found, [[false, "over"], [false, "over"], [false, ""], [false, "over"], [false, ""]]);
});

test("an empty file", async () => {
  await choose("empty");
  const { part, rows } = await ended("empty");
  assert.equal(part, 1);
  assert.equal(rows.v3[1], "232177599295442350");
  assert.equal(rows.v1[1], "6516417773221693515");
});

test("a file of more than 1 GiB", async () => {
  await choose("long");
  const { end, rows } = await ended("long", 120);
  assert.equal(end, "done");
  const wanted = hashesOf("long");
  for (const version of versions)
    if (version.replace("v", "V") in library) assert.equal(rows[version][1], wanted[version]);
    else assert.deepEqual(rows[version], ["needs the whole file in memory: here up to 1 GiB, if it is free", ""]);
});

test("stopped files", async () => {
  await choose("long", "double");
  await waitFor("two buttons", 10,
    () => browser.run(`return document.querySelectorAll("article button").length === 2`));
  await browser.run(`for (const button of document.querySelectorAll("article button")) button.click()`);
  await drop("next");
  await ended("next");
  // The files of this choice are above the earlier files with the same names.
  for (const name of ["long", "double"]) {
    const shown = await browser.run(`const all = [...document.querySelectorAll("article")]
      .filter((article) => article.querySelector("h2").textContent === arguments[0]);
      return [all.length, all[0].dataset.end, all[0].querySelector("button")]`, name);
    assert.deepEqual(shown, [2, "stopped", null]);
  }
});

// The file is gone when its turn comes, after a larger one.
test("a file that cannot be read", async () => {
  writeFileSync(join(FILES, "gone"), "gone");
  await choose("double", "gone");
  rmSync(join(FILES, "gone"));
  const { end, state, rows } = await ended("gone", 120);
  assert.match(end, /^could not be hashed: ./);
  assert.equal(state, `4 bytes, ${end}`);
  assert.equal(Object.values(rows).flat().join(""), "");
});

test("keys and names", async () => {
  await browser.open(`${SERVER}/browser/index.html`);
  await browser.type(await browser.find("body"), "\ue004");
  assert.equal(await browser.run("return document.activeElement.id"), "files");
  assert.match(await browser.label(await browser.find("#files")), /^Drop files .* or choose them:/);
  await choose("empty");
  await ended("empty");
  assert.equal(await browser.label(await browser.find("progress")), "Progress of empty");
  assert.equal(await browser.label(await browser.find("table")), "Hashes of empty");
  assert.equal(await browser.run(`return document.querySelector("[role=status]").textContent`), "empty: done");
});

// A worker that loads a style sheet has no script, and one that loads the page has no document.
test("workers that fail, and end", async () => {
  await browser.run(`const { Worker } = window;
    window.ended = [];
    window.Worker = class extends Worker {
      constructor(url, options) {
        super(window.script ?? url, options);
        this.script = window.script;
      }
      terminate() {
        window.ended.push(this.script);
        super.terminate();
      }
    }`);
  for (const [script, reason] of [["style.css", /: worker.mjs does not load$/], ["page.mjs", /document is not/]]) {
    await browser.run("window.script = arguments[0]", script);
    await drop(script);
    const { end } = await ended(script);
    assert.match(end, reason);
  }
  assert.deepEqual(await browser.run("return window.ended"), ["style.css", "page.mjs"]);
});

test("no request of the page", async () => {
  assert.equal(await browser.run(`return fetch("page.mjs").then(() => "sent", () => "refused")`), "refused");
});

test("the package in a browser", async () => {
  console.log(browser.version);
  await browser.open(`${SERVER}/first/suite.html`);
  const results = await waitFor("the suite", 120, () => browser.run("return window.results"));
  assert.deepEqual(results.filter(({ fault }) => fault), []);
  const files = ["known", "refused", "saved", "shared", "cases"];
  const tests = files.flatMap((name) => readFileSync(`${name}.mjs`, "utf8").match(/^test\(/gm));
  assert.equal(results.length, tests.length);
});
