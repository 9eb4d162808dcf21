// Drives a browser without a window: Chromium with Debian's chromedriver, and Firefox with its own protocol, because
// Debian has no geckodriver. Both support WebDriver's commands.
import { spawn } from "node:child_process";
import { once } from "node:events";
import { mkdtempSync, readFileSync, rmSync, writeFileSync } from "node:fs";
import { connect } from "node:net";
import { tmpdir } from "node:os";
import { join } from "node:path";

const pause = (milliseconds) => new Promise((done) => setTimeout(done, milliseconds));
const reference = "element-6066-11e4-a52e-4f735466cecf";

/** Calls `attempt` until it returns something, for at most this number of seconds. */
export async function waitFor(what, seconds, attempt) {
  let fault;
  for (const end = Date.now() + 1000 * seconds; Date.now() < end; await pause(50)) {
    try {
      const result = await attempt();
      if (result) return result;
    } catch (error) {
      fault = error;
    }
  }
  throw new Error(`waited ${seconds} s for ${what}${fault ? `: ${fault.message}` : ""}`);
}

/** Starts a program in its own directory. Returns the directory, and functions that return its output and end it. */
function start(program, words, prepare = () => {}) {
  const folder = mkdtempSync(join(tmpdir(), "browser-"));
  prepare(folder);
  const child = spawn(program, words.map((word) => word.replace("FOLDER", folder)),
    { stdio: ["ignore", "pipe", "ignore"], env: { ...process.env, HOME: folder, TMPDIR: folder } });
  const gone = once(child, "exit");
  let text = "";
  child.stdout.on("data", (part) => text += part);
  child.on("error", () => {});
  const end = async () => {
    child.kill();
    await Promise.race([gone, pause(5000)]);
    if (child.exitCode === null) child.kill("SIGKILL");
    rmSync(folder, { recursive: true, force: true, maxRetries: 5, retryDelay: 200 });
  };
  return { folder, printed: () => text, end };
}

async function chromium() {
  const { folder, printed, end } = start("chromedriver", ["--port=0"]);
  const port = await waitFor("chromedriver", 20, () => /successfully on port (\d+)/.exec(printed())?.[1]);
  const send = async (method, path, body) => {
    const answer = await fetch(`http://127.0.0.1:${port}${path}`, { method, body: body && JSON.stringify(body) });
    const { value } = await answer.json();
    if (!answer.ok) throw new Error(value.message);
    return value;
  };
  const args = ["--headless=new", "--no-sandbox", "--disable-dev-shm-usage", "--window-size=1000,760",
    `--user-data-dir=${folder}/profile`];
  const wanted = { alwaysMatch: { browserName: "chrome", "goog:chromeOptions": { args } } };
  const { sessionId, capabilities } = await send("POST", "/session", { capabilities: wanted });
  const path = `/session/${sessionId}`;
  return {
    version: `Chromium ${capabilities.browserVersion}`,
    open: (url) => send("POST", `${path}/url`, { url }),
    run: (script, ...words) => send("POST", `${path}/execute/sync`, { script, args: words }),
    find: async (value) => (await send("POST", `${path}/element`, { using: "css selector", value }))[reference],
    type: (element, text) => send("POST", `${path}/element/${element}/value`, { text }),
    label: (element) => send("GET", `${path}/element/${element}/computedlabel`),
    picture: () => send("GET", `${path}/screenshot`),
    end: async () => {
      await send("DELETE", path).catch(() => {});
      await end();
    },
  };
}

/** Firefox's own protocol: `LENGTH:[0, NUMBER, COMMAND, ARGUMENTS]`, with the reply `[1, NUMBER, ERROR, RESULT]`. */
async function marionette(port) {
  const socket = connect(port, "127.0.0.1");
  await once(socket, "connect");
  const waiting = new Map();
  let [bytes, count] = [Buffer.alloc(0), 0];
  socket.on("data", (part) => {
    bytes = Buffer.concat([bytes, part]);
    for (;;) {
      const at = bytes.indexOf(":");
      const length = Number(bytes.subarray(0, at));
      if (at < 0 || bytes.length < at + 1 + length) return;
      const message = JSON.parse(bytes.subarray(at + 1, at + 1 + length));
      bytes = bytes.subarray(at + 1 + length);
      if (Array.isArray(message)) waiting.get(message[1])(message);
    }
  });
  return async (command, words = {}) => {
    const number = ++count;
    const text = JSON.stringify([0, number, command, words]);
    const [, , fault, result] = await new Promise((done) => {
      waiting.set(number, done);
      socket.write(`${Buffer.byteLength(text)}:${text}`);
    });
    if (fault) throw new Error(fault.message);
    return result;
  };
}

async function firefox(program) {
  const { folder, end } = start(program, ["--headless", "--marionette", "--profile", "FOLDER", "--no-remote"],
    (folder) => writeFileSync(join(folder, "user.js"), 'user_pref("marionette.port", 0);\n'));
  const port = await waitFor("Firefox", 30, () => readFileSync(join(folder, "MarionetteActivePort"), "utf8"));
  const send = await marionette(Number(port));
  const { capabilities } = await send("WebDriver:NewSession", { capabilities: {} });
  return {
    version: `Firefox ${capabilities.browserVersion}`,
    open: (url) => send("WebDriver:Navigate", { url }),
    run: async (script, ...args) => (await send("WebDriver:ExecuteScript", { script, args })).value,
    find: async (value) =>
      (await send("WebDriver:FindElement", { using: "css selector", value })).value[reference],
    type: (id, text) => send("WebDriver:ElementSendKeys", { id, text }),
    label: async (id) => (await send("WebDriver:GetComputedLabel", { id })).value,
    picture: async () => (await send("WebDriver:TakeScreenshot", { full: false })).value,
    end,
  };
}

/** Starts the browser with this program's name. */
export function browse(program) {
  return program === "chromium" ? chromium() : firefox(program);
}
