// Hashes the files that a user chooses or drops, one after another, each in its own worker: the page
// stays responsive, and the memory of a worker is freed with it.
import { hex } from "./rapidhash.mjs";

const names = {
  v3: "V3", v3Micro: "V3 micro", v3Nano: "V3 nano", v3Protected: "V3 protected",
  v2_2: "V2.2", v2_1: "V2.1", v2_0: "V2.0", v1: "V1",
};
const zone = document.getElementById("zone");
const input = document.getElementById("files");
const status = document.getElementById("status");
const count = new Intl.NumberFormat("en");
let last = Promise.resolve();

/** Shows a waiting file, with a row for each version, and returns its parts. */
function show(file) {
  const template = document.getElementById("result");
  const article = template.content.cloneNode(true).firstElementChild;
  const [title, progress, state, button, table, rows] =
    ["h2", "progress", ".state", "button", "table", "tbody"].map((name) => article.querySelector(name));
  title.textContent = file.name;
  progress.setAttribute("aria-label", `Progress of ${file.name}`);
  button.setAttribute("aria-label", `Stop ${file.name}`);
  table.setAttribute("aria-label", `Hashes of ${file.name}`);
  state.textContent = `${count.format(file.size)} bytes, waiting`;
  const cells = {};
  for (const [name, text] of Object.entries(names)) {
    const row = rows.insertRow();
    const head = document.createElement("th");
    head.scope = "row";
    head.textContent = text;
    row.append(head);
    row.dataset.version = name;
    cells[name] = [row.insertCell(), row.insertCell()];
  }
  document.getElementById("results").prepend(article);
  return { article, progress, state, button, cells };
}

/** Writes a hash to its row, or the reason for its absence. */
function write(cells, hash) {
  const isHash = typeof hash === "bigint";
  cells[0].textContent = isHash ? hex(hash) : hash;
  cells[1].textContent = isHash ? String(hash) : "";
}

/** Hashes a file in a worker and resolves at the end. */
function hash(file, parts) {
  if (parts.article.dataset.end) return undefined;
  const worker = new Worker("worker.mjs", { type: "module" });
  return new Promise((resolve) => {
    const end = (text) => {
      worker.terminate();
      parts.button.remove();
      parts.state.textContent = `${count.format(file.size)} bytes, ${text}`;
      parts.article.dataset.end = text;
      status.textContent = `${file.name}: ${text}`;
      resolve();
    };
    parts.stop = () => end("stopped");
    // The event of a script that does not load has no message.
    worker.addEventListener("error",
      ({ message }) => end(`could not be hashed: ${message ?? "worker.mjs does not load"}`));
    worker.addEventListener("message", ({ data }) => {
      if (data.done !== undefined) {
        parts.progress.value = file.size ? data.done / file.size : 1;
        parts.state.textContent = `${count.format(data.done)} of ${count.format(file.size)} bytes`;
      }
      for (const [name, value] of Object.entries(data.hashes ?? {})) write(parts.cells[name], value);
      if (data.end) end(data.end);
    });
    worker.postMessage({ file, names: Object.keys(names) });
  });
}

function take(files) {
  for (const file of files) {
    const parts = show(file);
    parts.stop = () => {
      parts.article.dataset.end = "stopped";
      parts.state.textContent = "stopped";
      parts.button.remove();
    };
    parts.button.addEventListener("click", () => parts.stop());
    last = last.then(() => hash(file, parts));
  }
}

input.addEventListener("change", () => {
  take(input.files);
  input.value = "";
});
for (const name of ["dragenter", "dragover", "dragleave", "drop"])
  addEventListener(name, (event) => {
    event.preventDefault();
    zone.classList.toggle("over", name === "dragenter" || name === "dragover");
  });
addEventListener("drop", (event) => take(event.dataTransfer.files));
