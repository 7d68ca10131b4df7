// Drives the page as a user would, and leaves what it saw as JSON in the element `result`.
"use strict";

const pause = (milliseconds) => new Promise((done) => setTimeout(done, milliseconds));
const fromHex = (text) => Uint8Array.from(text.match(/../g) ?? [], (it) => parseInt(it, 16));
const toHex = (bytes) => [...bytes].map((it) => it.toString(16).padStart(2, "0")).join("");

async function until(test) {
  for (let i = 0; i < 1000 && !test(); i++) {
    await pause(20);
  }
}

// Drops a file onto a zone, and waits until the page has taken it.
async function drop(zone, name, bytes) {
  const transfer = new DataTransfer();
  transfer.items.add(new File([bytes], name));
  byId(zone).dispatchEvent(new DragEvent("drop", {dataTransfer: transfer, cancelable: true, bubbles: true}));
  await until(() => byId(zone.replace("zone", "name")).textContent === name);
}

function seen() {
  const rows = [...byId("messages").rows].map((row) => [...row.cells].map((it) => it.textContent));
  return {rows, said: byId("said").textContent, log: byId("log").textContent, record: byId("record").textContent};
}

function edit(path, verb, kind, value) {
  byId("path").value = path;
  byId("verb").value = verb;
  byId("kind").value = kind;
  byId("value").value = value;
  byId("add").click();
}

async function saved() {
  let blob = null;
  const made = URL.createObjectURL;
  URL.createObjectURL = (it) => made.call(URL, (blob = it));
  byId("save").click();
  URL.createObjectURL = made;
  return toHex(new Uint8Array(await blob.arrayBuffer()));
}

async function drive(given) {
  const found = {};
  await until(() => document.body.dataset.ready || byId("said").textContent);
  if (!document.body.dataset.ready) {
    return {failed: byId("said").textContent};
  }
  byId("example").click();
  found.example = seen();
  await drop("schema-zone", "bad.json", new TextEncoder().encode("no schema"));
  found.refused = seen();
  await drop("schema-zone", "schema.json", new TextEncoder().encode(given.schema));
  await drop("stream-zone", "messages.bin", fromHex(given.stream));
  found.dropped = seen();
  await drop("newer-zone", "same.json", new TextEncoder().encode(given.schema));
  found.compatible = byId("said").textContent;
  await drop("newer-zone", "other.json", new TextEncoder().encode(given.other));
  found.broken = byId("said").textContent;
  byId("messages").rows[1].click();
  found.words = [...byId("words").rows].map((row) => [...row.cells].map((it) => it.textContent));
  edit("a", "set", "number", "9");
  edit("t", "get", "number", "");
  byId("apply").click();
  found.edited = seen();
  found.saved = await saved();
  await drop("stream-zone", "cut.bin", fromHex(given.stream).slice(0, -3));
  found.cut = seen();
  return found;
}

drive(GIVEN).catch((error) => ({failed: String(error.stack)})).then((found) => {
  const it = document.createElement("pre");
  it.id = "result";
  it.textContent = JSON.stringify(found);
  document.body.append(it);
});
