// The page: files that are dropped, the list of messages, one message in full, and edits.
"use strict";

const MOST_MESSAGES = 1000, MOST_WORDS = 512;
const EXAMPLE_SCHEMA = [
  {
    id: 1,
    name: "Order",
    data: 1,
    pointers: 2,
    fields: [
      {name: "number", type: "UInt16", offset: 0},
      {name: "status", type: {enum: 2}, offset: 1},
      {name: "customer", type: "Text", offset: 0},
      {name: "notes", type: {list: "Text"}, offset: 1},
    ],
  },
  {id: 2, name: "Status", enumerants: ["new", "packed", "sent"]},
];
const EXAMPLE_CALLS = [
  {path: ["number"], verb: "set", value: {number: 7}},
  {path: ["status"], verb: "set", value: {enum: 1}},
  {path: ["customer"], verb: "set", value: {text: "Ada Lovelace"}},
  {path: ["notes"], verb: "initn", size: 2},
  {path: ["notes", 0], verb: "set", value: {text: "fragile"}},
];
const EMPTY_MESSAGE = [0, 0, 0, 0, 1, 0, 0, 0, 0, 0, 0, 0, 0, 0, 0, 0];

const byId = (id) => document.getElementById(id);
const state = {library: null, schema: null, stream: new Uint8Array(0), frames: [], relay: null, selected: 0, name: "messages.bin"};

// Adds an element with a text to another.
function add(parent, kind, text = "", className = "") {
  const it = document.createElement(kind);
  it.textContent = text;
  it.className = className;
  parent.append(it);
  return it;
}

function tell(text, isFault = false) {
  byId("said").textContent = text;
  byId("said").className = isFault ? "fault" : "";
}

function cut(text, most) {
  return text.length > most ? `${text.slice(0, most)}..` : text;
}

// Opens a relay without calls, by which messages are shown.
function openSchema() {
  if (state.relay) {
    state.relay.close();
    state.relay = null;
  }
  if (state.schema) {
    state.relay = new Relay(state.library, state.schema, byId("root").value, []);
  }
}

function messageBytes(index) {
  return state.stream.subarray(state.frames[index].start, state.frames[index].end);
}

// The record of a message, or why it isn't shown.
function recordOf(index) {
  if (!state.relay) {
    return {text: "(drop a schema to see records)", isFault: false};
  }
  try {
    return {text: state.relay.show(messageBytes(index)), isFault: false};
  } catch (error) {
    return {text: error.message, isFault: true};
  }
}

function formOf(index) {
  try {
    return state.library.isCanonical(messageBytes(index)) ? "canonical" : "not canonical";
  } catch (error) {
    return "no value";
  }
}

function drawList() {
  const body = byId("messages");
  body.replaceChildren();
  state.frames.slice(0, MOST_MESSAGES).forEach((frame, index) => {
    const row = add(body, "tr", "", index === state.selected ? "selected" : "");
    const {text, isFault} = recordOf(index);
    add(row, "td", String(index + 1));
    add(row, "td", String(frame.end - frame.start));
    add(row, "td", String(frame.segments.length));
    add(row, "td", formOf(index));
    add(row, "td", cut(text, 160), isFault ? "fault" : "record");
    row.onclick = () => select(index);
  });
  byId("count").textContent = `${state.frames.length} messages, ${state.stream.length} bytes`;
}

// A record with a line for each field of its structs.
function laidOut(text) {
  let depth = 0, isQuoted = false, out = "";
  for (let i = 0; i < text.length; i++) {
    const it = text[i];
    if (it === "\\" && isQuoted) {
      out += it + (text[++i] ?? "");
      continue;
    }
    isQuoted = it === '"' ? !isQuoted : isQuoted;
    depth += isQuoted ? 0 : "([".includes(it) - ")]".includes(it);
    const isEnd = it === "," && !isQuoted;
    out += !isQuoted && "([".includes(it) && !")]".includes(text[i + 1] ?? ")") ? `${it}\n${"  ".repeat(depth)}` : it;
    if (isEnd) {
      out += `\n${"  ".repeat(depth)}`;
      i += text[i + 1] === " ";
    }
  }
  return out;
}

function drawWords(index) {
  const frame = state.frames[index], texts = pointersOf(state.stream, frame), body = byId("words");
  body.replaceChildren();
  let left = MOST_WORDS;
  frame.segments.forEach((segment, number) => {
    for (let word = 0; word < segment.words && left > 0; word++, left--) {
      const at = segment.start + 8 * word, bytes = [...state.stream.subarray(at, at + 8)];
      const row = add(body, "tr");
      add(row, "td", frame.segments.length > 1 ? `${number}:${word}` : String(word));
      add(row, "td", bytes.map((it) => it.toString(16).padStart(2, "0")).join(" "), "hex");
      add(row, "td", bytes.map((it) => (it > 31 && it < 127 ? String.fromCharCode(it) : "·")).join(""), "hex");
      add(row, "td", texts.get(`${number}:${word}`) ?? "");
    }
  });
  byId("more").textContent = left > 0 ? "" : `The first ${MOST_WORDS} words are shown.`;
}

function select(index) {
  state.selected = index;
  [...byId("messages").rows].forEach((row, at) => row.classList.toggle("selected", at === index));
  const {text, isFault} = recordOf(index);
  byId("record").textContent = isFault ? text : laidOut(text);
  byId("record").className = isFault ? "fault" : "";
  byId("title").textContent = `Message ${index + 1}`;
  drawWords(index);
}

// Takes a stream, and shows it.
function takeStream(bytes) {
  const {frames, rest} = framesOf(bytes);
  Object.assign(state, {stream: bytes, frames, selected: 0});
  draw();
  if (rest !== null) {
    tell(`input: from byte ${rest} on it isn't a message; ${frames.length} messages are before`, true);
  }
}

function draw() {
  tell("");
  try {
    openSchema();
  } catch (error) {
    tell(error.message, true);
  }
  drawList();
  byId("record").textContent = "";
  byId("words").replaceChildren();
  if (state.frames.length > 0) {
    select(Math.min(state.selected, state.frames.length - 1));
  }
}

// A value of a call, as the kind of it says.
function valueOf(kind, text) {
  if (kind === "number" || kind === "enum") {
    return {[kind]: JSON.parse(text)};
  }
  return {[kind]: kind === "bool" ? text === "true" : text};
}

function addCall() {
  const path = byId("path").value.split(".").filter(Boolean).map((it) => (/^\d+$/.test(it) ? Number(it) : it));
  const verb = byId("verb").value;
  try {
    const call = verb === "set" ? {path, verb, value: valueOf(byId("kind").value, byId("value").value)} : {path, verb};
    byId("calls").value = JSON.stringify([...JSON.parse(byId("calls").value || "[]"), call], null, 1);
    tell("");
  } catch (error) {
    tell(`calls: ${error.message}`, true);
  }
}

// Runs the calls on all messages, and shows what was written in place of them.
function apply() {
  try {
    const relay = new Relay(state.library, state.schema ?? new Uint8Array(0), byId("root").value, JSON.parse(byId("calls").value || "[]"));
    const {out, log, status} = relay.relay(state.stream);
    relay.close();
    takeStream(out);
    byId("log").textContent = log;
    tell(status === STATUS.OK ? "the calls are done" : STATUS_TEXTS[status], status !== STATUS.OK);
  } catch (error) {
    tell(error.message, true);
  }
}

function save() {
  const link = document.createElement("a");
  link.href = URL.createObjectURL(new Blob([state.stream]));
  link.download = state.name;
  link.click();
  setTimeout(() => URL.revokeObjectURL(link.href), 1000);
}

// Compares a newer version of the schema with the one that is there.
function compare(newer) {
  try {
    const why = state.library.firstBreak(state.schema ?? new Uint8Array(0), newer, byId("root").value);
    tell(why ?? "the newer schema is compatible", why !== null);
  } catch (error) {
    tell(error.message, true);
  }
}

// What is done with the bytes of a file that is dropped onto a zone.
const TAKEN = {
  schema: (bytes) => {
    state.schema = bytes;
    draw();
  },
  stream: (bytes, name) => {
    state.name = name;
    takeStream(bytes);
  },
  newer: compare,
};

async function takeFile(file, what) {
  TAKEN[what](new Uint8Array(await file.arrayBuffer()), file.name);
  byId(`${what}-name`).textContent = file.name;
}

function listen(what) {
  const zone = byId(`${what}-zone`), input = zone.querySelector("input");
  input.onchange = () => input.files[0] && takeFile(input.files[0], what);
  zone.ondragover = (event) => event.preventDefault();
  zone.ondrop = (event) => {
    event.preventDefault();
    takeFile(event.dataTransfer.files[0], what);
  };
}

// Loads a schema and two messages that are made by calls.
function example() {
  const text = JSON.stringify(EXAMPLE_SCHEMA);
  state.schema = new TextEncoder().encode(text);
  byId("schema-name").textContent = "an example";
  byId("stream-name").textContent = "an example";
  const relay = new Relay(state.library, state.schema, "Order", EXAMPLE_CALLS);
  const {out} = relay.relay(new Uint8Array(EMPTY_MESSAGE));
  relay.close();
  takeStream(new Uint8Array([...out, ...EMPTY_MESSAGE]));
}

async function start() {
  const text = atob(byId("module").textContent.trim());
  try {
    state.library = await Library.load(Uint8Array.from(text, (it) => it.charCodeAt(0)));
  } catch (error) {
    tell(`This browser can't run the module: ${error.message}. It needs WebAssembly with 64-bit memory.`, true);
    return;
  }
  Object.keys(TAKEN).forEach(listen);
  byId("root").onchange = draw;
  byId("example").onclick = example;
  byId("add").onclick = addCall;
  byId("apply").onclick = apply;
  byId("save").onclick = save;
  document.body.dataset.ready = "yes";
}

start();
