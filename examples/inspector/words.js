// Messages as their words: frames of a stream, and what the pointers of a message say. (Encoding, "Serialization Over a Stream")
"use strict";

const MOST_POINTERS = 4096, LIST_SIZES = ["no bits", "1 bit", "1 byte", "2 bytes", "4 bytes", "8 bytes", "a pointer"];

// Returns the places of the messages of a stream, and the place at which its rest is not a message.
function framesOf(stream) {
  const view = new DataView(stream.buffer, stream.byteOffset, stream.byteLength), frames = [];
  let at = 0;
  while (at < stream.length) {
    const count = at + 4 <= stream.length ? view.getUint32(at, true) + 1 : 0;
    const head = 8 * Math.floor((count + 2) / 2);
    if (count < 1 || count > 511 || at + head > stream.length) {
      return {frames, rest: at};
    }
    let end = at + head;
    const segments = [];
    for (let i = 1; i <= count; i++) {
      const words = view.getUint32(at + 4 * i, true);
      segments.push({start: end, words});
      end += 8 * words;
    }
    if (end > stream.length) {
      return {frames, rest: at};
    }
    frames.push({start: at, end, segments});
    at = end;
  }
  return {frames, rest: at === stream.length ? null : at};
}

// What a pointer says, and the pointers of the object to which it leads.
function pointerAt(view, frame, segment, word) {
  const at = frame.segments[segment].start + 8 * word;
  const low = view.getUint32(at, true), high = view.getUint32(at + 4, true), kind = low & 3, to = word + 1 + (low >> 2);
  if (low === 0 && high === 0) {
    return {text: "null"};
  }
  if (kind === 0) {
    const data = high & 0xffff, pointers = high >>> 16;
    const next = Array.from({length: Math.min(pointers, 64)}, (_, i) => [segment, to + data + i]);
    return {text: `struct at word ${to}: ${data} data, ${pointers} pointers`, next};
  }
  if (kind === 1) {
    return listAt(view, frame, segment, to, high & 7, high >>> 3);
  }
  if (kind === 2) {
    const pad = low >>> 3, next = [[high, pad]];
    return {text: `far: word ${pad} of segment ${high}${low & 4 ? ", two words" : ""}`, next};
  }
  return {text: low === 3 ? `capability ${high}` : "not a pointer"};
}

function listAt(view, frame, segment, to, size, count) {
  if (size === 6) {
    return {text: `list at word ${to}: ${count} pointers`, next: Array.from({length: Math.min(count, 64)}, (_, i) => [segment, to + i])};
  }
  if (size < 7) {
    return {text: `list at word ${to}: ${count} of ${LIST_SIZES[size]}`};
  }
  const found = frame.segments[segment];
  if (to < 0 || to >= found.words) {
    return {text: `list at word ${to}: out of its segment`};
  }
  const tag = found.start + 8 * to, items = view.getUint32(tag, true) >>> 2, sizes = view.getUint32(tag + 4, true);
  const data = sizes & 0xffff, pointers = sizes >>> 16, next = [];
  for (let i = 0; i < Math.min(items, 64); i++) {
    for (let k = 0; k < Math.min(pointers, 64); k++) {
      next.push([segment, to + 1 + i * (data + pointers) + data + k]);
    }
  }
  return {text: `list at word ${to}: ${items} structs of ${data} data, ${pointers} pointers`, next, tag: [segment, to]};
}

// What each word of a message is that pointers lead to: a map from "segment:word" to a text.
function pointersOf(stream, frame) {
  const view = new DataView(stream.buffer, stream.byteOffset, stream.byteLength), texts = new Map(), left = [[0, 0]];
  while (left.length > 0 && texts.size < MOST_POINTERS) {
    const [segment, word] = left.shift(), place = `${segment}:${word}`, found = frame.segments[segment];
    if (!found || word < 0 || word >= found.words || texts.has(place)) {
      continue;
    }
    const {text, next, tag} = pointerAt(view, frame, segment, word);
    texts.set(place, text);
    if (tag) {
      texts.set(tag.join(":"), "tag of the list's structs");
    }
    left.push(...(next || []));
  }
  return texts;
}
