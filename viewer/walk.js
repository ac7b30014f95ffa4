// Finds what each byte of a message is, and the tree of structs and lists, without a schema. The objects come from the library, whose
// list of them is proved; so do the canonical words, and whether a message is canonical. What this file adds isn't proved: landing
// pads, null pointers, texts, elements of lists of structs, and what a byte is.
//
// An object is shown once, though the library lists it for each pointer to it. Where objects overlap, a byte is visited once for each
// of them, up to a limit.

/** What a byte is. */
export const Role = Object.freeze({
  unreached: 0, root: 1, pointer: 2, far: 3, pad: 4, capability: 5, null: 6, tag: 7, data: 8, list: 9, text: 10, padding: 11, dropped: 12, broken: 13,
});

// Kinds of objects as the library numbers them; a list has the number of its element size.
const STRUCT = 8, CAPABILITY = 9;
const ELEMENTS = ['void', 'bit', 'byte', 'two bytes', 'four bytes', 'eight bytes', 'pointer', 'struct'];
const BITS = [0, 1, 8, 16, 32, 64, 64];

const decoder = new TextDecoder('utf-8', { fatal: true, ignoreBOM: true });

/** The text of bytes, or undefined if they aren't a text. */
export function textOf(bytes) {
  for (let i = 0; i < bytes.length; i++) {
    const it = bytes[i];
    if ((it < 32 && it !== 9 && it !== 10 && it !== 13) || it === 127) return undefined;
  }
  try {
    return decoder.decode(bytes);
  } catch {
    return undefined;
  }
}

class Enough extends Error {}

/**
 * Walks the message of these segments, down to `nesting` levels and within `words` words, with about `most` nodes. `listOf` is the call
 * of the library that lists the objects of segments.
 *
 * A node is { id, kind, at, via, segment, word, words, .. }: `at` is the place of its pointer, `via` the landing pads on the way, and
 * `segment`, `word` and `words` are where its object is. Kinds: null, struct, list, capability, broken, again (another node of the
 * tree has the same object), unread (after the broken pointer, or more than `most`).
 */
export function walk(segments, listOf, { nesting = 64, words = 8388608, most = 200000 } = {}) {
  const views = segments.map((it) => new DataView(it.buffer, it.byteOffset, it.byteLength));
  const counts = segments.map((it) => Math.floor(it.length / 8));
  const roles = segments.map((it) => new Uint8Array(8 * Math.ceil(it.length / 8)));
  const owners = counts.map((it) => new Int32Array(it).fill(-1));
  const nodes = [], known = new Map();
  const all = { far: 0, pads: 0, dropped: 0, again: 0, whole: true };
  // The words that may still be visited. Objects that overlap could make it a great many.
  let left = 8 * counts.reduce((sum, it) => sum + it, 0) + 1000000;
  function visit(words) {
    left -= words;
    if (left < 0) throw new Enough();
  }

  const low = (segment, word) => views[segment].getUint32(8 * word, true);
  const high = (segment, word) => views[segment].getUint32(8 * word + 4, true);
  const has = (segment, word, words) => segment < counts.length && word >= 0 && words <= counts[segment] - word;

  // The same bytes as `roles`, eight at a time in two numbers.
  const pairs = roles.map((it) => new Int32Array(it.buffer, 0, it.length >> 2));

  function mark(segment, byte, bytes, role) {
    visit(bytes / 8);
    const row = roles[segment], pair = pairs[segment], all = role * 0x01010101, end = byte + bytes;
    for (let at = byte; at < end;) {
      if (at % 4 === 0 && at + 4 <= end && pair[at >> 2] === 0) {
        pair[at >> 2] = all;
        at += 4;
      } else {
        if (row[at] === Role.unreached || row[at] === Role.dropped) row[at] = role;
        at++;
      }
    }
  }

  function own(node, segment, word, words) {
    visit(words);
    const row = owners[segment];
    for (let at = word; at < word + words; at++) if (row[at] < 0) row[at] = node.id;
  }

  function made(node) {
    node.id = nodes.length;
    nodes.push(node);
    return node;
  }

  /** How many words the elements of a list of structs may take, by the word that describes the list. */
  function claimedBy({ at, via }) {
    if (!via.length) return high(at.segment, at.word) >>> 3;
    return high(via[0].segment, via[0].word + via[0].words - 1) >>> 3;
  }

  /** Marks the landing pads on the way of a pointer that the library has followed. */
  function passPads(node) {
    const { segment, word } = node.at;
    if ((low(segment, word) & 3) !== 2) return;
    all.far++;
    const words = 1 + ((low(segment, word) >>> 2) & 1), pad = { segment: high(segment, word), word: low(segment, word) >>> 3, words };
    mark(pad.segment, 8 * pad.word, 8 * words, Role.pad);
    own(node, pad.segment, pad.word, words);
    node.via.push(pad);
    all.pads += words;
  }

  /** Marks the pointer word itself. */
  function markPointer(node) {
    const { segment, word } = node.at, kind = low(segment, word) & 3;
    const role = node.isDropped ? Role.dropped : node.kind === 'null' ? Role.null : kind === 2 ? Role.far : kind === 3 ? Role.capability : Role.pointer;
    mark(segment, 8 * word, 8, node.parent < 0 ? Role.root : role);
    own(node, segment, word, 1);
  }

  function isNull(segment, word) {
    return low(segment, word) === 0 && high(segment, word) === 0;
  }

  /** Shows the object that a pointer leads to, which the library has listed. */
  function follow(node, object) {
    passPads(node);
    node.segment = object.segment;
    node.word = object.word;
    if (object.kind === CAPABILITY) {
      node.kind = 'capability';
      node.index = object.capability;
    } else if (object.kind === STRUCT) {
      struct(node, object);
    } else {
      list(node, object);
    }
  }

  /** Whether the object is in the tree already. Then it isn't shown twice. */
  function again(node, key) {
    const first = known.get(key);
    if (first === undefined) {
      known.set(key, node.id);
      return false;
    }
    node.kind = 'again';
    node.of = first;
    all.again++;
    return true;
  }

  function struct(node, { dataWords: data, pointers }) {
    node.kind = 'struct';
    Object.assign(node, { data, pointers, words: data + pointers });
    if (node.words === 0) return;
    if (again(node, `s${node.segment}.${node.word}.${data}.${pointers}`)) return;
    fields(node, usedOf(node.segment, node.word, data, pointers));
  }

  /** The number of data words and pointers of a struct before the zeros and nulls at the ends. */
  function usedOf(segment, word, data, pointers) {
    visit(data + pointers);
    let d = data, p = pointers;
    while (d > 0 && isNull(segment, word + d - 1)) d--;
    while (p > 0 && isNull(segment, word + data + p - 1)) p--;
    return { data: d, pointers: p };
  }

  /** Marks the sections of a struct, and makes a node for each of its pointers. */
  function fields(node, used) {
    const { segment, word, data, pointers } = node;
    node.used = used;
    all.dropped += data - used.data + pointers - used.pointers;
    mark(segment, 8 * word, 8 * used.data, Role.data);
    mark(segment, 8 * (word + used.data), 8 * (data - used.data), Role.dropped);
    own(node, segment, word, data);
    node.children = [];
    for (let number = 0; number < pointers; number++) {
      pointer(node, number, { segment, word: word + data + number }, number >= used.pointers);
    }
  }

  /** Makes the node of a pointer, and marks the pointer. It is null, or unread until its object comes. */
  function pointer(node, number, at, isDropped = false) {
    if (nodes.length > most) throw new Enough();
    const child = made({ kind: isNull(at.segment, at.word) ? 'null' : 'unread', parent: node.id, name: number, at, via: [], depth: node.depth + 1, words: 0 });
    node.children.push(child.id);
    if (isDropped) child.isDropped = true;
    markPointer(child);
  }

  function list(node, { kind: size, count, dataWords: data, pointers }) {
    node.kind = 'list';
    node.element = ELEMENTS[size];
    if (size === 7) return structs(node, count, data, pointers);
    const bits = BITS[size] * count;
    Object.assign(node, { count, bits: BITS[size], words: Math.ceil(bits / 64) });
    if (node.words && again(node, `l${node.segment}.${node.word}.${size}.${count}`)) return;
    own(node, node.segment, node.word, node.words);
    if (size === 6) {
      node.children = [];
      for (let number = 0; number < count; number++) pointer(node, number, { segment: node.segment, word: node.word + number });
      return;
    }
    const bytes = Math.ceil(bits / 8), start = 8 * node.word;
    if (size === 2 && count > 0) {
      const row = segments[node.segment].subarray(start, start + count);
      if (row[count - 1] === 0) node.text = textOf(row.subarray(0, count - 1));
    }
    mark(node.segment, start, bytes, node.text === undefined ? Role.list : Role.text);
    mark(node.segment, start + bytes, 8 * node.words - bytes, Role.padding);
    const last = bits % 8 ? segments[node.segment][start + bytes - 1] >> bits % 8 : 0;
    node.hasPadding = last !== 0 || segments[node.segment].subarray(start + bytes, start + 8 * node.words).some((it) => it !== 0);
  }

  function structs(node, count, data, pointers) {
    // the library gives the place after the tag, and the words of the elements
    node.word -= 1;
    const claimed = claimedBy(node), step = data + pointers;
    Object.assign(node, { words: claimed + 1, claimed, count, data, pointers });
    if (again(node, `c${node.segment}.${node.word}.${claimed}`)) return;
    mark(node.segment, 8 * node.word, 8, Role.tag);
    own(node, node.segment, node.word, claimed + 1);
    node.children = [];
    const used = { data: 0, pointers: 0 };
    for (let number = 0; step && number < node.count; number++) {
      const one = usedOf(node.segment, node.word + 1 + number * step, node.data, node.pointers);
      used.data = Math.max(used.data, one.data);
      used.pointers = Math.max(used.pointers, one.pointers);
    }
    node.used = used;
    const elements = [];
    for (let number = 0; step && number < node.count; number++) {
      if (nodes.length > most) throw new Enough();
      const word = node.word + 1 + number * step;
      const element = made({
        kind: 'struct', parent: node.id, name: number, at: null, via: [], depth: node.depth + 1, segment: node.segment, word,
        data: node.data, pointers: node.pointers, words: step, isElement: true,
      });
      node.children.push(element.id);
      owners[node.segment].fill(element.id, word, word + step);
      elements.push(element);
    }
    for (const element of elements) fields(element, used);
  }

  /** The node of the pointer at this word, among those of a node. */
  function childAt(node, word) {
    if (node.kind !== 'list') return node.children?.[word - node.word - node.data];
    if (node.element !== 'struct') return node.children?.[word - node.word];
    const element = nodes[node.children[Math.floor((word - node.word - 1) / (node.data + node.pointers))]];
    return element && childAt(element, word);
  }

  /** Shows the objects of the list. An object whose parent isn't shown, because it was shown before, isn't shown either. */
  function show(objects) {
    const shown = [];
    for (const object of objects) {
      const parent = shown[object.parent], node = shown.length === 0 ? result.root : parent && nodes[childAt(parent, object.pointer.word)];
      if (node) follow(node, object);
      shown.push(node?.kind === 'again' ? undefined : node);
    }
  }

  /** Marks the pointer at which the library stopped. */
  function breakAt({ segment, word, text }) {
    const node = nodes.find((it) => it.kind === 'unread' && it.at.segment === segment && it.at.word === word);
    if (!node) return;
    node.kind = 'broken';
    node.why = text;
    roles[segment].fill(Role.broken, 8 * word, 8 * word + 8);
  }

  const result = { roles, owners, nodes, segments, counts, all, root: null };
  if (!has(0, 0, 1)) return result;
  result.root = made({ kind: isNull(0, 0) ? 'null' : 'unread', parent: -1, name: 'root', at: { segment: 0, word: 0 }, via: [], depth: 0, words: 0 });
  markPointer(result.root);
  const { objects, count, broken } = listOf(segments, most, { nesting, words });
  all.whole = !broken && objects.length === count;
  try {
    show(objects);
  } catch (error) {
    if (!(error instanceof Enough)) throw error;
    all.whole = false;
  }
  if (broken) breakAt(broken);
  all.unreached = roles.reduce((sum, row, segment) => {
    let words = 0;
    for (let word = 0; word < counts[segment]; word++) if (row[8 * word] === Role.unreached && row[8 * word + 7] === Role.unreached) words++;
    return sum + words;
  }, 0);
  return result;
}

/** The number of words of canonical form, root pointer included; undefined if the walk isn't whole or the value has none. */
export function canonicalWords({ nodes, root, all }) {
  if (!root || !all.whole) return undefined;
  const memo = new Map(), open = new Set();
  const of = (id) => {
    if (memo.has(id)) return memo.get(id);
    const node = nodes[id];
    if (['broken', 'unread', 'capability'].includes(node.kind) || open.has(id)) return NaN;
    open.add(id);
    let words = 0;
    if (node.kind === 'again') words = of(node.of);
    else if (node.kind === 'list' && node.element !== 'struct') words = node.words;
    else if (node.kind === 'list') words = 1 + node.count * (node.used.data + node.used.pointers);
    else if (node.kind === 'struct' && !node.isElement && node.used) words = node.used.data + node.used.pointers;
    if (node.kind !== 'again') for (const child of node.children ?? []) words += of(child);
    open.delete(id);
    memo.set(id, words);
    return words;
  };
  const words = 1 + of(root.id);
  return Number.isNaN(words) ? undefined : words;
}

/** The segments of the frame at the front of bytes; undefined if they don't begin with one. */
export function segmentsOf(bytes) {
  if (bytes.length < 4) return undefined;
  const view = new DataView(bytes.buffer, bytes.byteOffset, bytes.byteLength), count = view.getUint32(0, true) + 1;
  let at = Math.ceil((4 + 4 * count) / 8) * 8;
  if (count > 512 || bytes.length < at) return undefined;
  const segments = [];
  for (let number = 0; number < count; number++) {
    const size = 8 * view.getUint32(4 + 4 * number, true);
    if (size > bytes.length - at) return undefined;
    segments.push(bytes.subarray(at, at + size));
    at += size;
  }
  return { segments, table: Math.ceil((4 + 4 * count) / 8) * 8, size: at };
}
