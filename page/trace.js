// The observer's stream as states: which calls are active, which values their objects have, which have none. Nothing here touches the page.

const key = path => path.join(',');
const dimensions = type => [...type.matchAll(/\[(\d+)\]/g)].map(one => Number(one[1]));

// ---- what the forms say of a program

function walk(node, visit, around = []) {
  for (const rest = [[node, around]]; rest.length > 0;) {
    const [one, outside] = rest.pop();
    visit(one, outside);
    const inner = [...outside, one];
    for (const part of [...one.parts ?? []].reverse()) rest.push([part, inner]);
  }
}

function lastLine(node) {
  let last = node.line ?? 0;
  walk(node, one => { if (one.file === node.file && one.line > last) last = one.line; });
  return last;
}

const hasStorage = declaration => (declaration.parts ?? []).some(part => part.node === 'specifier' && /^(static|extern|typedef)$/.test(part.specifier));

// The automatic objects that a body declares, in order, each with the lines in which its name can be used.
function declared(definition) {
  const found = [];
  walk(definition, (one, outside) => {
    const declaration = outside.at(-1);
    if (one.node !== 'object' || declaration?.node !== 'declaration' || hasStorage(declaration)) return;
    const scope = outside.findLast(node => node.node === 'block' || node.node === 'for');
    found.push({ name: one.name, file: one.file, from: one.line, to: scope ? lastLine(scope) : one.line, isOfFor: outside.at(-2)?.node === 'for' });
  });
  return found;
}

function functionOf(definition, typed) {
  const parameters = definition.parts.filter(part => part.node === 'parameter'), kinds = typed?.parts.filter(part => part.node === 'parameter') ?? [];
  const all = parameters.map((part, k) => ({ name: part.name, isParameter: true, isArray: kinds[k]?.kind === 'array', type: kinds[k]?.type ?? '' }));
  const types = typed?.parts.filter(part => part.node === 'automatic').map(part => part.type) ?? [];
  const automatic = [...all.filter(one => !one.isArray), ...declared(definition)];
  if (automatic.length === types.length) automatic.forEach((one, k) => Object.assign(one, { type: types[k], dims: dimensions(types[k]) }));
  const calls = [];
  walk(definition, one => { if (one.node === 'call') calls.push(one); });
  return { name: definition.name, parameters: all, objects: [...all, ...automatic.filter(one => !one.isParameter)], calls };
}

// The functions and the static objects of a program, by its syntax tree and its typed form.
export function describe(tree, typed) {
  const byName = new Map(typed.parts.filter(part => part.node === 'function').map(part => [part.name, part]));
  const functions = tree.parts.filter(part => part.node === 'definition').map(part => functionOf(part, byName.get(part.name)));
  const statics = typed.parts.filter(part => part.node === 'static').map(part => ({
    name: part.name, type: part.type, dims: dimensions(part.type), values: (part.parts ?? []).filter(one => one.node === 'value').map(one => one.value),
  }));
  return { functions: new Map(functions.map(one => [one.name, one])), statics };
}

// ---- states

// Every path of an array with these dimensions, in order.
export function paths(dims) {
  return dims.reduce((all, n) => all.flatMap(path => Array.from({ length: n }, (_, k) => [...path, k])), [[]]);
}

// An object: its cells by their paths; isUntold where it has values that were not told; isDoubtful where it may have others than are shown.
const fresh = of => ({ ...of, cells: new Map(), isUntold: false, isDoubtful: false });

function freshStatic(of) {
  const made = fresh(of);
  paths(of.dims).forEach((path, k) => made.cells.set(key(path), of.values[k] ?? 0));
  return made;
}

export class Story {
  #told; #functions; #statics;

  constructor(events, { functions, statics }) {
    [this.#told, this.#functions, this.#statics] = [events, functions, statics];
    this.length = events.length;
    this.#rewind();
  }

  #rewind() {
    this.at = 0;
    this.calls = [];
    this.statics = this.#statics.map(freshStatic);
    this.changed = undefined;
  }

  event(k) { return this.#told[k]; }

  // The state after so many events.
  to(count) {
    if (count < this.at) this.#rewind();
    while (this.at < Math.min(count, this.length)) this.#take(this.#told[this.at++]);
    return this;
  }

  #take(event) {
    this.changed = undefined;
    if (event.event === 'enter') this.#enter(event);
    else if (event.event === 'leave') this.calls.pop();
    else if (event.event === 'statement') this.#statement(event);
    else if (event.event === 'set') this.#set(event);
    else if (event.event === 'further') { const found = this.#find(event.name); if (found) found.isUntold = true; }
  }

  #enter({ function: name }) {
    const known = this.#functions.get(name), caller = this.calls.at(-1), objects = (known?.objects ?? []).map(fresh);
    this.#alias(known, caller, objects);
    this.calls.push({ name, objects, place: undefined });
  }

  // The arrays that the parameters are, where the caller's line has one call of the function alone, with an array by its name.
  #alias(known, caller, objects) {
    const here = caller && this.#functions.get(caller.name)?.calls.filter(one => one.name === known?.name && one.line === caller.place?.line && one.file === caller.place?.file);
    for (const [k, one] of (known?.parameters ?? []).entries()) {
      if (!one.isArray) continue;
      const given = here?.length === 1 ? here[0].parts?.[k] : undefined;
      if (given?.node === 'name') objects[k].of = this.#find(given.name)?.of ?? this.#find(given.name);
    }
  }

  // What becomes indeterminate where a statement begins: the objects of a declaration that is come to, and those of a loop that is begun anew.
  #statement({ file, line }) {
    const call = this.calls.at(-1);
    if (!call) return;
    const before = call.place;
    for (const [k, one] of call.objects.entries()) {
      const isHere = one.file === file && one.from === line, wasInside = before?.file === file && before.line >= one.from && before.line <= one.to;
      if (isHere && !one.isParameter && !(one.isOfFor && wasInside)) call.objects[k] = fresh(one);
    }
    call.place = { file, line };
  }

  // The object that a name means in the innermost call: of several, the one declared last in whose lines the call is.
  #find(name) {
    const call = this.calls.at(-1), named = call?.objects.filter(one => one.name === name) ?? [];
    return named.findLast(one => one.isParameter || isInScope(one, call.place)) ?? named.at(-1) ?? this.statics.find(one => one.name === name);
  }

  #set({ name, path, value }) {
    const found = this.#find(name);
    if (!found) return;
    const target = found.of ?? found;
    target.cells.set(key(path), value);
    this.changed = { object: target, path: key(path) };
    if (found.isArray && !found.of) this.#doubt(found);
  }

  // What was stored in an array parameter whose array is not known may be in any other.
  #doubt(parameter) {
    for (const one of [...this.calls.flatMap(call => call.objects), ...this.statics]) if (one !== parameter && one.dims?.length > 0) one.isDoubtful = true;
  }
}

export const isInScope = (one, place) => one.isParameter || one.from === undefined || place === undefined || (one.file === place.file && place.line >= one.from && place.line <= one.to);

// ---- the machine's way beside it

// The number of the events up to the place to which a machine has come, by the places at which statements begin that it met, in order:
// each { enters } a function or begins a statement at { file, line }. A statement may have no code, so that the machine does not come to it; and a function
// may have code before its first statement, at its own line, of which no event tells. Nothing where the two go apart.
export function follow(events, arrivals) {
  let at = 0, place = [], isOpening = false;
  const pass = event => {
    if (event.event === 'enter') place.push(undefined);
    if (event.event === 'leave') place.pop();
    if (event.event === 'statement') place[place.length - 1] = event;
  };
  for (const arrival of arrivals) {
    const isHere = event => arrival.enters !== undefined ? event.event === 'enter' && event.function === arrival.enters : event.event === 'statement' && event.file === arrival.file && event.line === arrival.line;
    const now = place.at(-1);
    if (arrival.enters === undefined && now && isHere(now)) continue;
    let next = at;
    while (next < events.length && !isHere(events[next]) && events[next].event !== 'enter') next++;
    const isFound = next < events.length && isHere(events[next]);
    if (!isFound && isOpening && arrival.enters === undefined) continue;
    if (!isFound) return undefined;
    isOpening = arrival.enters !== undefined;
    for (; at <= next; at++) pass(events[at]);
    if (arrival.enters !== undefined) while (events[at]?.event === 'set') at++;      // its parameters
  }
  return at;
}
