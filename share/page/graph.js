// The graph: lines, blocks of lines, and for each visited state a row of numbers.

let data, rows, before, first;
const by = id => document.getElementById(id);

async function load() {
  const element = by('data');
  if (!element) throw new Error('This is the template: tools/page makes a page of it.');
  if (element.dataset.form !== 'gzip') return JSON.parse(element.textContent);
  if (!window.DecompressionStream) throw new Error('This browser is too old for a page of this size: make the page with fewer --states.');
  const bytes = Uint8Array.from(atob(element.textContent), character => character.charCodeAt(0));
  return new Response(new Blob([bytes]).stream().pipeThrough(new DecompressionStream('gzip'))).json();
}

// Returns a function that keeps its results.
function memo(compute) {
  const results = new Map();
  return key => {
    if (!results.has(key)) results.set(key, compute(key));
    return results.get(key);
  };
}

const lines = memo(block => data.blocks[block].map(line => data.lines[line]));
const word = line => line.slice(0, 4).trimEnd();
const rest = line => line.slice(6);

// The processes of a state: the blocks of what each is and of what it may do, the next state (-1 left out, -2 no step) and the block of the
// step's lines.
function processes(state) {
  const row = rows[state], found = [];
  for (let at = 2; at < row.length; at += 5) {
    found.push({ process: row[at], is: row[at + 1], may: row[at + 2], to: row[at + 3], step: row[at + 4] });
  }
  return found;
}
const live = state => processes(state).filter(one => one.to !== -2);

// Sets the states before each state, and the first step that leads to it. States are in the order of a breadth first search.
function link() {
  before = rows.map(() => []);
  first = rows.map(() => null);
  rows.forEach((_, state) => {
    for (const one of live(state)) {
      if (one.to < 0 || one.to === state) continue;
      before[one.to].push(state);
      if (!first[one.to] && one.to > 0) first[one.to] = { state, process: one.process };
    }
  });
}

function stepOf(state, process) {
  const one = state >= 0 && live(state).find(one => one.process === process);
  return one && { process, from: state, to: one.to, block: one.step };
}
const linesOf = step => step.gone ? ['GONE  no such process'] : lines(step.block);

// A shortest schedule prefix that leads to a state.
function prefixTo(state) {
  const steps = [];
  for (let back = first[state]; back; back = first[back.state]) steps.unshift(stepOf(back.state, back.process));
  return steps;
}

// The steps of a witness, given its turns: of each a process and a number of steps.
function stepsOf(turns) {
  const steps = [];
  for (const [process, many] of turns) {
    for (let k = 0; k < many; k++) steps.push(stepOf(steps.length ? steps[steps.length - 1].to : 0, process));
  }
  return steps;
}

// The names of a state's tree: of each its kind, node, size and path, and the bytes of a file or link as a text. A tree and its contents
// are the same in many states.
const treeOf = memo(tree => lines(tree).map(line => {
  const [, kind, node, size, path] = /^LS    (\S) (\d+) (\d+) "(.*)"$/.exec(line);
  return { kind, node: Number(node), size: Number(size), path };
}));
const namesOf = memo(key => {
  const [tree, contents] = key.split(' ').map(Number);
  return treeOf(tree).map((name, at) => {
    const content = data.contents[contents][at];
    return { ...name, content, text: content < 0 ? null : data.texts[content] };
  });
});
const names = state => namesOf(rows[state][0] + ' ' + rows[state][1]);
const nameAt = (state, path) => names(state).find(name => name.path === path);

// The least name of a node, by the number of its directory and then by its bytes.
function nameOf(state, node) {
  const found = names(state).filter(name => name.node === node);
  if (found.length < 2) return found[0];
  const keys = new Map(found.map(name => {
    const cut = name.path.lastIndexOf('/'), bytes = name.path.slice(cut + 1).replace(/\\x(..)/g, (_, byte) => String.fromCharCode(parseInt(byte, 16)));
    return [name, [nameAt(state, name.path.slice(0, cut) || '/').node, bytes]];
  }));
  const isLess = ([one, name], [other, next]) => one < other || one === other && name < next;
  return found.reduce((least, name) => isLess(keys.get(name), keys.get(least)) ? name : least);
}

// What a process is: its lines by their words.
const facts = memo(block => {
  const found = { unveil: [], descriptors: [] };
  for (const line of lines(block)) {
    const key = word(line), value = rest(line);
    if (key === 'FD') found.descriptors.push(value);
    else if (key === 'UNVL' && value.startsWith('entry')) found.unveil.push(value);
    else found[key] = value;
  }
  const position = /^live, parent (\d+), line (\d+) of (\d+)$/.exec(found.PROC);
  if (position) [found.parent, found.line, found.of] = position.slice(1).map(Number);
  return found;
});

// The node of a descriptor: its number and its path, if it has one.
function nodeOf(own, descriptor) {
  const line = facts(own).descriptors.find(line => line.startsWith(descriptor + ', '));
  const found = line && /, node (\d+)(?: "(.*?)")?(?:, listed .*)?$/.exec(line);
  return found ? { node: Number(found[1]), path: found[2] || null } : null;
}

// The place at which the walk of a successful call ends: a path, or null if the walk is not known.
function walk(state, directory, path, follow) {
  let left = path.split('/'), here = path.startsWith('/') || directory === '/' ? '' : directory, links = 0;
  while (left.length) {
    const name = left.shift(), more = left.some(Boolean);
    if (here === null) return null;
    if (name === '' || name === '.') continue;
    if (name === '..') { here = here.slice(0, Math.max(here.lastIndexOf('/'), 0)); continue; }
    const next = here + '/' + name, found = nameAt(state, next);
    if (found && found.kind === 'l' && (follow || more)) {
      if (++links > 32 || typeof found.text !== 'string') return null;
      if (found.text.startsWith('/')) here = '';
      left = [...found.text.split('/'), ...left];
    } else if (!found && more) return null;
    else here = next;
  }
  return here || '/';
}

function directoryOf(own) {
  const found = / "(.*)"$/.exec(facts(own).CWD || '');
  return found ? found[1] : null;
}
