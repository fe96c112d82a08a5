// Observations: which process reads, writes, lists, runs, opens, looks at or names which file on some schedule.

const VERBS = ['reads', 'writes', 'lists', 'runs', 'opens', 'looks at', 'changes the name'];
const WORDS = { reads: 'READ', runs: 'EXEC', writes: 'WRIT', 'changes the name': 'NAME', lists: 'TELL', 'looks at': 'TELL', opens: 'OPEN' };
let observations = [], accessLines = [], observationSets, observedAt, unread = [], unreadNumbers = [];

// A call that did not fail, or that read a file in vain: its name, its arguments, and what its lines say.
const callOf = memo(block => {
  const said = lines(block), of = key => said.filter(line => word(line) === key).map(rest);
  const found = /^(\w+)\((.*)\)$/.exec(of('CALL')[0] || ''), answer = of('RET')[0] || 'none';
  if (!found || !ACCESSES[found[1]]) return null;
  const refused = / errno (\d+) /.exec(answer);
  if (answer === 'none' || refused && !(found[1] === 'execve' && refused[1] === '8')) return null;
  return { name: found[1], given: found[2], value: Number(answer.split(' ')[1]), refused: Boolean(refused),
    paths: of('NAMI').map(path => path.slice(1, -1)), text: of('TEXT')[0] || '', moved: /^(read|wrote) [1-9]/.test(of('GIO')[0] || '') };
});

// What a call accesses: of each file the verb, the node or the path, and the detail.
const ACCESSES = {
  read: step => withText(step, 'reads'),
  write: step => withText(step, 'writes'),
  ftruncate: step => [{ verb: 'writes', ...descriptorOf(step), detail: 'size ' + step.given.split(', ')[1] }],
  getdents: step => [{ verb: 'lists', ...descriptorOf(step), detail: step.moved ? step.text : 'its end' }],
  lseek: step => [{ verb: 'looks at', ...descriptorOf(step), detail: 'lseek' }],
  fchdir: step => [{ verb: 'looks at', ...descriptorOf(step), detail: 'fchdir' }],
  chdir: step => [{ verb: 'looks at', path: place(step, 0, true), detail: 'chdir' }],
  readlink: step => [{ verb: 'looks at', path: place(step, 0, false), detail: step.text }],
  stat: looksAt, lstat: looksAt, fstat: looksAt,
  execve: step => [{ verb: step.refused ? 'reads' : 'runs', path: place(step, 0, true), detail: step.refused ? 'ENOEXEC' : '' }],
  open: opens, openat: opens,
  mkdir: renames, rmdir: renames, unlink: renames, symlink: renames, link: renames, rename: renames,
};

const descriptorOf = step => nodeOf(step.one.is, Number.parseInt(step.given));

function withText(step, verb) {
  const found = /^(".*?"), node (\d+)(?: "(.*)")?$/.exec(step.text);
  return step.moved && found ? [{ verb, node: Number(found[2]), path: found[3] || null, detail: found[1] }] : [];
}

function looksAt(step) {
  const [, kind, node, size] = /^(\w+), node (\d+), size (\d+)$/.exec(step.text);
  const found = nameOf(step.state, Number(node));
  return [{ verb: 'looks at', node: Number(node), path: found ? found.path : null, detail: `${kind}, size ${size}` }];
}

function opens(step) {
  const after = step.one.to < 0 ? null : processes(step.one.to).find(one => one.process === step.one.process);
  const file = after && nodeOf(after.is, step.value), old = file && names(step.state).find(name => name.node === file.node);
  if (!file) return [];
  const [mode, ...flags] = step.given.slice(step.given.lastIndexOf(', ') + 2).split('+'), found = [{ verb: 'opens', ...file, detail: mode }];
  if (!old && file.path) found.push({ verb: 'changes the name', path: file.path, detail: 'open' });
  if (old && flags.includes('trunc')) found.push({ verb: 'writes', ...file, detail: 'size 0' });
  return found;
}

function renames(step) {
  const changed = { link: [1], rename: [0, 1] }[step.name] || [0];
  return changed.map(number => ({ verb: 'changes the name', path: place(step, number, false), detail: step.name }));
}

const place = (step, number, follow) => walk(step.state, directoryOf(step.one.is), step.paths[number] || '', follow);

// The accesses of a step, in the order of `access`: of each also its file, in words. A name that is changed has its path there.
function accesses(state, one) {
  const call = callOf(one.step);
  if (!call) return [];
  const found = ACCESSES[call.name]({ ...call, state, one }).map(access => {
    const name = access.node === undefined && access.path ? nameAt(state, access.path) : null, node = name ? name.node : access.node;
    const isName = access.verb === 'changes the name' || node === undefined;
    return { ...access, node, file: isName ? `"${access.path}"` : brief(access.verb === 'opens' ? one.to : state, node) };
  });
  const rank = ({ verb }) => Object.values(WORDS).indexOf(WORDS[verb]);
  return found.length > 1 ? found.sort((one, other) => rank(one) - rank(other)) : found;
}

// ---- tables that hide a file

const tableOf = memo(may => new Map(lines(may).map(line => /^MAY   \S{4} "(.*?)", (no table|none|entry \d+)/.exec(line)).filter(Boolean)
  .map(found => [found[1], found[2]])));

// Whether the table of a process gives no permission at a path. A name that does not exist is governed as its directory is.
function hides(one, path) {
  if (!facts(one.is).UNVL.startsWith('in force')) return false;
  const table = tableOf(one.may);
  let here = path;
  while (!table.has(here) && here) here = here.slice(0, here.lastIndexOf('/'));
  const who = table.get(here || '/');
  if (!who || who === 'no table') return false;
  return who === 'none' || facts(one.is).unveil.some(line => line.startsWith(`${who}, ----`));
}

// The names of what is accessed, in a state.
function pathsOf(state, access) {
  const paths = names(state).filter(name => name.node === access.node).map(name => name.path);
  return !paths.length && access.path ? [access.path] : paths;
}

// Those of these processes, of a state, whose tables hide each name of what is accessed, and which have no descriptor of it.
function hiddenFrom(state, access, others) {
  const paths = pathsOf(state, access);
  return paths.length ? others.filter(one => one.to !== -2 && !holds(one, access.node) && paths.every(path => hides(one, path)))
    .map(one => one.process) : [];
}

// Whether a process makes an access by a descriptor, and its own table hides each name of the file.
const BY_DESCRIPTOR = ['read', 'write', 'ftruncate', 'getdents', 'lseek', 'fchdir', 'fstat'];
function pastOwnTable(state, one, access) {
  const call = callOf(one.step), paths = pathsOf(state, access);
  return Boolean(call && BY_DESCRIPTOR.includes(call.name) && paths.length && paths.every(path => hides(one, path)));
}

// ---- all observations, in the order of the search, each with its first step

function findObservations() {
  const numbers = new Map(), read = new Set(), readNumbers = new Set(), written = new Set(), init = nameAt(0, '/init');
  observedAt = new Map();
  rows.forEach((_, state) => {
    for (const one of live(state)) for (const access of accesses(state, one)) {
      if (['reads', 'runs'].includes(access.verb)) readNumbers.add(access.node);
      if (['reads', 'runs'].includes(access.verb) && !isLater(state, access.node)) read.add(access.node);
      observe(numbers, state, one, access);
      writeAccess(written, state, one, access);
    }
  });
  observationSets = new Sets(observations.length);
  for (const [key, found] of observedAt) for (const number of found) observationSets.add(Number(key.split(' ')[0]), number);
  observationSets.close();
  const files = [...new Set(names(0).filter(({ kind }) => 'fx'.includes(kind)).map(({ node }) => node))].filter(node => !(init && node === init.node));
  unread = files.filter(node => !read.has(node)).map(node => nameOf(0, node));
  unreadNumbers = files.filter(node => !readNumbers.has(node));
}

// Adds the line that `access` writes for an access, if no earlier step had it.
function writeAccess(written, state, one, access) {
  const word = WORDS[access.verb], text = (access.verb === 'opens' ? access.detail + ' ' : '') + access.file, key = `${one.process} ${word} ${text}`;
  if (written.has(key)) return;
  written.add(key);
  accessLines.push({ process: one.process, word, text, file: access.file, state });
}

function observe(numbers, state, one, access) {
  const node = access.verb === 'changes the name' ? undefined : access.node, at = access.verb === 'opens' ? one.to : state;
  const label = fileLabel(access.file, node, node !== undefined && isLater(at, node)), step = `${state} ${one.process}`;
  const key = [one.process, access.verb, label, access.detail].join('\n');
  if (!numbers.has(key)) {
    numbers.set(key, observations.length);
    observations.push({ process: one.process, verb: access.verb, label, node, path: access.path, detail: access.detail, state, own: null, hidden: null });
  }
  const number = numbers.get(key), found = observations[number];
  observedAt.set(step, [...observedAt.get(step) || [], number]);
  if (!found.own && pastOwnTable(state, one, access)) found.own = { state };
  if (found.hidden) return;
  const from = hiddenFrom(state, access, processes(state).filter(other => other.process !== one.process));
  if (from.length) found.hidden = { from, state };
}

const observedBy = step => observedAt.get(`${step.from} ${step.process}`) || [];

// The observations that a step rules out: they can come before it, are not made, and cannot come after it.
function ruledOut(step, made) {
  const found = [], { width, bits } = observationSets;
  if (step.to < 0 || step.from === step.to) return found;
  for (let at = 0; at < width; at++) {
    let left = bits[step.from * width + at] & ~bits[step.to * width + at];
    for (; left; left &= left - 1) found.push(at * 32 + 31 - Math.clz32(left & -left));
  }
  const own = observedBy(step);
  return found.filter(number => !made.has(number) && !own.includes(number));
}

const made = steps => new Set(steps.flatMap(observedBy));
const fileOf = observation => observation.label;
const observationText = one => `${one.process} ${one.verb} ${fileOf(one)}${one.detail ? ' ' + one.detail : ''}`;
const witnessOf = (one, state = one.state) => [...prefixTo(state), stepOf(state, one.process)];
