// What a process can do to a file in a state by its own calls, whatever they are: the conditions of `audit` and of the list EDIT of `exposure`.

const keywordsOf = value => value === 'none' ? null : value.replace(/"/g, '').split(' ');
const MODE = /^(\d+), file \d+, (rw|r|w)[^,]*, offset \d+, node (\d+)/;

// The least descriptor of a process on a file that is open in this mode, r or w; null if there is none.
function descriptorFor(own, node, mode) {
  const found = own.descriptors.map(line => MODE.exec(line)).find(form => form && Number(form[3]) === node && form[2].includes(mode));
  return found ? found[1] : null;
}

// The entries of a table, each with its number, its letters and its target.
const entriesOf = own => own.unveil.map(line => /^entry (\d+), (\S{4}), (.*)$/.exec(line)).map(([, number, letters, target]) =>
  ({ number: Number(number), letters, target }));

// The least entry with one of these letters that governs a name of the file.
function entryThatGives(one, paths, letters) {
  const governing = new Set(paths.map(path => (mayOf(one.may).get(path) || { who: '' }).who.split(', ')[0]));
  return entriesOf(facts(one.is)).find(entry => governing.has(`entry ${entry.number}`) && [...letters].some(letter => entry.letters.includes(letter)));
}

// The least entry with c at the directory of a name of the file, or at a directory above it.
function entryAbove(one, paths) {
  const above = new Set(paths.flatMap(path => path.split('/').slice(0, -1).map((_, k, parts) => parts.slice(0, k + 1).join('/') || '/')));
  return entriesOf(facts(one.is)).find(({ letters, target }) => {
    const directory = /^node \d+ "(.*)"$/.exec(target);
    return letters.includes('c') && directory && above.has(directory[1]);
  });
}

const namesFor = (state, node) => names(state).filter(name => name.node === node).map(name => name.path);

// The first reason that the table and the promises leave, for an access that needs these letters at a name, and c above it unless `isFirm`.
function reasonOf(state, one, node, letters, isFirm) {
  const own = facts(one.is), promises = keywordsOf(own.PLDG), paths = namesFor(state, node);
  if (!own.UNVL.startsWith('in force')) return 'no table';
  if (!own.UNVL.endsWith('locked')) return 'not locked';
  const gives = entryThatGives(one, paths, letters), above = isFirm ? null : entryAbove(one, paths);
  if (gives) return `entry ${gives.number} gives`;
  if (above) return `entry ${above.number} above`;
  return promises && !promises.includes('exec') || own.EXPR !== 'none' ? null : 'may exec';
}

// Why a process is not closed to a file: null if it never depends on the file's bytes.
function leakOf(state, one, node) {
  const promises = keywordsOf(facts(one.is).PLDG), descriptor = descriptorFor(facts(one.is), node, 'r');
  if (descriptor !== null) return `reads descriptor ${descriptor}`;
  if (promises && !['rpath', 'exec', 'cpath'].some(name => promises.includes(name))) return null;
  return reasonOf(state, one, node, 'rxc', false);
}

// Why a process is not fixed to a file: null if it never changes the file's bytes.
function editOf(state, one, node) {
  const promises = keywordsOf(facts(one.is).PLDG), descriptor = descriptorFor(facts(one.is), node, 'w');
  if (descriptor !== null) return `writes descriptor ${descriptor}`;
  if (promises && !['wpath', 'exec'].some(name => promises.includes(name))) return null;
  const isFirm = Boolean(promises) && !['cpath', 'exec'].some(name => promises.includes(name));
  return reasonOf(state, one, node, isFirm ? 'w' : 'wrc', isFirm);
}

// The other process that could still read a file that this one is closed to, and why: null if there is none.
function peerOf(state, one, node) {
  if (leakOf(state, one, node)) return null;
  const other = live(state).find(other => other.process !== one.process && leakOf(state, other, node));
  return other ? `process ${other.process} ${leakOf(state, other, node)}` : null;
}

const FINDINGS = { LEAK: leakOf, PEER: peerOf, EDIT: editOf };

// The numbers of the files of a state: the named ones in the order of the tree, then those that are only held, by number.
function filesOf(state) {
  const named = names(state).filter(({ kind }) => 'fx'.includes(kind)).map(({ node }) => node);
  const held = live(state).flatMap(one => lines(one.may).map(line => /^MAY   ---- node (\d+), descriptor/.exec(line)).filter(Boolean))
    .map(form => Number(form[1]));
  return [...new Set([...named, ...held.sort((one, other) => one - other)])];
}
