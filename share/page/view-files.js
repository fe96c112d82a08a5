// The tree of the current state, with the bytes of files and the permissions of one process.

const lookedAt = state => {
  const found = processes(state), last = at ? prefix[at - 1].process : 1;
  return found.find(one => one.process === (looked || last) && one.to !== -2) || found.find(one => one.to !== -2) || null;
};

const mayOf = memo(block => new Map(lines(block).map(line => /^MAY   (\S{4}) "(.*?)", (.*)$/.exec(line)).filter(Boolean)
  .map(found => [found[2], { allowed: found[1], who: found[3] }])));

function drawFiles() {
  const state = now();
  by('looked').textContent = '';
  if (state < 0) { by('tree').replaceChildren(); by('others').replaceChildren(); by('looks').replaceChildren(); return; }
  const one = lookedAt(state), old = at && stateAt(prefix, at - 1) >= 0 ? stateAt(prefix, at - 1) : -1;
  const previous = old >= 0 && one ? processes(old).find(other => other.process === one.process) : null;
  const may = one ? mayOf(one.may) : new Map(), mayOld = previous ? mayOf(previous.may) : may;
  const treeOld = new Set(names(old >= 0 ? old : state).map(nameKey));
  if (one) by('looked').textContent = `and the permissions of the next call of process ${one.process}`;
  by('looks').replaceChildren(make('button', { 'aria-pressed': String(!looked), 'data-key': 'look0', onclick: () => look(0) }, 'last process'),
    ...live(state).map(other => make('button', { 'aria-pressed': String(looked === other.process), 'data-key': 'look' + other.process,
      'aria-label': `Process ${other.process}`, onclick: () => look(other.process) }, String(other.process))));
  by('tree').replaceChildren(...names(state).map(name => fileRow(name, may, mayOld, !treeOld.has(nameKey(name)))));
  const paths = new Set(names(state).map(name => `"${name.path}"`));
  by('others').replaceChildren(...one ? lines(one.may).map(rest).filter(line => !paths.has((/^\S{4} (".*?"), (?!.*absent)/.exec(line) || [])[1]))
    .map(line => make('li', {}, permissions(line.slice(0, 4)), ...otherPlace(line.slice(5)))) : []);
}

// A place without a name in the tree. A file that is only held can be asked about.
function otherPlace(place) {
  const node = /^node (\d+)(?=, descriptor)/.exec(place);
  if (!node) return [place];
  const label = fileLabel(node[0], Number(node[1]));
  return [fileButton(label, [Number(node[1])], 'name' + label), place.slice(node[0].length)];
}

const nameKey = name => `${name.kind} ${name.node} ${name.size} ${name.path} ${name.content}`;

function fileRow(name, may, mayOld, fresh) {
  const { kind, path } = name, found = may.get(path), old = mayOld.get(path), depth = path === '/' ? 0 : path.split('/').length - 1;
  const last = path === '/' ? '/' : path.slice(path.lastIndexOf('/') + 1) + (kind === 'd' ? '/' : kind === 'x' ? '*' : kind === 'l' ? '@' : '');
  const allowed = found ? found.allowed : '', who = found ? found.who : '';
  const changed = fresh || (old ? old.allowed : '') !== allowed;
  const shown = make('span', { class: 'name', title: `${path}, node ${name.node}` },
    make('span', { class: 'heard' }, path.slice(0, path.lastIndexOf('/') + 1)), fileButton(last, [name.node], 'name' + path, path),
    kind === 'x' || kind === 'd' ? '' : make('span', { class: 'content' }, ' ' + contentOf(name, 24, false)));
  shown.style.paddingLeft = depth * 14 + 'px';
  return make('tr', { class: (allowed === '----' && !who.includes('descriptor') ? 'shut' : '') + (changed ? ' new' : '')
    + (asked && asked.nodes.has(name.node) ? ' asked' : '') },
    make('td', {}, permissions(allowed)), make('th', { scope: 'row' }, shown, changed ? make('span', { class: 'heard' }, ', changed') : ''),
    make('td', { class: 'size quiet' }, String(name.size)), make('td', { class: 'by quiet' }, ...who.split(', ').map(part => make('div', {}, part))));
}

function look(process) { looked = process; drawFiles(); }
