// One file that is asked about: the lines of `access` and `exposure` about it alone, each with a link to its witness.

let asked = null;

// A name that asks about a file.
function fileButton(label, nodes, key, path = label) {
  return make('button', { class: 'file', title: `${path}: the lines of access and exposure`, 'data-key': key, onclick: () => ask(path, nodes) }, label);
}

function ask(label, nodes) {
  asked = { label, texts: new Set(nodes.flatMap(node => [...textsByNode.get(node) || []])), nodes: new Set(nodes) };
  keepFocus(() => { drawAsked(); drawFiles(); });
  const { top, bottom } = by('asked').getBoundingClientRect();
  if (top < 0 || bottom > innerHeight) by('asked').scrollIntoView({ block: 'nearest' });
}

function closeAsked() {
  asked = null;
  drawAsked();
  drawFiles();
}

const isAsked = text => asked.texts.has(text);
const answerLine = (process, word, text) => `${process} ${word.padEnd(4)}  ${text}`;

function accessItems() {
  const found = accessLines.filter(one => isAsked(one.file)).map(one => make('li', {}, linkTo([...prefixTo(one.state), stepOf(one.state, one.process)],
    answerLine(one.process, one.word, one.text), `access ${one.process} ${one.word} ${one.text}`)));
  const never = data.complete ? unreadNumbers.filter(node => asked.nodes.has(node)).map(node => make('li', {}, answerLine(0, 'UNRD', brief(0, node)))) : [];
  return [...found, ...never];
}

function exposureItems(own) {
  const found = own.findings.filter(one => isAsked(one.file)).map(one => make('li', {}, linkTo(stepsOf(one.turns), answerLine(one.process, one.word,
    `${one.file}, lines ${rangesOf(one.lines)}${one.reason ? ', ' + one.reason : ''}`), `exposure ${own.text} ${one.word} ${one.file}`)));
  const safe = own.safe.filter(isAsked).map(text => make('li', {}, answerLine(0, 'SAFE', text)));
  return found.length + safe.length ? [make('li', { class: 'quiet' }, `PROG  ${own.text}`), ...found, ...safe] : [];
}

function drawAsked() {
  by('asked').hidden = !asked;
  if (!asked) return;
  const list = (name, items) => [make('h3', {}, name), items.length ? make('ul', {}, ...items) : make('p', { class: 'quiet' }, 'no line about this file')];
  const others = [...asked.nodes].length > 1 ? [make('p', { class: 'quiet' }, `Files with this path: nodes ${[...asked.nodes].join(', ')}.`)] : [];
  by('asked-name').textContent = asked.label;
  by('asked-lines').replaceChildren(...others, ...list('access', accessItems()), ...list('exposure', data.exposed.flatMap(exposureItems)),
    ...data.complete ? [] : [make('p', { class: 'cut' }, 'The graph is not complete: there may be further lines.')]);
}
