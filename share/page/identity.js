// The texts of files. A node number can be used again after its file is gone, so a file is its number and whether it is of the first tree.

// A node as `access` and `exposure` write it: its path or its number and, if it has another path in the first tree, that path.
const firstPath = memo(node => (nameOf(0, node) || { path: null }).path);

function brief(state, node) {
  const name = nameOf(state, node), first = firstPath(node);
  return (name ? `"${name.path}"` : `node ${node}`) + (first && first !== (name && name.path) ? `, first "${first}"` : '');
}

const holds = (one, node) => node !== undefined && facts(one.is).descriptors.some(line => new RegExp(`, node ${node}(?!\\d)`).test(line));

// ---- the nodes of the first tree that are still there

let firstNumbers = new Map(), stays;

// Finds for each state the nodes of the first tree that some schedule leaves there. No step removes a node and uses its number again.
function findStays() {
  firstNumbers = new Map([...new Set(names(0).map(({ node }) => node))].map((node, k) => [node, k]));
  stays = new Sets(firstNumbers.size);
  for (const number of firstNumbers.values()) stays.add(0, number);
  const queue = [0];
  while (queue.length) {
    const state = queue.pop();
    for (const { to } of live(state)) if (to >= 0 && passOn(state, to)) queue.push(to);
  }
}

// Adds to a state the nodes of the state before it that it still has. Returns whether there are more than before.
function passOn(state, to) {
  let more = false;
  for (const [node, number] of firstNumbers) {
    if (!stays.has(state, number) || stays.has(to, number) || !isThere(to, node)) continue;
    stays.add(to, number);
    more = true;
  }
  return more;
}
const isThere = (state, node) => names(state).some(name => name.node === node)
  || live(state).some(one => lines(one.is).some(line => new RegExp(`node ${node}(?!\\d)`).test(line)));

// Whether a node has a number of the first tree, but is not the node that had it there.
const isLater = (state, node) => state >= 0 && firstNumbers.has(node) && !stays.has(state, firstNumbers.get(node));

// ---- all texts and paths of each file

const sharedPaths = new Set(), pathsByNode = new Map(), textsByNode = new Map(), nodesByText = new Map();
const addTo = (map, key, value) => { if (!map.has(key)) map.set(key, new Set()); map.get(key).add(value); };

// Finds the paths and texts of each node in visited states, and the paths that two files had.
function findTexts() {
  const files = new Map();
  rows.forEach((_, state) => {
    for (const { node, path } of names(state)) {
      const file = `${node} ${isLater(state, node)}`;
      if (files.has(path) && files.get(path) !== file) sharedPaths.add(path);
      files.set(path, file);
      addTo(pathsByNode, node, path);
    }
  });
  const seen = new Set();
  rows.forEach(([tree], state) => {
    if (seen.has(tree)) return;
    seen.add(tree);
    for (const { node } of names(state)) addTo(textsByNode, node, brief(state, node));
  });
  for (const [node, paths] of pathsByNode) {
    for (const path of paths) addTo(textsByNode, node, `"${path}"`);
    addTo(textsByNode, node, `node ${node}`);
    if (firstPath(node)) addTo(textsByNode, node, `node ${node}, first "${firstPath(node)}"`);
    for (const text of textsByNode.get(node)) addTo(nodesByText, text, node);
  }
}
const nodesOf = text => [...nodesByText.get(text) || []];
const nodesAt = path => nodesOf(`"${path}"`);

// A file on the page: its text without quotes, with its number if two files had its path. Of a file without a name also the paths that it had.
function fileLabel(text, node, isLaterFile = false) {
  const own = isLaterFile ? text.replace(/, first .*/, '') : text, later = isLaterFile ? 'a later ' : '', shown = own.replace(/"/g, '');
  if (own.startsWith('node ')) {
    const number = /^node (\d+)$/.exec(own), once = number && !isLaterFile ? [...pathsByNode.get(Number(number[1])) || []] : [];
    return later + shown + (once.length ? `, once ${once.join(' or ')}` : '');
  }
  const isShared = [...own.matchAll(/"([^"]*)"/g)].some(([, path]) => sharedPaths.has(path));
  return shown + (isShared && node !== undefined ? ` (${later}node ${node})` : '');
}

// A text of `exposure`, with the number of its file if no other file has this text.
const textLabel = text => fileLabel(text, nodesOf(text).length === 1 ? nodesOf(text)[0] : undefined);
