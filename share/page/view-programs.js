// The programs as their author wrote them, beside the steps, with the lines at which processes are.

let programRows = new Map();

// A line of a program, given its number, its text, and the places in it at which its label ends and its comment begins.
function programRow([number, line, label, comment]) {
  return make('li', {}, make('span', { class: 'at who' }), make('span', { class: 'number' }, number ? String(number) : ''), make('span', { class: 'text' },
    make('b', {}, line.slice(0, label)), line.slice(label, comment), make('span', { class: 'quiet' }, line.slice(comment))));
}

// Makes the lists of lines, once.
function makePrograms() {
  by('programs-text').replaceChildren(...Object.entries(data.programs).map(([node, own]) => {
    const items = own.shown.map(programRow), isAlone = Object.keys(data.programs).length === 1;
    const box = make('details', { open: isAlone }, make('summary', {}, own.path), make('ol', { 'aria-label': own.path }, ...items));
    items.push(programRow([0, '', 0, 0]));
    box.lastChild.append(items[items.length - 1]);
    const at = new Map(own.shown.map(([number], k) => [number, items[k]]));
    programRows.set(node, { box, items, at, end: items[items.length - 1], isLive: false });
    return box;
  }));
}

// Marks the line of each live process. A program opens when a process begins to run it, and closes when other programs run alone.
function drawPrograms() {
  const state = now(), programs = programsAt(prefix, at), known = state < 0 ? [] : live(state);
  for (const own of programRows.values()) for (const item of own.items) mark(item, []);
  const where = new Map();
  for (const one of known) {
    const program = programs.get(one.process), own = program && programRows.get(String(program.node));
    if (!own || data.programs[program.node].instructions.length !== facts(one.is).of) continue;
    const item = own.at.get(facts(one.is).line) || own.end;
    where.set(item, [...where.get(item) || [], one.process]);
  }
  for (const [item, who] of where) mark(item, who);
  for (const own of programRows.values()) {
    const isLive = own.items.some(item => where.has(item));
    if (isLive !== own.isLive && where.size) own.box.open = own.isLive = isLive;
    own.end.hidden = !where.has(own.end);
  }
  by('programs').hidden = !programRows.size;
  revealLine([...where].find(([, who]) => at && who.includes(prefix[at - 1].process)) || [...where][0]);
}

function mark(item, who) {
  item.className = who.length ? 'position' : '';
  item.firstChild.textContent = who.join(' ');
  if (who.length) item.setAttribute('aria-current', 'true'); else item.removeAttribute('aria-current');
  if (!item.children[1].textContent && who.length) item.lastChild.textContent = 'the end: exit 0';
}

// Scrolls the line of the process that made the last step into the view of the box that scrolls.
function revealLine(found) {
  const box = by('programs'), item = found && found[0];
  if (!item || !box.offsetParent) return;
  const top = item.offsetTop, bottom = top + item.offsetHeight, above = 60;
  if (top < box.scrollTop + above) box.scrollTop = Math.max(top - above, 0);
  else if (bottom > box.scrollTop + box.clientHeight - 24) box.scrollTop = bottom - box.clientHeight + 60;
}
