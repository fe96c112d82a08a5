// What comes next: a button for each live process, with what its step decides.

function endsText(state) {
  if (state < 0) return 'left out';
  const found = endsFrom(state);
  const some = found.length === ends.length && ends.length > 3 ? `all ${ends.length} ends`
    : found.length > 8 ? `${found.length} of ${ends.length} ends`
    : found.length ? `end${found.length > 1 ? 's' : ''} ${found.map(end => end + 1).join(', ')}` : 'no end';
  return some + (isOpen(state) ? ', and states that were left out' : '');
}

// What is said above the choices.
function question(choices, isCut, differ) {
  if (isCut) return `The graph ends here: ${data.done}. Of a step that is left out the page has its lines, and nothing after it.`;
  if (choices.length < 2) return '';
  if (differ) return 'Which process is next? The choice decides what can still happen.';
  const left = [...ends.length ? ['ends'] : [], ...observations.length ? ['observations'] : []].join(' and ');
  return 'Which process is next?' + (left ? ` Every choice leaves the same ${left} possible.` : '');
}

function choiceOf(one, call, ruled, differ) {
  const notes = ends.length > 1 || one.to < 0 || isOpen(one.to) ? [text(endsText(one.to))] : [];
  if (ruled.length) notes.push(ruledNote(ruled));
  if (can && one.to >= 0) notes.push(text(can.has[one.step] || can[one.to] ? `‘${sought}’ is possible` : `‘${sought}’ is not possible`));
  const press = { class: 'next' + (differ ? ' differs' : ''), 'data-key': 'next' + one.process, onclick: () => makeStep(one.process) };
  return make('button', press, make('span', {}, make('span', { class: 'heard' }, 'Step process '),
    make('span', { class: 'number' }, String(one.process)), ' ' + call),
    notes.length ? make('span', { class: 'ends' }, ...notes.flatMap((note, k) => k ? [text('; '), note] : [note])) : null);
}

function drawChoices() {
  const state = now(), box = by('choices'), next = state < 0 ? [] : live(state), programs = programsAt(prefix, at);
  if (state < 0) {
    return box.replaceChildren(make('p', { class: 'cut' }, `The graph ends here: ${data.done}. The page does not have the states after this step.`));
  }
  if (!next.length) return box.replaceChildren(make('p', {}, `No process is live: end ${endOf.get(state) + 1} of ${ends.length}.`));
  const isCut = next.some(one => one.to < 0), seen = made(prefix.slice(0, at));
  const ruled = next.map(one => ruledOut(stepOf(state, one.process), seen));
  const differ = !isCut && next.some((one, k) => !sameEnds(one.to, next[0].to) || ruled[k].join() !== ruled[0].join());
  const buttons = next.map((one, k) => choiceOf(one, nextOf(facts(one.is), programs.get(one.process)), ruled[k], differ));
  const said = question(next, isCut, differ);
  box.replaceChildren(...said ? [make('p', { class: isCut ? 'cut' : 'quiet' }, said)] : [], make('div', { class: 'row' }, ...buttons));
}
