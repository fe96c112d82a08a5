// The whole page: the status line, the keys, and the start.

function say(text) { by('said').textContent = text; }

function sayStep() {
  if (!at) return say('The start. Choose the process that makes the first step.');
  const step = prefix[at - 1], { call, answer, bytes } = summary(step, programsAt(prefix, at - 1).get(step.process)), kind = kindOf(linesOf(step));
  const hidden = hiddenOn(step, lastOf(prefix.slice(0, at)));
  const own = isPastOwn(step) ? `, by a descriptor: ${PAST_OWN}` : '';
  say(`Step ${at}, process ${step.process}: ${call} ${answer}${bytes ? '  ' + bytes : ''}${kind === 'refused' ? ', refused by the sandbox' : ''}`
    + own + (hidden.length ? `, hidden from process ${hidden.join(', ')}` : ''));
}

// Draws, and gives the focus back to the element with the same key.
function keepFocus(draw) {
  const active = document.activeElement && document.activeElement.dataset ? document.activeElement.dataset.key : null;
  draw();
  if (!active || document.activeElement.dataset.key === active) return;
  const again = document.querySelector(`[data-key="${CSS.escape(active)}"]`) || active.startsWith('next') && document.querySelector('#choices button');
  if (again) again.focus({ preventScroll: true });
}

function show(move) {
  keepFocus(() => {
    for (const draw of [drawPrefix, drawKept, drawChoices, drawCards, drawPrograms, drawAsked, drawFiles, drawObservations, drawEnds]) draw();
    if (move) reveal();
    by('back').disabled = by('start').disabled = at === 0;
    by('forward').disabled = at >= prefix.length;
    for (const id of ['turn', 'play', 'all']) by(id).disabled = !schedule.length;
    sayStep();
    remember();
  });
}

function typed(event) {
  const field = event.target.matches('input, select, textarea');
  if (event.ctrlKey || event.metaKey || event.altKey || by('keys').open) return;
  if (field) { if (event.key === 'Escape') event.target.blur(); return; }
  const digit = /^Digit([1-9])$/.exec(event.code);
  const actions = { ArrowLeft: () => go(at - 1), ArrowRight: () => go(at + 1), Backspace: () => go(at - 1), Home: () => go(0),
    End: () => go(prefix.length), Escape: closeAsked, s: () => { stop(); scheduleStep(); }, p: play, e: scheduleAll, k: keep,
    '/': () => by('text').focus(), '?': () => by('keys').showModal() };
  if (digit && event.shiftKey) look(Number(digit[1]));
  else if (digit) makeStep(Number(digit[1]));
  else if (/^[1-9]$/.test(event.key)) makeStep(Number(event.key));
  else if (event.target.closest('.steps') && event.key === 'ArrowUp') go(at - 1);
  else if (event.target.closest('.steps') && event.key === 'ArrowDown') go(at + 1);
  else if (actions[event.key]) actions[event.key]();
  else return;
  event.preventDefault();
}

function connect() {
  const press = { start: () => go(0), back: () => go(at - 1), forward: () => go(at + 1), turn: () => { stop(); scheduleStep(); }, play,
    all: scheduleAll, keep, help: () => by('keys').showModal(), swap, drop: keep,
    'asked-close': closeAsked };
  for (const [id, action] of Object.entries(press)) by(id).addEventListener('click', action);
  by('search').addEventListener('submit', search);
  by('filter').addEventListener('input', drawObservations);
  by('observations').addEventListener('toggle', drawObservations);
  by('ends').addEventListener('toggle', drawEnds);
  document.addEventListener('keydown', typed);
  window.addEventListener('resize', reveal);
  window.addEventListener('hashchange', () => { stop(); fromAddress(); forget(); show(true); });
}

async function begin() {
  try { data = await load(); } catch (error) { return say(error.message); }
  rows = data.rows;
  schedule = [...turns()];
  link();
  findEnds();
  findStays();
  findTexts();
  findObservations();
  hasLists = data.exposed.some(one => one.findings.some(({ word }) => word === 'EDIT'));
  makePrograms();
  by('name').textContent = data.name;
  by('size').textContent = `${data.done}, ${count(ends.length, 'end')}`;
  by('size').classList.toggle('cut', !data.complete);
  by('bundle-text').textContent = data.bundle;
  by('ends').open = ends.length > 1 && ends.length <= 8;
  drawSuggestions();
  connect();
  fromAddress();
  show(true);
  document.documentElement.dataset.opened = String(Math.round(performance.now()));
}

document.addEventListener('DOMContentLoaded', begin);
