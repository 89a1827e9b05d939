'use strict';
(() => {
  const rows = document.getElementById('rows');
  if (!rows) return;
  const refused = Array.from(document.querySelectorAll('#rows .no[id]'), row => +row.id.slice(1));
  const arrows = new Map(), back = [];
  let thick = [];

  const keep = (key, arrow) => arrows.has(key) ? arrows.get(key).push(arrow) : arrows.set(key, [arrow]);
  for (const arrow of document.querySelectorAll('#arrows path')) {
    const { from, to, reader } = arrow.dataset;
    keep('L' + from, arrow);
    keep('L' + to, arrow);
    keep(from + '-' + reader, arrow);
  }

  const selected = () => /^#L\d+$/.test(location.hash) ? document.getElementById(location.hash.slice(1)) : null;

  // The arrows of the selected row, and those of the Commit that made its transaction stale.
  const thicken = () => {
    for (const arrow of thick) arrow.classList.remove('on');
    const row = selected();
    thick = row ? [...arrows.get(row.id) || [], ...arrows.get(row.dataset.stale) || []] : [];
    for (const arrow of thick) arrow.classList.add('on');
  };

  const inSight = row => {
    const { top, bottom } = row.getBoundingClientRect();
    return top > 36 && bottom < innerHeight * 0.58;
  };

  // The browser would move a row to the place that a named row has. One that is in sight stays where it is.
  const select = row => {
    const height = scrollY;
    location.replace('#' + row.id);
    scrollTo(scrollX, height);
    row.firstElementChild.focus({ preventScroll: true });
    if (!inSight(row)) row.scrollIntoView({ block: 'center', inline: 'nearest' });
    thicken();
    return true;
  };

  const jump = (line, from) => {
    const row = document.getElementById('L' + line);
    if (!row) return false;
    if (from && from !== row) back.push(from.id.slice(1));
    return select(row);
  };

  const step = (row, by) => {
    const next = row ? document.getElementById('L' + (+row.id.slice(1) + by)) : rows.querySelector('li');
    return next ? select(next) : true;
  };

  const enter = row => {
    const active = document.activeElement;
    const elsewhere = active && active !== document.body && active !== (row && row.firstElementChild);
    return !elsewhere && row && row.dataset.cause ? jump(row.dataset.cause, row) : false;
  };

  const press = key => {
    const row = selected(), line = row ? +row.id.slice(1) : 0;
    switch (key) {
      case 'n': return jump(refused.find(other => other > line));
      case 'p': return jump(refused.findLast(other => other < line));
      case 'ArrowDown': return step(row, 1);
      case 'ArrowUp': return step(row, -1);
      case 'Enter': return enter(row);
      case 'Backspace': return back.length > 0 && jump(back.pop());
    }
    return false;
  };

  addEventListener('keydown', event => {
    if (event.ctrlKey || event.metaKey || event.altKey) return;
    if (press(event.key)) event.preventDefault();
  });
  addEventListener('click', event => {
    const link = event.target.closest('a[href^="#L"]');
    if (!link || event.ctrlKey || event.metaKey || event.shiftKey) return;
    if (jump(link.hash.slice(2), selected())) event.preventDefault();
  });
  addEventListener('hashchange', thicken);
  for (const keys of document.getElementsByClassName('keys')) keys.hidden = false;
  thicken();
})();
