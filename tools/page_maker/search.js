// The search box, and words of statements that open in place. Pages are complete without this script. The search looks
// for names first, and then in the texts of pages.
const up = document.body.dataset.up, box = document.createElement('input'), hits = document.createElement('div');
const MOST_NAMES = 30, MOST_TEXTS = 20, AROUND = 50;
let names = null, texts = [];
box.id = 'q';
box.placeholder = 'Search';
box.autocomplete = 'off';
box.setAttribute('aria-label', 'Search for names, and in the texts of pages');
hits.id = 'hits';
document.querySelector('header').append(box, hits);

// names.js calls this with all names, and with headings and rows of pages.
function found(rows) {
  names = rows;
  show();
}

// texts.js calls this with the sections of pages: the address, the page, and the text of each.
function foundTexts(rows) {
  texts = rows.map(row => [...row, row[2].toLowerCase()]);
  show();
}

function load() {
  if (names) return;
  names = [];
  for (const name of ['names.js', 'texts.js']) {
    const script = document.createElement('script');
    script.src = up + name;
    document.head.append(script);
  }
}

function add(url, text, said) {
  const link = document.createElement('a'), small = document.createElement('small');
  link.href = up + url;
  link.textContent = text + ' ';
  small.textContent = said;
  link.append(small);
  hits.append(link);
}

// The sections that contain all words; sections that contain the words next to each other come first.
function sections(query) {
  const words = query.split(/\s+/).filter(Boolean);
  const rows = texts.filter(row => words.every(word => row[3].includes(word)));
  rows.sort((a, b) => b[3].includes(query) - a[3].includes(query));
  return rows.slice(0, MOST_TEXTS).map(([url, page, text, lower]) => {
    const at = Math.max(0, lower.indexOf(lower.includes(query) ? query : words[0]) - AROUND);
    return [url, page, (at ? '.. ' : '') + text.slice(at, at + 3 * AROUND) + ' ..'];
  });
}

function show() {
  const text = box.value.trim().toLowerCase();
  hits.replaceChildren();
  if (text.length < 2 || !names) return;
  const begins = row => row[0].toLowerCase().split('::').pop().startsWith(text) ? 0 : 1;
  const rows = names.filter(row => row[0].toLowerCase().includes(text));
  rows.sort((a, b) => begins(a) - begins(b) || a[0].length - b[0].length);
  for (const [name, kind, crate, url] of rows.slice(0, MOST_NAMES)) add(url, name, `${kind}, ${crate}`);
  const found = text.length < 3 ? [] : sections(text);
  for (const [url, page, said] of found) add(url, page, said);
  if (!hits.firstChild) hits.textContent = 'Nothing is found.';
}

box.addEventListener('focus', load);
box.addEventListener('input', show);
box.addEventListener('keydown', event => {
  if (event.key === 'Enter' && hits.firstChild) location = hits.firstChild.href;
  if (event.key === 'Escape') { box.value = ''; show(); }
});
document.addEventListener('keydown', event => {
  if (event.key === '/' && document.activeElement !== box) { event.preventDefault(); box.focus(); }
});

// A click on a word of a statement opens its definition below the row, or closes it.
document.addEventListener('click', event => {
  const link = event.target.closest('a[data-w]');
  if (!link || event.ctrlKey || event.metaKey || event.shiftKey) return;
  const row = link.closest('.row'), word = document.getElementById(link.dataset.w);
  if (!row || !word) return;
  event.preventDefault();
  let below = row.querySelector(':scope > .below');
  if (!below) {
    below = document.createElement('div');
    below.className = 'below';
    row.append(below);
  }
  const here = [...below.children].find(child => child === word || child.dataset.copy === link.dataset.w);
  if (here) {
    if (here.dataset.copy) here.remove(); else here.open = !here.open;
    return;
  }
  const copy = word.cloneNode(true);
  copy.removeAttribute('id');
  copy.querySelectorAll('[id]').forEach(part => part.removeAttribute('id'));
  copy.querySelectorAll('details').forEach(part => { part.open = false; });
  copy.dataset.copy = link.dataset.w;
  copy.open = true;
  below.append(copy);
});
