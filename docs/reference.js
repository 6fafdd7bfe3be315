// Opens what a link leads to where that is folded, and searches the names on the first page.
'use strict';

const most = 60;
const late = ['variant', 'definition'];

function unfold() {
  const place = document.getElementById(decodeURIComponent(location.hash.slice(1)));
  if (!place) return;
  for (let at = place; at; at = at.parentElement) {
    if (at.tagName === 'DETAILS') at.open = true;
  }
  place.scrollIntoView();
}

// How well a name fits what is sought: 0 is best, and -1 not at all.
function rank(name, sought) {
  const lower = name.toLowerCase();
  const last = lower.slice(lower.lastIndexOf(':') + 1);
  if (last === sought || lower === sought) return 0;
  if (last.startsWith(sought) || lower.startsWith(sought)) return 1;
  return lower.includes(sought) ? 2 : -1;
}

function entry([name, kind, where, address]) {
  const line = document.createElement('li');
  const link = document.createElement('a');
  link.href = address;
  link.textContent = name;
  const rest = document.createElement('span');
  rest.className = 'note';
  rest.textContent = ` ${kind}, ${where}`;
  line.append(link, rest);
  return line;
}

function search() {
  const sought = document.getElementById('search').value.trim().toLowerCase();
  const fits = sought === '' ? [] : names
    .map((found) => [rank(found[0], sought), found])
    .filter(([fit]) => fit >= 0)
    .sort(([a, x], [b, y]) => a - b || late.indexOf(x[1]) - late.indexOf(y[1])
      || x[0].length - y[0].length);
  const lines = fits.slice(0, most).map(([, found]) => entry(found));
  if (fits.length > most || (sought !== '' && fits.length === 0)) {
    const rest = document.createElement('li');
    rest.className = 'note';
    rest.textContent = fits.length === 0 ? 'none' : `and ${fits.length - most} more`;
    lines.push(rest);
  }
  document.getElementById('found').replaceChildren(...lines);
}

window.addEventListener('hashchange', unfold);
unfold();
if (document.getElementById('search')) {
  document.getElementById('search').addEventListener('input', search);
  search();
}
