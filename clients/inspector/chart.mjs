// What an observed query heard, as `explain` counts it, in bars: SVG as text, as wide as its place.
import { counted, number } from './words.mjs';

/** What each action does to the rows. */
export const meanings = {
  doNothing: 'leaves them',
  insertFirst: 'puts the document in front',
  insertLast: 'puts the document behind all',
  removeFirstItem: 'takes the first row out',
  removeLastItem: 'takes the last row out',
  removeFirstInsertLast: 'takes the first row out, and puts the document behind all',
  removeLastInsertFirst: 'takes the last row out, and puts the document in front',
  removeFirstInsertFirst: 'takes the first row out, and puts the document in its place',
  removeLastInsertLast: 'takes the last row out, and puts the document in its place',
  removeExisting: 'takes the document’s row out',
  replaceExisting: 'puts the document in its place',
  insertAtSortPosition: 'puts the document where it belongs',
  removeExistingAndInsertAtSortPosition: 'takes its row out, and puts it where it belongs',
  insertAtSortPositionRemoveLast: 'puts it where it belongs, and the last row goes',
  runFullQueryAgain: 'runs the query again',
};

const height = 44; // of a bar with its words
const escaped = (text) => text.replace(/[&<>"]/g, (it) => `&#${it.charCodeAt(0)};`);

/** Its three totals, in words. */
export function totals({ changes, asked, full }) {
  const parts = [counted(changes, 'change'), counted(asked, 'question'), counted(full, 'full run')];
  return `${parts[0]} heard, ${parts[1]} asked, ${parts[2]}`;
}

/** A bar for each action, the most frequent first. */
export function chart(counts) {
  const actions = Object.entries(counts.actions).sort(([a, n], [b, m]) => m - n || (a < b ? -1 : 1));
  const most = Math.max(1, ...actions.map(([, n]) => n));
  const bars = actions.map(([action, n], i) => {
    const [words, bar] = [i * height + 14, `x="0" y="${i * height + 21}" height="12" rx="3"`];
    return [
      `<g class="${action === 'runFullQueryAgain' ? 'full' : 'patch'}">`,
      `<title>${escaped(`${action}: ${meanings[action] ?? ''}`)}</title>`,
      `<text x="0" y="${words}">${escaped(action)}</text>`,
      `<text x="100%" y="${words}" text-anchor="end">${number(n)}</text>`,
      `<rect class="track" width="100%" ${bar}/>`,
      `<rect class="bar" width="${((100 * n) / most).toFixed(2)}%" ${bar}/>`,
      '</g>',
    ].join('');
  });
  const label = [totals(counts), ...actions.map(([action, n]) => `${action} ${n}`)].join(', ');
  const size = `width="100%" height="${Math.max(1, actions.length) * height}"`;
  const start = `<svg xmlns="http://www.w3.org/2000/svg" role="img" ${size} aria-label="${escaped(label)}">`;
  return `${start}${bars.join('')}</svg>`;
}
