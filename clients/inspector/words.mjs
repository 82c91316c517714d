// Numbers and faults in words.

export const number = (n) => n.toLocaleString('en');
export const counted = (n, what) => `${number(n)} ${what}${n === 1 ? '' : 's'}`;

const stops = {
  not_journal: 'it is no journal of rx, or its records aren’t legal',
  disk: 'the browser has no room left for the copy',
  full: 'the copy has the greatest length of a journal',
  memory: 'memory ran out',
};

/** Why something isn't done: a refusal's own message, or why the program has ended. */
export const because = (fault) => stops[fault.stop] ?? fault.message.replace(/\.$/, '');
