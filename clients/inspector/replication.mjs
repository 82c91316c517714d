// A replication: how it was made, what is pending, its checkpoints, and a turn in the copy.
import { copy, make, textRow } from './dom.mjs';
import { because, counted } from './words.mjs';

const handlers = {
  master_wins: 'the master’s document is kept',
  fork_wins: 'the fork’s document is kept',
  greater: 'the one with the greater number is kept',
  join: 'of each field the greater value is kept',
};
const noDial = 'Lost: this page dials no port';
const ends = {
  quiet: 'Quiet: both have the same documents',
  lost: 'Lost: an exchange was lost',
  clock: 'No write time is left',
  more: 'The budget is used, and more is to be exchanged',
};

/** A view. `turned` looks at the copy again. */
export function replicationView({ journal, name, turned }) {
  const view = copy('replication');
  const find = (selector) => view.querySelector(selector);

  async function turn() {
    find('.turn').disabled = true;
    try {
      const { end, exchanges, each } = await journal.db.turn(name);
      const why = each.at(-1)?.lost === 'dial' ? noDial : ends[end];
      find('.ended').textContent = `${why} (${counted(exchanges, 'exchange')}).`;
      find('.exchanges').hidden = !each.length;
      find('.exchanges tbody').replaceChildren(...each.map((it) => {
        return textRow(it.exchange, it.sent, keys(it.rows), keys(it.conflicts), it.lost ?? '');
      }));
      await turned();
    } catch (fault) {
      find('.ended').textContent = because(fault);
    }
    find('.turn').disabled = false;
  }

  /** Shows what is known now. */
  function tell() {
    const { fork, master, port, handler, field, pending, up, down } = journal.replications.get(name);
    const facts = {
      'Fork': fork,
      'Master': master ?? `port ${port} of 127.0.0.1`,
      'Of a conflict': `${handlers[handler]} (${handler}${field ? `, ${field}` : ''})`,
      'Pending': pending === undefined ? '…' : pending ? counted(pending, 'document') : 'nothing',
      'Checkpoint up': place(up, 'nothing was pushed yet'),
      'Checkpoint down': place(down, 'nothing was pulled yet'),
    };
    find('dl').replaceChildren(...Object.entries(facts).flatMap(([word, fact]) => {
      return [make('dt', { textContent: word }), make('dd', { textContent: fact })];
    }));
  }

  find('h2').textContent = name;
  find('.turn').onclick = turn;
  tell();
  return { view, tell };
}

const place = (it, none) => (it ? `write time ${it.lwt}, key ${it.id}` : none);

function keys(all = []) {
  const more = all.length > 8 ? ` and ${all.length - 8} more` : '';
  return all.slice(0, 8).join(', ') + more;
}
