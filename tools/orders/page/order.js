// The order so far and what was undone of it: all its moves, the place in them, and a state every so often. The moments between are
// taken again when they are asked for, so that an order as long as racereplay reads, a million lines, has room.
//
// A press is one touch of a button: the step that it asked for, and the steps that only go on which it took along. A move is one
// number: its thread, its choice, and whether a press begins with it. A moment is {state, known, step, race}: a state, what is known
// there, the step that led to it, and the two threads that race in it, or null.
const orders = (() => {
  const APART = 256, MOST_BLOCKS = 16; // moves from one kept state to the next; blocks of moments that are remembered

  const packed = (thread, choice, begins) => 4 * thread + 2 * choice + (begins ? 1 : 0);
  const threadOf = move => move >> 2;
  const choiceOf = move => move >> 1 & 1;
  const begins = move => (move & 1) === 1;

  function begun(job) {
    const first = { state: machine.start(job), known: knowing.start(), race: null };
    return { job, moves: [], at: 0, kept: [first], race: null, blocks: new Map() };
  }

  // The moment after a thread's step; null if there is none, or a replay has no room for it.
  function after(job, moment, thread, choice) {
    const { after: state } = traces.done(job, moment.state, thread, choice);
    if (state === undefined) return null;
    const step = knowing.happened(moment.state, thread, choice, state);
    return { state, race: machine.race(state), step, known: knowing.learned(moment.known, step) };
  }

  // ---- Growing

  // What is left of an order at its place, as one that nobody else has yet.
  function upTo({ job, moves, at, kept, race }) {
    const left = race && race.state <= at ? race : null;
    return { job, moves: moves.slice(0, at), at, kept: kept.slice(0, Math.floor(at / APART) + 1), race: left, blocks: new Map() };
  }

  // Puts a moment behind an order that nobody else has yet.
  function add(order, { state, known, step, race }, isFirst) {
    order.moves.push(packed(step.thread, step.choice, isFirst));
    order.at = order.moves.length;
    if (race && !order.race) order.race = { state: order.at, pair: race };
    if (order.at % APART === 0) order.kept.push({ state, known });
  }

  // The order with one press more, in place of what was undone. With `along` the steps behind it that only go on are taken too,
  // as far as the first race.
  function pressed(order, thread, choice, along) {
    const grown = upTo(order);
    let next = after(order.job, now(order), thread, choice);
    for (let isFirst = true; next !== null; isFirst = false) {
      add(grown, next, isFirst);
      if (!along || next.race || !wording.isQuiet(machine.find(next.state, thread).next)) break;
      next = after(order.job, next, thread, 0);
    }
    return grown.at > order.at ? grown : order;
  }

  // A recorded order, from its start, as far as it goes; and the refusal of the line behind it, or 0.
  function recorded(job, text) {
    const order = begun(job);
    let last = now(order);
    const refused = traces.followed(job, text, (thread, choice, state) => {
      const step = knowing.happened(last.state, thread, choice, state);
      const isAlong = last.step !== undefined && last.step.thread === thread && wording.isQuiet(step.next);
      last = { state, known: knowing.learned(last.known, step), step, race: order.race ? null : machine.race(state) };
      add(order, last, !isAlong);
    });
    return { order: goneTo(order, 0), refused };
  }

  // ---- Moments

  // Those behind a kept state, up to the next.
  function block(order, number) {
    const { job, moves, kept, blocks } = order;
    if (blocks.has(number)) return blocks.get(number);
    if (blocks.size === MOST_BLOCKS) blocks.clear();
    const list = [];
    let moment = kept[number];
    for (const move of moves.slice(number * APART, (number + 1) * APART)) {
      moment = after(job, moment, threadOf(move), choiceOf(move));
      list.push(moment);
    }
    blocks.set(number, list);
    return list;
  }

  const moment = (order, at) => at === 0 ? order.kept[0] : block(order, Math.floor((at - 1) / APART))[(at - 1) % APART];
  const now = order => moment(order, order.at);
  // The moments from one place to another, both included.
  const moments = (order, from, to) => Array.from({ length: to - from + 1 }, (_, place) => moment(order, from + place));

  // ---- Going back and forth

  const goneTo = (order, at) => ({ ...order, at: Math.min(Math.max(at, 0), order.moves.length) });

  // The place behind the first step of the latest press.
  function firstOfPress({ moves, at }) {
    while (at > 1 && !begins(moves[at - 1])) at -= 1;
    return at;
  }

  // Back to before the latest press, and forth again.
  const undone = order => goneTo(order, firstOfPress(order) - 1);

  function redone(order) {
    let at = order.at + 1;
    while (at < order.moves.length && !begins(order.moves[at])) at += 1;
    return goneTo(order, at);
  }

  // ---- What is told of it

  // The first race up to its place: {state, pair}, or null.
  const raceSoFar = ({ race, at }) => race && race.state <= at ? race : null;
  const answer = order => traces.answer(order.at, raceSoFar(order), 0);

  // As trace.txt, up to its place; from a line on, counted from 0.
  const text = ({ moves, at }, from = 0) =>
    moves.slice(from, at).map(move => `${threadOf(move)},${choiceOf(move)}\n`).join("");

  // How often another thread goes on in so many first moves.
  function switches({ moves }, count) {
    let found = 0;
    for (let at = 1; at < count; at++) if (threadOf(moves[at]) !== threadOf(moves[at - 1])) found += 1;
    return found;
  }

  return {
    answer, begun, firstOfPress, goneTo, moment, moments, now, pressed, raceSoFar, recorded, redone, switches, text, undone,
  };
})();
