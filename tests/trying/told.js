// Every state of a trace in one plain form, for a comparison with another interpreter.
const KINDS = ["int", "cell", "lock", "tid", "sem", "rwlock"];
const valueTold = value => [KINDS.indexOf(value.kind), value.name];

function threadTold(state, thread) {
  const { number, identifier, next, value } = thread;
  const calls = machine.openCalls(thread).map(call => call.line).reverse();
  if (!next) return [number, identifier, "done", "", 0, 0, [valueTold(value)], calls];
  const strict = next.parts.slice(0, { let: 1, spawn: 1, if: 0, while: 0 }[next.word]).map(valueTold);
  return [number, identifier, machine.standing(state, thread), next.word, Number(next.loop === true), next.line, strict, calls];
}

const stateTold = state => JSON.stringify([
  state.threads.map(thread => threadTold(state, thread)), state.cells.map(valueTold), state.locks.map(Number), state.sems,
  state.rwlocks.map(lock => [lock.places, lock.reading, Number(lock.writing)]), state.identifiers, state.spawned,
  machine.race(state)]);

function told([program, trace]) {
  const job = machine.read(program), { order, refused } = orders.recorded(job, trace), steps = order.moves.length;
  return [traces.answer(steps, order.race, refused), orders.moments(order, 0, steps).map(({ state }) => stateTold(state))];
}

// Every step of a trace in words, and after it what each thread is about to do.
function worded([program, trace, { names, nouns, say }]) {
  const job = machine.read(program), { order } = orders.recorded(job, trace), book = naming.book(job, names, nouns);
  return orders.moments(order, 1, order.moves.length).map(({ state, known, step }) => [
    wording.does(say, book, known, step),
    ...state.threads.filter(thread => thread.next).map(thread =>
      `${naming.thread(book, known, thread.number)} ${wording.about(say, book, known, state, thread)}`)]);
}
