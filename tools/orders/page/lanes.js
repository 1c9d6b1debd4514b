// The order so far as the page of a race draws it: threads across, time down, each stretch of a thread a box.
const lanes = (() => {
  const { make } = parts;
  const MOST = 600; // steps: the latest

  // The stretches of one thread each among the latest steps.
  function stretches(order) {
    const told = [], from = Math.max(0, order.at - MOST);
    orders.moments(order, from, order.at).forEach((moment, place, all) => {
      if (place === 0) return; // what the first step begins from
      const { thread } = moment.step, last = told[told.length - 1], one = { ...moment, number: from + place };
      if (last && last.thread === thread) last.moments.push(one);
      else told.push({ thread, before: all[place - 1], moments: [one] });
    });
    return { told, left: from };
  }

  // A step that only goes on, or makes an identifier that has no name.
  const isSilent = (desk, { next }) => wording.isQuiet(next) || next.word === "newtid" && !desk.book.bound.has(next.line);

  function rows(desk) {
    const { told, left } = stretches(desk.order), count = desk.known.threads.length;
    const before = orders.switches(desk.order, left + 1);
    const cells = [make("span", "corner"), ...desk.known.threads.map((_, number) =>
      threads.coloured(desk, number, make("div", "head", threads.called(desk, number))))];
    told.forEach((stretch, place) => {
      cells.push(make("span", "gutter", before + place ? `switch ${before + place}` : ""));
      for (let number = 0; number < count; number++) cells.push(cell(desk, stretch, number));
    });
    return { cells, count, left };
  }

  function cell(desk, stretch, number) {
    if (stretch.thread === number) return threads.coloured(desk, number, make("div", "lane", box(desk, stretch)));
    const { state } = stretch.before, thread = machine.find(state, number);
    const isThere = number < state.spawned && thread && !machine.isFinished(thread);
    const waits = isThere && machine.standing(state, thread) === "waits";
    const words = waits ? make("span", "waiting", wording.about(desk.say, desk.book, desk.known, state, thread)) : null;
    return threads.coloured(desk, number, make("div", `lane${isThere ? " life" : ""}${waits ? " waits" : ""}`, words));
  }

  function box(desk, { thread, moments }) {
    const loud = moments.filter(moment => !isSilent(desk, moment.step));
    const shown = loud.length ? loud : moments;
    return make("div", "stretch", make("b", "who", threads.called(desk, thread)), shown.map(line));

    function line({ step, known, number }) {
      const words = make("span", "", wording.does(desk.say, desk.book, known, step));
      return make("p", "", make("span", "line", String(step.next.line)), words, make("span", "unseen", ` (step ${number})`));
    }
  }

  return { rows };
})();
