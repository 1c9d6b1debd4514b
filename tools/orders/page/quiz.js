// The quiz: find an order that races. It is asked where an order is known that does, and racereplay has confirmed it.
const quizzes = (() => {
  const { button, key, make } = parts;
  const ASKED = "Can you find an order in which two threads are about to touch one cell, one of them to write it?";

  // What is told of the job beside its steps. `quiz` is null, or how many hints were given.
  function told(desk, data, quiz, act) {
    if (!data.quiz) return [make("p", "", data.verdict)];
    if (quiz === null) {
      return [make("p", "", `${data.verdict} ${ASKED}`),
        make("div", "acts", button("strong", act.start, "Start the quiz", key("q")))];
    }
    const { order } = desk, size = wording.size(order.at, orders.switches(order, order.at));
    if (orders.raceSoFar(order)) return solved(data, quiz, size, act);
    const task = make("p", "", make("b", "", "Quiz: find an order that races. "), `So far ${size}.`);
    return [make("div", "words", task, hints(desk, data, quiz)),
      make("div", "acts", button("", act.hint, quiz < 2 ? "Hint" : "Show one", key("h")), leaving(act))];
  }

  const leaving = act => button("", act.leave, "Leave the quiz", key("q"));

  function solved(data, quiz, size, act) {
    const helped = quiz > 2 ? "This is one: " : quiz ? `Found, with ${wording.counted(quiz, "hint")}: ` : "Found: ";
    const { switches, fewest: isFewest } = data.quiz, known = wording.counted(switches, "switch");
    const fewest = isFewest ? `No race was found with fewer than ${known}.` : `One with ${known} is known.`;
    return [make("p", "", make("b", "", helped), `${size}. ${fewest}`),
      make("div", "acts", button("strong", act.start, "Once more"), leaving(act))];
  }

  // The first hint is the cell, the second who meets there; the third is the order itself.
  function hints(desk, data, quiz) {
    const { order } = shown(desk.job, data.quiz), moment = orders.moment(order, order.moves.length);
    const pair = machine.race(moment.state), [part] = machine.find(moment.state, pair[0]).next.parts;
    const names = pair.map(number => naming.thread(desk.book, moment.known, number));
    const said = [`the cell is ${naming.thing(desk.book, moment.known, part)}.`, `${wording.listed(names)} can meet there.`];
    return said.slice(0, quiz).map(words => make("p", "soft", make("b", "", "Hint: "), words));
  }

  // The order that races. It is veiled, so that nobody reads the answer by looking at the page's source; that is no secret.
  function shown(job, { veiled }) {
    let x = veiled.length / 2;
    const lines = veiled.match(/../g).map(pair => {
      x = (Math.imul(1664525, x) + 1013904223) >>> 0;
      const move = parseInt(pair, 16) ^ x >>> 24;
      return `${move >> 1},${move & 1}\n`;
    });
    return orders.recorded(job, lines.join(""));
  }

  return { shown, told };
})();
