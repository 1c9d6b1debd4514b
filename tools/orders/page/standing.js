// How the job stands, in words: a race, all finished, all waiting, a thread that is stuck, or who may move; what was done just now;
// and what has changed, for who does not see the page.
const standings = (() => {
  const called = (desk, number) => naming.thread(desk.book, desk.known, number);

  function told(desk) {
    const { state, race } = desk, stand = state.threads.map(thread => machine.standing(state, thread));
    const halted = sort => state.threads.filter((_, place) => stand[place] === sort).map(thread => sentence(desk, thread));
    const meet = race && race.map(number => sentence(desk, machine.find(state, number))).join(" while ");
    if (race) return { kind: "race", badge: "RACE", title: "Race: ", words: `${meet}.` };
    if (stand.includes("odd")) {
      return { kind: "stuck", badge: "STUCK", title: "Stuck: ", words: `${halted("odd").join("; ")}. The job is at fault.` };
    }
    if (stand.every(one => one === "done")) {
      return { kind: "done", badge: "FINISHED", title: "Finished: ", words: "all threads have finished." };
    }
    const able = stand.filter(one => one === "ready").length, badge = `STATE ${desk.order.at}`;
    if (able === 0) {
      return { kind: "waits", badge: "ALL WAIT", title: "All wait: ", words: `nobody can move: ${halted("waits").join("; ")}.` };
    }
    return { kind: "open", badge, title: "", words: `${wording.counted(able, "thread")} can move. Who goes next?` };
  }

  function sentence(desk, thread) {
    const about = wording.about(desk.say, desk.book, desk.known, desk.state, thread);
    return `${called(desk, thread.number)} ${about} (${naming.line(desk.book, thread.next.line)})`;
  }

  // What the latest press did: its last step that others can see, or its last. Empty at the start.
  function justNow(desk) {
    const { order } = desk;
    if (order.at === 0) return "";
    const steps = orders.moments(order, orders.firstOfPress(order), order.at).reverse();
    const { step, known } = steps.find(moment => !wording.isQuiet(moment.step.next)) ?? steps[0];
    return `${called(desk, step.thread)} ${wording.does(desk.say, desk.book, known, step)} (${naming.line(desk.book, step.next.line)}).`;
  }

  // What is other than it was: what was done, or where the order has gone; who waits, can go on or has finished; how it stands.
  function changed(was, desk) {
    const { order } = desk, { title, words } = told(desk), isNext = order.at > was.order.at && order.moves !== was.order.moves;
    const first = isNext ? justNow(desk) : `State ${order.at} of ${order.moves.length}.`;
    return [first, ...moved(was, desk), title + words].map(wording.capital).join(" ");
  }

  function moved(was, desk) {
    const sort = ({ state }, number) => {
      const thread = machine.find(state, number);
      return thread ? machine.standing(state, thread) : number < state.spawned ? "joined" : "none";
    };
    const words = { waits: thread => sentence(desk, thread), done: () => "has finished", ready: () => "can go on" };
    return desk.state.threads.filter(({ number }) => sort(desk, number) !== sort(was, number)).map(thread => {
      const now = sort(desk, thread.number), tell = words[now];
      return !tell ? "" : now === "waits" ? `${tell(thread)}.` : `${called(desk, thread.number)} ${tell()}.`;
    }).filter(words => words !== "");
  }

  return { changed, justNow, told };
})();
