// The page as a whole: the order that it has come to, and what buttons and keys do to it.
(() => {
  const { KEYS, make, place } = parts;
  const data = JSON.parse(place("job").textContent);
  const job = machine.read(data.program), book = naming.book(job, data.names, data.nouns);
  const PLAY = 650; // milliseconds a press

  let order = orders.begun(job), recorded = null, quiz = null, playing = null, was = null;

  // What the parts of the page are handed.
  function desk() {
    const { state, race, known } = orders.now(order);
    const now = { job, book, say: data.say, colours: data.colours, dark: data.dark, order, state, race, known, move };
    const quizzing = quizzes.told(now, data, quiz, { start: startQuiz, hint, leave: leaveQuiz });
    const stage = quiz === null ? "" : `${quiz}, ${orders.raceSoFar(order) ? "found" : "not found"}`;
    return { ...now, quiz: quizzing, stage, isPlaying: playing !== null, recorded: quiz === null ? recorded : null };
  }

  function show() {
    const now = desk();
    showing.all(now, was);
    was = now;
  }

  // ---- What is done

  function become(next) {
    stop();
    order = next;
    show();
  }

  function move(thread, choice) {
    become(orders.pressed(order, thread, choice, place("along").checked));
    // Whoever moved by keyboard goes on from the same thread, though its button may be another now.
    if (document.activeElement === document.body) (place(`move-${thread}-0`) || place("banner")).focus({ preventScroll: true });
  }

  function stop() {
    clearInterval(playing);
    playing = null;
  }

  function play() {
    if (playing) return become(order);
    playing = setInterval(() => {
      order = orders.redone(order);
      if (order.at === order.moves.length || orders.now(order).race) stop();
      show();
    }, PLAY);
    show();
  }

  function playRecorded() {
    if (!recorded || quiz !== null) return;
    become(recorded.order);
    play();
  }

  // Takes a trace as the recorded order.
  function record(text) {
    recorded = orders.recorded(job, text);
    quiz = null;
    become(recorded.order);
  }

  // A trace.txt that somebody chooses: a letter a byte.
  async function opened(event) {
    const [file] = event.target.files;
    if (file) record(new TextDecoder("latin1").decode(await file.arrayBuffer()));
    event.target.value = "";
  }

  function startQuiz() {
    quiz = 0;
    become(orders.begun(job));
  }

  function leaveQuiz() {
    quiz = null;
    become(order);
  }

  function hint() {
    if (quiz === null) return;
    quiz += 1;
    if (quiz > 2) {
      become(quizzes.shown(job, data.quiz).order);
      play();
    } else become(order);
  }

  async function copy() {
    const trace = place("trace"), text = orders.text(order);
    try {
      await navigator.clipboard.writeText(text);
    } catch {
      trace.value = text;
      trace.select();
      document.execCommand("copy");
    }
    place("copied").textContent = "Copied.";
    setTimeout(() => { place("copied").textContent = ""; }, 2000);
  }

  function download() {
    const link = make("a", ""), address = URL.createObjectURL(new Blob([orders.text(order)], { type: "text/plain" }));
    Object.assign(link, { href: address, download: "trace.txt" }).click();
    setTimeout(() => URL.revokeObjectURL(address), 1000);
  }

  // ---- Buttons and keys

  const ACTS = {
    restart: () => become(orders.goneTo(order, 0)), undo: () => become(orders.undone(order)),
    redo: () => become(orders.redone(order)), play, recorded: playRecorded, copy, download,
    open: () => place("file").click(),
  };
  const BY_KEY = {
    u: ACTS.undo, Backspace: ACTS.undo, r: ACTS.redo, n: ACTS.restart, p: play, o: playRecorded, h: hint,
    ArrowLeft: () => become(orders.goneTo(order, order.at - 1)), ArrowRight: () => become(orders.goneTo(order, order.at + 1)),
    q: () => data.quiz && (quiz === null ? startQuiz() : leaveQuiz()), l: () => place("along").click(),
  };

  // The thread that a key stands for, or -1. With Shift a digit's key writes something else, so it goes by its place.
  function threadOf({ key, code }) {
    const digit = /^(?:Digit|Numpad)(\d)$/.exec(code);
    return digit ? Number(digit[1]) : key.length === 1 ? KEYS.indexOf(key.toLowerCase()) : -1;
  }

  function pressed(event) {
    const { target, key } = event;
    if (!place("keys").checked || event.ctrlKey || event.metaKey || event.altKey || target.tagName === "TEXTAREA") return;
    if (target.type === "range" && (key.startsWith("Arrow") || ["Home", "End", "PageUp", "PageDown"].includes(key))) return;
    const thread = threadOf(event), act = BY_KEY[key.length === 1 ? key.toLowerCase() : key];
    if (thread < 0 && !act) return;
    event.preventDefault();
    if (act) act();
    else moveByKey(thread, event.shiftKey ? 1 : 0);
  }

  function moveByKey(thread, choice) {
    const button = place(`move-${thread}-${choice}`);
    if (button && !button.hasAttribute("aria-disabled")) {
      button.focus({ preventScroll: true });
      move(thread, choice);
    } else place("said").textContent = `Thread ${KEYS[thread]} ${button ? button.textContent : "has no such move"}.`;
  }

  for (const [id, act] of Object.entries(ACTS)) place(id).addEventListener("click", act);
  place("slider").addEventListener("input", event => become(orders.goneTo(order, Number(event.target.value))));
  place("file").addEventListener("change", opened);
  place("keys").addEventListener("change", event => document.body.classList.toggle("without-keys", !event.target.checked));
  document.addEventListener("keydown", pressed);

  // A recorded order is done by this page as racereplay did it, or one of the two is wrong.
  function compare() {
    const here = traces.answer(recorded.order.moves.length, recorded.order.race, recorded.refused);
    if (here === data.answer) return;
    place("alarm").textContent =
      `*** DISAGREEMENT: racereplay says ${data.answer} of the recorded order, and this page ${here}. Trust neither. ***`;
    place("alarm").hidden = false;
  }

  if (data.trace === null) show();
  else {
    record(data.trace);
    compare();
  }
})();
