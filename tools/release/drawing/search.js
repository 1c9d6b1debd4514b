// Finds pairs by a part of the name, by the number of the refusal, or by the whole answer. Several words must all be met.
"use strict";
(() => {
  const box = document.getElementById("find");
  const pairs = [...document.querySelectorAll("[data-name]")];
  const sections = [...document.querySelectorAll("section:not(.record)")];
  const meets = (pair, word) =>
    pair.dataset.name.includes(word) || pair.dataset.number === word || pair.dataset.answer === word;
  const find = () => {
    const words = box.value.toLowerCase().split(/\s+/).filter(word => word);
    let met = 0;
    for (const pair of pairs) {
      pair.hidden = !words.every(word => meets(pair, word));
      met += !pair.hidden && !pair.closest("#changes");
    }
    for (const section of sections) {
      section.hidden = words.length > 0 && !section.querySelector("[data-name]:not([hidden])");
    }
    document.getElementById("found").textContent = words.length ? `${met} found` : "";
  };
  box.addEventListener("input", find);
  for (const button of document.querySelectorAll("table.numbers button")) {
    button.addEventListener("click", () => { box.value = button.value; find(); });
  }
  document.querySelector(".search").hidden = false;
})();
