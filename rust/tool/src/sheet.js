
"use strict";
const cards = [...document.querySelectorAll("article")];
const shows = [...document.querySelectorAll("nav button")];
const dialog = document.querySelector("dialog");
const marks = document.getElementById("marks");
let large = null;

for (const button of shows) {
  button.addEventListener("click", () => {
    const status = button.dataset.show;
    for (const other of shows) other.setAttribute("aria-pressed", other === button);
    for (const card of cards) card.hidden = status !== "" && card.dataset.status !== status;
  });
}

marks.addEventListener("change", () => document.body.classList.toggle("without", !marks.checked));

function show(card) {
  large = card;
  const pictures = [...card.querySelectorAll("img")].map((picture) => picture.cloneNode());
  dialog.querySelector("div").replaceChildren(...pictures);
  dialog.querySelector("p").textContent =
    card.querySelector("h2").textContent + "\n" + card.querySelector(".verdict").textContent;
  if (!dialog.open) dialog.showModal();
}

for (const card of cards) card.querySelector(".frame").addEventListener("click", () => show(card));

// In the large view the arrows go from frame to frame, and m switches the marks.
dialog.addEventListener("keydown", (event) => {
  const shown = cards.filter((card) => !card.hidden);
  const step = { ArrowLeft: -1, ArrowRight: 1 }[event.key];
  const next = step && shown[shown.indexOf(large) + step];
  if (next) show(next);
  if (event.key === "m") marks.click();
});
