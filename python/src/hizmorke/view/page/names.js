// Inputs that take a name.
import { element } from "./api.js";

let lists = 0;

/** An input suggests names of nodes, at most twelve. */
export function suggest(page, input) {
  const list = element("datalist", { id: `names-${++lists}` });
  input.setAttribute("list", list.id);
  input.after(list);
  input.addEventListener("input", () => {
    const names = page.network?.names;
    const begun = input.value.toLowerCase();
    const found = [];
    if (names && begun)
      for (let node = 0; node < names.length && found.length < 12; node++)
        if (names[node].toLowerCase().includes(begun)) found.push(names[node]);
    list.replaceChildren(...found.map((name) => element("option", { value: name })));
  });
}
