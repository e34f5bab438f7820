// A menu of examples, which says so if what is shown isn't the example any more.

/** Fills a menu. `show(example)` is called with the one that is chosen. */
export function menuOf(select, examples, show) {
  const other = new Option();
  let name = "";

  /** Names what is shown: by the line of an example, if it is one. */
  function shows(text) {
    const at = examples.findIndex((example) => example.name === text);
    other.remove();
    if (at < 0) {
      other.textContent = text;
      select.append(other);
    }
    select.selectedIndex = at < 0 ? examples.length : at;
  }

  for (const example of examples) select.append(new Option(example.name));
  const menu = {
    pick(at) {
      menu.tell(examples[at].name);
      show(examples[at]);
    },
    /** What is shown from now on has this name. */
    tell(text) {
      name = text;
      shows(name);
    },
    /** Whether it was changed since. */
    edited(changed) {
      shows(changed ? `${name} (changed)` : name);
    },
  };
  select.addEventListener("change", () => menu.pick(select.selectedIndex));
  return menu;
}
