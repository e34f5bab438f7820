// Tabs: the panel of the chosen one is shown, and the others aren't.

/** Makes the tabs of a list ready. The answer chooses the tab of a panel, by the panel's name. */
export function tabsOf(list) {
  const tabs = [...list.querySelectorAll("[role=tab]")];

  function choose(chosen) {
    for (const tab of tabs) {
      tab.setAttribute("aria-selected", tab === chosen);
      tab.tabIndex = tab === chosen ? 0 : -1;
      document.getElementById(tab.getAttribute("aria-controls")).hidden = tab !== chosen;
    }
  }

  list.addEventListener("click", (event) => tabs.includes(event.target) && choose(event.target));
  list.addEventListener("keydown", (event) => {
    const by = { ArrowLeft: -1, ArrowRight: 1 }[event.key];
    if (!by) return;
    const next = tabs.at((tabs.indexOf(event.target) + by) % tabs.length);
    choose(next);
    next.focus();
  });
  return (panel) => choose(tabs.find((tab) => tab.getAttribute("aria-controls") === panel));
}
