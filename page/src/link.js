// Which event is chosen, and which one the pointer is on. All views show the same one.

const watchers = [];
const state = { chosen: 0, hovered: 0 };

function tell(why) {
  for (const watcher of watchers) watcher(state, why);
}

/** Calls back with the state and the view that changed it: `{ chosen, hovered }`, numbers of events from 1, 0 for none. */
export function watch(watcher) {
  watchers.push(watcher);
}

/** The event that is chosen, 0 for none. */
export function chosen() {
  return state.chosen;
}

/** Chooses an event. `by` names the view, which needn't bring it into sight. */
export function choose(n, by) {
  if (state.chosen === n) return;
  state.chosen = n;
  tell({ by, chose: true });
}

/** The pointer is on an event, or on none. */
export function hover(n, by) {
  if (state.hovered === n) return;
  state.hovered = n;
  tell({ by, chose: false });
}

/** Keys that move through events: the event to choose, or null where the key means nothing here. */
export function moved(key, now, count, page) {
  const to = { ArrowDown: now + 1, ArrowUp: now - 1, PageDown: now + page, PageUp: now - page, Home: 1, End: count }[key];
  return to === undefined || !count ? null : Math.min(Math.max(to, 1), count);
}
