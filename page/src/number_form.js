// The form in which one types a number: its schedule is drawn, or it is said in words why not.
import { scheduleOf } from "./number.js";

const MOST_NUMBER = 2n ** 64n - 1n;
const MOST_EVENTS = 200000n;

/** The whole number that a field has, or null. Then `refused` gets words. */
function wholeOf(field, least, most, refused) {
  const text = field.value.trim();
  const whole = /^\d{1,30}$/.test(text) ? BigInt(text) : -1n;
  if (whole >= least && whole <= most) return whole;
  const range = `a whole number from ${least} to ${most.toLocaleString("en")}`;
  refused.textContent = text ? `“${text}” isn't ${range}.` : `Type ${range}.`;
  field.focus();
  return null;
}

/** Calls back with the schedule of the number that is typed, with words about it and its name. */
export function numberForm(form, refused, show) {
  const [number, events] = form.querySelectorAll("input");
  form.addEventListener("submit", (event) => {
    event.preventDefault();
    refused.textContent = "";
    const of = wholeOf(number, 0n, MOST_NUMBER, refused);
    const count = of === null ? null : wholeOf(events, 1n, MOST_EVENTS, refused);
    if (count === null) return;
    const about = `The first ${count} events of the schedule of the number ${of}, as “bulk ${of} ${count}” runs them.`;
    show(scheduleOf(of, Number(count)), about, `The schedule of a number: ${of}`);
  });
}
