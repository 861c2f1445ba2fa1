// How long to wait for what may never come, in milliseconds.
export const wait = { soon: 700, late: 2500 };

export function beMorePatient(patience) {
  wait.soon *= patience;
  wait.late *= patience;
}

export const NOTHING = Symbol("nothing came");

export const pause = (time) => new Promise((resolve) => setTimeout(resolve, time));

export function within(time, promise) {
  let timer;
  const late = new Promise((resolve) => { timer = setTimeout(resolve, time, NOTHING); });
  return Promise.race([promise, late]).finally(() => clearTimeout(timer));
}
