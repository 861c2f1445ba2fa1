// Not proved; compared with the program's transcripts (tests/why.mjs).
// What something waits for, told from the state (lib/state.mjs) as rows:
//
//   holds(state, worker)     why Try Activate leaves a waiting worker as it is: activating (the active worker, or null),
//                            events (its pending fetch events) and users (pages); it doesn't where all are empty
//   keeps(state, registration)  why Try Clear Registration leaves an unregistered registration: users, events, handlers
//   nextOf(worker)           what comes next in the handler of a worker: tasks (its unsettled addAlls), call, or neither
//   laneWaits(state, lane)   why a lane's next action can't happen: { action, at } with awaited, ready or begin;
//                            null where it can, or where none is left

export function holds(state, worker) {
  const { registration } = worker, active = state.slot(registration, "active");
  if (active === null) return { activating: null, events: [], users: [] };
  return {
    activating: active.state === "activating" ? active : null,
    events: state.pending(active),
    users: worker.skip === null ? state.users(registration) : [],
  };
}

export const isHeld = ({ activating, events, users }) => activating !== null || events.length > 0 || users.length > 0;

export function keeps(state, registration) {
  const workers = registration.workers.filter((worker) => worker.state !== "redundant");
  return {
    users: state.users(registration),
    events: workers.flatMap((worker) => state.pending(worker)),
    handlers: workers.filter((worker) => worker.handler !== null),
  };
}

export function nextOf({ handler }) {
  if (handler === null) return null;
  return { tasks: [...handler.unsettled], call: handler.calls[handler.made] ?? null };
}

function awaits(state, lane, { of }) {
  const awaited = state.promises.get(`${lane}.${of}`) ?? null;
  const settled = awaited?.value ?? awaited?.job?.settled ?? awaited?.task?.settled ?? null;
  return settled === null ? { awaited } : null;
}

function readies(state, page) {
  const registration = state.match(page.key, page.url);
  return registration === null || state.slot(registration, "active") === null ? { ready: registration, page } : null;
}

function begins(page) {
  return page.controller?.state === "activating" ? { begin: page.controller, page } : null;
}

export function laneWaits(state, lane) {
  const at = state.positions[lane], action = state.recording.lanes[lane]?.[at], page = state.clients.get(action?.client);
  let reason = null;
  if (action?.do === "await") reason = awaits(state, lane, action);
  else if (action?.do === "ready" && page !== undefined) reason = readies(state, page);
  else if (action?.do === "begin" && page !== undefined) reason = begins(page);
  return reason && { action, at, ...reason };
}
