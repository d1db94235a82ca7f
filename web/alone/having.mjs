// What a journal has, told in few words, so that a page that knows it gives what is missing there alone: how many entries, and of each
// site how many requests and the last stamp.
import { isEntry, requestOf } from '../frames.mjs';

const NOTHING = { sites: new Map() };

// What the first items of a journal are, told.
export function having(journal, count) {
  const had = { entries: 0, sites: new Map() };
  for (let place = 0; place < count; place++) {
    const frame = journal.view(place);
    if (isEntry(frame)) had.entries++;
    else add(had.sites, requestOf(frame));
  }
  return had;
}

function add(sites, { user, stamp }) {
  const { count, last } = sites.get(user) ?? { count: 0, last: 0 };
  sites.set(user, { count: count + 1, last: Math.max(last, stamp) });
}

// The places of those of the first items that one lacks who has told so. Of a site of which he has another number of requests up to
// his last he is given all, since he lacks one in between.
export function lacking(journal, count, told) {
  const { entries = 0, sites } = told?.sites instanceof Map ? told : NOTHING;
  const lasts = new Map([...sites].map(([user, it]) => [user, it?.last]));
  const upTo = new Map();
  const isUpTo = ({ user, stamp }) => stamp <= lasts.get(user);
  for (let place = 0; place < count; place++) {
    const frame = journal.view(place);
    if (isEntry(frame)) continue;
    const request = requestOf(frame);
    if (isUpTo(request)) upTo.set(request.user, (upTo.get(request.user) ?? 0) + 1);
  }
  const lacks = (request) => !isUpTo(request) || upTo.get(request.user) !== sites.get(request.user).count;
  let entry = 0;
  return Array.from({ length: count }, (_, place) => place).filter((place) => {
    const frame = journal.view(place);
    return isEntry(frame) ? entry++ >= entries : lacks(requestOf(frame));
  });
}
