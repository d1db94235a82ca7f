// Written by .ci/limits from the crates' constants, which the proofs are about. Not to be changed by hand.

// The greatest version of a policy, and so the greatest length of its log.
export const MOST_VERSIONS = 16383;

// How many sites there are: a name's number is its stamp, so many times, and its site.
export const MOST_SITES = 65536;

// The greatest number of bytes of a piece.
export const MOST_PIECE_BYTES = 255;

// How many bytes the length field has.
export const LENGTH_BYTES = 4;

// The frame version of all frames but those of a long piece.
export const PLAIN_VERSION = 1;

export const DELETE_KIND = 2;

export const UPDATE_KIND = 3;

export const ENTRY_KIND = 4;

export const TURN_KIND = 5;

export const END_KIND = 6;

// The greatest number of requests in a history.
export const MOST_REQUESTS = 131072;

// The version of the protocol.
export const PROTOCOL = 1;

// How many bytes a message that comes may have.
export const MOST_MESSAGE_BYTES = 65536;

// How many bytes the words of a caret may have.
export const MOST_CARET_BYTES = 200;

// How many scalar values a name may have.
export const MOST_NAME_LETTERS = 40;

// The greatest number of users, of objects, of groups, of members of a group and of authorizations.
export const MOST_OF_KIND = 256;

// How a call ended.
export const Code = Object.freeze({
  Done: 0,
  Bad: 1,
  NoMemory: 2,
  Untold: 3,
});

// The first fault of an operation of the administrator.
export const Fault = Object.freeze({
  UserThere: 1,
  NoUser: 2,
  IsAdministrator: 3,
  ObjectThere: 4,
  NoObject: 5,
  BadPlace: 6,
  TooMany: 7,
  ValidatedAt: 8,
  GroupThere: 9,
  NoGroup: 10,
  MemberThere: 11,
  NoMember: 12,
});
