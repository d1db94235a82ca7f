import assert from 'node:assert/strict';
import test from 'node:test';
import { byRole, documentName, documentState, forgetting, formerTold, found, invited, notDone, notOpened, powersTold, replacing, standing, whereabouts } from './told.mjs';

test('where a page stands', () => {
  const linked = { isWelcome: true, isCaughtUp: true, unsaved: 0, isHeldBack: false, words: '', isOver: false };
  const rows = [
    [{}, true, 'good', 'Saved'],
    [{}, false, 'busy', 'Saving…'],
    [{ unsaved: 2 }, true, 'busy', 'Saving…'],
    [{ isCaughtUp: false }, true, 'busy', 'Catching up…'],
    [{ isWelcome: false }, true, 'off', 'Offline. You can go on writing.'],
    [{ isWelcome: false, unsaved: 1 }, true, 'off', 'Offline. 1 edit of yours waits in this browser.'],
    [{ isWelcome: false, words: 'The server was stopped.' }, true, 'off', 'The server was stopped.'],
    [{ isWelcome: false, words: 'No more.', isOver: true }, true, 'bad', 'No more.'],
    [{ words: 'Nearly full.', isHeldBack: true }, true, 'bad', 'Nearly full.'],
  ];
  for (const [more, isKept, kind, text] of rows) assert.deepEqual(standing({ ...linked, ...more }, isKept), { kind, text });
});

test('what the host did not do', () => {
  assert.equal(notDone('illegal 11 line 2'), 'It was not done: this person is in the group already.');
  assert.equal(notDone('not an owner'), 'Only owners may do this.');
  assert.match(notDone(''), /Look whether it was done\.$/);
  assert.match(notDone('offline'), /^You are offline\./);
  assert.match(notDone('toString'), /toString/);
});

test('people', () => {
  assert.deepEqual((/** @type {const} */ (['self', 'here', 'away', 'invited', 'removed'])).map(whereabouts), ['you', 'here now', 'away', 'has not come yet', 'removed']);
  assert.equal(powersTold('may write', 'away'), 'May write.');
  assert.equal(powersTold(byRole('writer'), 'away'), 'A writer, where a document’s rules allow it.');
  assert.match(powersTold('may write', 'removed'), /^Cannot come in without a new invitation\. With one: may write\.$/);
  assert.equal(invited('Cy', true), 'There is an invitation for Cy. Its address is below the list of people.');
  assert.match(replacing('Cy'), /^You are Cy in this browser\. .* This browser keeps that it was Cy, and you can go back under “Who this browser was”\.$/);
  assert.deepEqual([formerTold('Cy'), formerTold('')], ['Go back to being \u2068Cy\u2069', 'Go back to who it was before']);
  assert.match(forgetting('Cy'), /^Forget that this browser was Cy\? It cannot go back then without a new invitation, /);
  assert.match(invited('Cy', false), /let Cy only read here, until you press “Allow writing”\.$/);
});

test('documents', () => {
  const rows = [['Spring fair 2027!', 'spring-fair-2027'], ['  Übersicht ', 'ubersicht'], ['—', ''], ['notes', 'notes'], ['a'.repeat(50), 'a'.repeat(40)]];
  for (const [typed, name] of rows) assert.equal(documentName(typed), name);
  assert.equal(documentState('open'), '');
  assert.equal(documentState('damaged'), 'It cannot be opened: its file is damaged.');
  assert.equal(notOpened('open', true), '');
  assert.equal(notOpened('damaged', false), 'The server cannot open this document: its file is damaged. Tell whoever runs it.');
  assert.match(notOpened('disk-fault', true), /disk failed\. Tell whoever runs it\. Your copy is kept here/);
  for (const state of ['fewer-messages', 'other-messages', 'damaged-seal']) assert.match(documentState(state), /to be restored/);
  assert.deepEqual([found(0, 0), found(1, 0), found(1200, 4)], ['Nowhere', '1 of 1 place', '5 of 1,200 places']);
});
