import test from 'node:test';
import { Channel } from './channel.mjs';
import { opened, RULES, until } from './testing.mjs';

test('pages of one browser', async () => {
  const sides = [opened(0), opened(1), opened(2)];
  const open = (side) => {
    side.channel = new Channel(side.copy, { run: (it) => side.editor.run(it) });
    side.news = () => side.channel.postNews();
    side.keeper.keep();
  };
  RULES.forEach((it) => sides[0].copy.step(it));
  open(sides[0]);
  sides[0].area.type(0, 0, 'Tea.');
  await until('it is kept', () => sides[0].keeper.isDone);
  open(sides[1]);
  await until('the new page has the text', () => sides[1].area.value === 'Tea.');
  sides[1].area.type(4, 4, ' Milk.');
  open(sides[2]);
  await until('all have it', () => sides.every((it) => it.area.value === 'Tea. Milk.'));
  sides[0].channel.channel.postMessage(Uint8Array.of(1, 2));
  for (const it of [{ no: 'frames' }, { had: 1 }, null, 'ask']) sides[0].channel.channel.postMessage(it);
  sides[0].area.type(0, 3, 'Coffee');
  await until('what is no frame does no harm', () => sides.every((it) => it.area.value === 'Coffee. Milk.'));
  sides.forEach((it) => it.channel.channel.close());
});
