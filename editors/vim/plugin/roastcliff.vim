" Writes in a document of a Roastcliff host: `:Roastcliff ADDRESS`. `:help roastcliff` has the rest.
"
" For Vim 9 with jobs and for Neovim 0.7. A program beside the editor, `roastcliff follow`, keeps the document and talks with
" the host. The plugin and the program say lines to one another: docs/FORMATS.md has them. A place is counted in letters from
" the text's begin, where a line end is one letter.

if exists('g:loaded_roastcliff') || !(has('nvim') || has('job'))
  finish
endif
let g:loaded_roastcliff = 1

" The follower, as a list of words. Usually this repository's front door.
let s:top = fnamemodify(resolve(expand('<sfile>:p')), ':h:h:h:h')
let g:roastcliff_program = get(g:, 'roastcliff_program', [executable('roastcliff') ? 'roastcliff' : s:top . '/roastcliff', 'follow'])

" Where the documents' files are.
let s:data = empty($XDG_DATA_HOME) ? expand('~/.local/share') : $XDG_DATA_HOME
let g:roastcliff_folder = get(g:, 'roastcliff_folder', s:data . '/roastcliff')

" How many milliseconds a word that isn't ended waits, at most, before it goes out.
let g:roastcliff_delay = get(g:, 'roastcliff_delay', 800)

" How many letters go out in one line at most: a line has 65,536 bytes.
let s:most_letters = 15000

" How many changes the undo remembers, those of others among them.
let s:most_remembered = 4000

" How far the lines of two texts are searched for the next that is in both.
let s:most_lines_ahead = 40

" The status with which a follower ends whose file another one has open, and how often it is started again then.
let s:is_locked = 10
let s:most_tries = 10

" How many bytes on each side tell where words belong in another text, the first that do.
let s:nears = [20, 10, 5]

let s:has_virtual_text = has('nvim') || (has('textprop') && has('patch-9.0.0067'))

" The documents that are open, by the numbers of their buffers.
let s:documents = {}

" The addresses by which documents were opened, by their places without secrets.
let s:addresses = {}

" ---- texts, by bytes
"
" Patterns see a letter with those that compose with it, so that a line end in front of such a one is none to them. What has to
" be exact is looked for by bytes.

" The parts of a text between separators.
function! s:parts(text, separator) abort
  let [parts, start] = [[], 0]
  let end = stridx(a:text, a:separator)
  while end >= 0
    call add(parts, strpart(a:text, start, end - start))
    let start = end + len(a:separator)
    let end = stridx(a:text, a:separator, start)
  endwhile
  return add(parts, strpart(a:text, start))
endfunction

" The lines of a text.
function! s:lines(text) abort
  return len(a:text) == strchars(a:text) ? split(a:text, "\n", 1) : s:parts(a:text, "\n")
endfunction

" A text with another separator.
function! s:separated(text, old, new) abort
  return stridx(a:text, a:old) < 0 ? a:text : join(s:parts(a:text, a:old), a:new)
endfunction

" How many bytes two texts begin with alike.
function! s:alike_in_front(one, other) abort
  let [least, most] = [0, min([len(a:one), len(a:other)])]
  while least < most
    let middle = (least + most + 1) / 2
    if strpart(a:one, least, middle - least) ==# strpart(a:other, least, middle - least)
      let least = middle
    else
      let most = middle - 1
    endif
  endwhile
  return least
endfunction

" How many bytes two texts end with alike, of so many at most.
function! s:alike_at_end(one, other, limit) abort
  let [least, most] = [0, a:limit]
  while least < most
    let middle = (least + most + 1) / 2
    let size = middle - least
    if strpart(a:one, len(a:one) - middle, size) ==# strpart(a:other, len(a:other) - middle, size)
      let least = middle
    else
      let most = middle - 1
    endif
  endwhile
  return least
endfunction

" Whether a place is inside a letter.
function! s:is_inside(text, place) abort
  return a:place > 0 && a:place < len(a:text) && and(char2nr(a:text[a:place]), 0xC0) == 0x80
endfunction

" The change that makes one text of another: from which byte on, which text goes, and which comes.
function! s:difference(old, new) abort
  let front = s:alike_in_front(a:old, a:new)
  while s:is_inside(a:old, front) || s:is_inside(a:new, front)
    let front -= 1
  endwhile
  let end = s:alike_at_end(a:old, a:new, min([len(a:old), len(a:new)]) - front)
  while s:is_inside(a:old, len(a:old) - end) || s:is_inside(a:new, len(a:new) - end)
    let end -= 1
  endwhile
  return {
        \ 'from': front,
        \ 'gone': strpart(a:old, front, len(a:old) - end - front),
        \ 'put': strpart(a:new, front, len(a:new) - end - front) }
endfunction

" The next lines that both have, as the numbers of lines in front of them: [] where none is near.
function! s:next_alike(old, i, new, j) abort
  let [old, new] = [a:old[a:i : a:i + s:most_lines_ahead], a:new[a:j : a:j + s:most_lines_ahead]]
  for ahead in range(1, max([len(old), len(new)]) - 1)
    for other in [0, ahead] + range(1, ahead - 1)
      if ahead < len(old) && other < len(new) && old[ahead] ==# new[other]
        return [ahead, other]
      elseif ahead < len(new) && other < len(old) && new[ahead] ==# old[other]
        return [other, ahead]
      endif
    endfor
  endfor
  return []
endfunction

" The changes of whole lines that make one text of another, in their order; places are those of the old text.
function! s:line_changes(start, old, new) abort
  let [old, new] = [split(a:old, '\n\zs', 1), split(a:new, '\n\zs', 1)]
  let [changes, i, j, from] = [[], 0, 0, a:start]
  while i < len(old) || j < len(new)
    if i < len(old) && j < len(new) && old[i] ==# new[j]
      let from += len(old[i])
      let [i, j] += [1, 1]
      continue
    endif
    let near = i < len(old) && j < len(new) ? s:next_alike(old, i, new, j) : []
    let [out, in] = empty(near) ? [len(old) - i, len(new) - j] : near
    let gone = join(out > 0 ? old[i : i + out - 1] : [], '')
    let change = s:difference(gone, join(in > 0 ? new[j : j + in - 1] : [], ''))
    let change.from += from
    call add(changes, change)
    let from += len(gone)
    let [i, j] = [i + out, j + in]
  endwhile
  return changes
endfunction

" The changes that make one text of another, from the last to the first, so that each leaves the places in front of it.
function! s:differences(old, new) abort
  let whole = s:difference(a:old, a:new)
  if count(whole.gone, "\n") < 2 || count(whole.put, "\n") < 2
    return [whole]
  endif
  return reverse(s:line_changes(whole.from, whole.gone, whole.put))
endfunction

" ---- letters

" A letter as its scalar value, where it is one. A byte that belongs to no letter is taken as Latin-1.
function! s:clean_letter(letter) abort
  let number = char2nr(a:letter)
  return number > 0x10FFFF || (number >= 0xD800 && number <= 0xDFFF) ? "\uFFFD" : nr2char(number)
endfunction

" A text without what is no letter of UTF-8.
function! s:clean(text) abort
  return a:text =~# '[^\x01-\x7f]' ? join(map(split(a:text, '\zs'), 's:clean_whole(v:val)'), '') : a:text
endfunction

" The same of a letter with those that compose with it.
function! s:clean_whole(letters) abort
  return strchars(a:letters) < 2 ? s:clean_letter(a:letters) : join(map(range(strchars(a:letters)), 's:clean_letter(strcharpart(a:letters, v:val, 1))'), '')
endfunction

" A text as a line says it: a line end is \n, a backslash is \\.
function! s:spelled(text) abort
  return s:separated(s:separated(a:text, '\', '\\'), "\n", '\n')
endfunction

" The text that is spelled so. Vim has no letter of number 0 in a text, so its picture stands for it.
function! s:read(spelled) abort
  let spelled = s:separated(a:spelled, "\n", "\u2400")
  return stridx(spelled, '\') < 0 ? spelled : join(map(s:parts(spelled, '\\'), 's:separated(v:val, ''\n'', "\n")'), '\')
endfunction

" ---- the buffer

" The text of a buffer.
function! s:buffer_text(buffer) abort
  let lines = getbufline(a:buffer, 1, '$')
  return stridx(join(lines, ''), "\n") < 0 ? join(lines, "\n") : join(map(lines, 's:separated(v:val, "\n", "\u2400")'), "\n")
endfunction

" Puts lines in place of lines: those that are the same at the ends stay untouched, with their signs.
function! s:put_lines(buffer, first, old, new) abort
  let [first, old, new] = [a:first, a:old, a:new]
  while !empty(old) && !empty(new) && old[-1] ==# new[-1]
    let [old, new] = [len(old) > 1 ? old[:-2] : [], len(new) > 1 ? new[:-2] : []]
  endwhile
  while !empty(old) && !empty(new) && old[0] ==# new[0]
    let [first, old, new] = [first + 1, old[1:], new[1:]]
  endwhile
  let both = min([len(old), len(new)])
  if both > 0
    call setbufline(a:buffer, first, new[: both - 1])
  endif
  if len(new) > both
    call appendbufline(a:buffer, first + both - 1, new[both :])
  elseif len(old) > both
    call deletebufline(a:buffer, first + both, first + len(old) - 1)
  endif
endfunction

" Where a change stands in lines: its first line, the columns at which it begins and ends, how many lines it takes and puts.
function! s:lines_of(text, change) abort
  let front = strpart(a:text, 0, a:change.from)
  let start = strridx(front, "\n") + 1
  let behind = a:change.from + len(a:change.gone)
  let end = stridx(a:text, "\n", behind)
  let head = strpart(front, start)
  let tail = end < 0 ? strpart(a:text, behind) : strpart(a:text, behind, end - behind)
  return {
        \ 'first': count(front, "\n") + 1,
        \ 'old': s:lines(head . a:change.gone . tail),
        \ 'new': s:lines(head . a:change.put . tail),
        \ 'begins': len(head),
        \ 'tail': len(tail) }
endfunction

" Where a cursor stands after a change, as a line and a column from 0. One that is left of it stays, and so does one in its midst
" where as many lines come as go.
function! s:carried_cursor(line, column, lines, stays_at) abort
  let last = a:lines.first + len(a:lines.old) - 1
  let end = len(a:lines.old[-1]) - a:lines.tail
  if a:line < a:lines.first || (a:line == a:lines.first && a:column < a:lines.begins + (a:stays_at ? 1 : 0))
    return [a:line, a:column]
  elseif a:line > last
    return [a:line + len(a:lines.new) - len(a:lines.old), a:column]
  elseif a:line == last && a:column >= end
    return [a:lines.first + len(a:lines.new) - 1, a:column - end + len(a:lines.new[-1]) - a:lines.tail]
  elseif a:line > a:lines.first && len(a:lines.new) == len(a:lines.old)
    return [a:line, min([a:column, len(a:lines.new[a:line - a:lines.first])])]
  endif
  return [a:lines.first, a:lines.begins]
endfunction

" The cursors of all windows of a buffer, where they stand after a change.
function! s:carried_cursors(buffer, lines) abort
  let cursors = []
  for window in win_findbuf(a:buffer)
    let [_, line, column, over, wanted] = getcurpos(window)
    let stays_at = window == win_getid() && mode() =~# '^[iR]'
    let [new_line, new_column] = s:carried_cursor(line, column - 1, a:lines, stays_at)
    let view = {'lnum': new_line, 'col': new_column, 'coladd': over, 'curswant': new_column == column - 1 ? wanted - 1 : new_column}
    let top = getwininfo(window)[0].topline
    let view.topline = top > a:lines.first ? max([1, top + len(a:lines.new) - len(a:lines.old)]) : top
    call add(cursors, [window, view])
  endfor
  return cursors
endfunction

" Makes a change in the buffer, and leaves the cursors at the letters at which they stand.
function! s:change_buffer(document, change) abort
  let lines = s:lines_of(a:document.text, a:change)
  let cursors = s:carried_cursors(a:document.buffer, lines)
  call s:put_lines(a:document.buffer, lines.first, lines.old, lines.new)
  for [window, view] in cursors
    call win_execute(window, 'call winrestview(' . string(view) . ')')
  endfor
  let a:document.text = strpart(a:document.text, 0, a:change.from) . a:change.put . strpart(a:document.text, a:change.from + len(a:change.gone))
  let a:document.tick = getbufvar(a:document.buffer, 'changedtick')
  return lines
endfunction

" Whether all that stands in the buffer is kept shows as that it isn't modified.
function! s:show_kept(document) abort
  if a:document.is_open && empty(a:document.sent) && getbufvar(a:document.buffer, 'changedtick') == a:document.tick && getbufvar(a:document.buffer, '&modified')
    call setbufvar(a:document.buffer, '&modified', 0)
    let a:document.tick = getbufvar(a:document.buffer, 'changedtick')
  endif
endfunction

" ---- what was written is sent

" Says a line to the follower.
function! s:say(document, line) abort
  if a:document.job is v:null || a:document.is_renewed
    return
  elseif has('nvim')
    call chansend(a:document.job, a:line . "\n")
  else
    call ch_sendraw(a:document.job, a:line . "\n")
  endif
endfunction

" Says that a text comes in place of so many letters from a place on, in several lines where it is long.
function! s:say_replace(document, at, out, put) abort
  let [at, out, size, done] = [a:at, a:out, strchars(a:put), 0]
  let a:document.reason = empty(a:document.sent) ? a:document.rows_reason : a:document.reason
  call s:forget_rows(a:document)
  while 1
    let part = size <= s:most_letters ? a:put : strcharpart(a:put, done, s:most_letters)
    call s:say(a:document, 'seen ' . a:document.seen)
    call s:say(a:document, 'replace ' . at . ' ' . (at + out) . (empty(part) ? '' : ' ' . s:spelled(part)))
    call add(a:document.sent, part)
    let done += s:most_letters
    if done >= size
      return
    endif
    let [at, out] = [at + s:most_letters, 0]
  endwhile
endfunction

" Says a change of the text, and takes it into what the follower is taken to know.
function! s:say_change(document, change) abort
  let at = strchars(strpart(a:document.text, 0, a:change.from))
  call s:say_replace(a:document, at, strchars(a:change.gone), a:change.put)
  return at
endfunction

" What isn't UTF-8 in the lines that a change put in is cleaned in the buffer.
function! s:clean_buffer(document, new, change) abort
  let first = count(strpart(a:new, 0, a:change.from), "\n") + 1
  for line in range(first, first + count(a:change.put, "\n"))
    let [text] = getbufline(a:document.buffer, line)
    if s:clean(text) !=# text
      call setbufline(a:document.buffer, line, s:clean(text))
    endif
  endfor
endfunction

" Sends what was written in the buffer since it was sent last.
function! s:send(document) abort
  call timer_stop(a:document.timer)
  let a:document.timer = -1
  let tick = getbufvar(a:document.buffer, 'changedtick')
  if a:document.job is v:null || !a:document.is_open || a:document.is_renewed || tick == a:document.tick
    return
  endif
  let new = s:buffer_text(a:document.buffer)
  let change = s:difference(a:document.text, new)
  if s:clean(change.put) !=# change.put
    call s:clean_buffer(a:document, new, change)
    let new = s:buffer_text(a:document.buffer)
  endif
  let goes_on = a:document.is_typing
  for change in new ==# a:document.text ? [] : s:differences(a:document.text, new)
    call s:remember(a:document, s:say_change(a:document, change), change, goes_on)
    let goes_on = 1
  endfor
  let a:document.is_typing = mode() =~# '^[iR]'
  let a:document.text = new
  let a:document.tick = getbufvar(a:document.buffer, 'changedtick')
  call s:show_kept(a:document)
endfunction

" Something was typed: it goes out at the end of a word, or soon.
function! s:typed() abort
  let document = get(s:documents, bufnr(), {'is_open': 0})
  if !document.is_open
    return
  elseif col('.') < 2 || getline('.')[col('.') - 2] =~# '\s'
    call s:send(document)
  elseif document.timer < 0
    let document.timer = timer_start(g:roastcliff_delay, {-> s:send(document)})
  endif
endfunction

" ---- undo of one's own
"
" Vim's own undo would take back what others wrote. So it is switched off, and this one remembers how each own change is taken
" back, and which changes of others came behind it. A step takes out letters, or puts them in: {at, out} or {at, put}.

" How many letters a step takes out or puts in.
function! s:size(step) abort
  return has_key(a:step, 'out') ? a:step.out : strchars(a:step.put)
endfunction

function! s:moved(step, by) abort
  return extend({'at': a:step.at + a:by}, a:step, 'keep')
endfunction

" Takes out so many letters from a place on, if any.
function! s:taking(at, out) abort
  return a:out > 0 ? [{'at': a:at, 'out': a:out}] : []
endfunction

" What becomes of a step that puts letters in, where another takes some out, and of that one.
function! s:cross_put(put, out) abort
  let end = a:out.at + a:out.out
  if a:put.at <= a:out.at
    return [[a:put], [s:moved(a:out, s:size(a:put))]]
  elseif a:put.at >= end
    return [[s:moved(a:put, -a:out.out)], [a:out]]
  endif
  let [left, right] = [a:put.at - a:out.at, end - a:put.at]
  return [[s:moved(a:put, -left)], s:taking(a:out.at, left) + s:taking(a:out.at + s:size(a:put), right)]
endfunction

" What becomes of a step that takes letters out, where another took out some.
function! s:cross_out(one, other) abort
  let [end, other_end] = [a:one.at + a:one.out, a:other.at + a:other.out]
  let common = max([0, min([end, other_end]) - max([a:one.at, a:other.at])])
  let before = max([0, min([a:one.at, other_end]) - a:other.at])
  return s:taking(a:one.at - before, a:one.out - common)
endfunction

" What becomes of two steps that were meant for one text, each after the other.
function! s:cross_two(one, other) abort
  let [puts, other_puts] = [has_key(a:one, 'put'), has_key(a:other, 'put')]
  if puts && other_puts
    return a:one.at <= a:other.at ? [[a:one], [s:moved(a:other, s:size(a:one))]] : [[s:moved(a:one, s:size(a:other))], [a:other]]
  elseif puts
    return s:cross_put(a:one, a:other)
  elseif other_puts
    return reverse(s:cross_put(a:other, a:one))
  endif
  return [s:cross_out(a:one, a:other), s:cross_out(a:other, a:one)]
endfunction

" The same of two rows of steps.
function! s:cross(ones, others) abort
  let [crossed, others] = [[], a:others]
  for one in a:ones
    let [parts, left] = [[one], []]
    for other in others
      let [parts, rest] = s:cross_parts(parts, other)
      let left += rest
    endfor
    let crossed += parts
    let others = left
  endfor
  return [crossed, others]
endfunction

" The same of a row of steps and one.
function! s:cross_parts(parts, other) abort
  if len(a:parts) == 1
    return s:cross_two(a:parts[0], a:other)
  endif
  let [crossed, others] = [[], [a:other]]
  for part in a:parts
    let [more, others] = s:cross([part], others)
    let crossed += more
  endfor
  return [crossed, others]
endfunction

" The steps that take a change back.
function! s:steps_back(at, change) abort
  let steps = s:taking(a:at, strchars(a:change.put))
  return empty(a:change.gone) ? steps : add(steps, {'at': a:at, 'put': a:change.gone})
endfunction

" Remembers an own change. One that goes on with the change in front of it is taken back with that.
function! s:remember(document, at, change, goes_on) abort
  let steps = s:steps_back(a:at, a:change)
  let past = a:document.past
  if a:goes_on && !empty(past) && past[-1].is_own
    let past[-1].steps = steps + past[-1].steps
  else
    call add(past, {'is_own': 1, 'steps': steps, 'goes_on': a:goes_on})
  endif
  let a:document.undone = []
  call s:forget_old(past)
endfunction

" Remembers a change of others.
function! s:remember_row(document, at, change) abort
  let steps = s:taking(a:at, strchars(a:change.gone))
  if !empty(a:change.put)
    call add(steps, {'at': a:at, 'put': a:change.put})
  endif
  for past in [a:document.past, a:document.undone]
    if !empty(past)
      call add(past, {'is_own': 0, 'steps': steps})
      call s:forget_old(past)
    endif
  endfor
endfunction

function! s:forget_old(past) abort
  if len(a:past) > s:most_remembered
    call remove(a:past, 0, len(a:past) - s:most_remembered - 1)
  endif
endfunction

" Takes the last own change out of what is remembered: its steps, as they are after what others changed, and whether it went on
" with the one in front of it.
function! s:recalled(past) abort
  let others = []
  while !empty(a:past)
    let last = remove(a:past, -1)
    if last.is_own
      let [steps, others] = s:cross(last.steps, others)
      call s:put_back(a:past, others)
      return [steps, last.goes_on]
    endif
    let others = last.steps + others
  endwhile
  return [[], 0]
endfunction

function! s:put_back(past, others) abort
  if !empty(a:past) && !empty(a:others)
    call add(a:past, {'is_own': 0, 'steps': a:others})
  endif
endfunction

" Makes a step in the buffer, and says it. Gives the steps that take it back.
function! s:make_step(document, step) abort
  let change = s:change_at(a:document.text, a:step.at, get(a:step, 'out', 0), get(a:step, 'put', ''))
  call s:say_change(a:document, change)
  let lines = s:change_buffer(a:document, change)
  call cursor(lines.first, lines.begins + 1)
  return s:steps_back(a:step.at, change)
endfunction

" Takes back the last own change that something is left of, as the one row remembers it, and remembers in the other how that is
" taken back.
function! s:take_back(document, past, other) abort
  let back = []
  while !empty(filter(copy(a:past), 'v:val.is_own'))
    let [steps, goes_on] = s:recalled(a:past)
    for step in steps
      let back = s:make_step(a:document, step) + back
    endfor
    if !empty(back) && !goes_on
      break
    endif
  endwhile
  if empty(back)
    return 0
  endif
  call add(a:other, {'is_own': 1, 'steps': back, 'goes_on': 0})
  return 1
endfunction

function! s:undo(is_redo) abort
  if !has_key(s:documents, bufnr())
    return
  endif
  let document = s:documents[bufnr()]
  call s:send(document)
  let document.is_typing = 0
  let [from, into] = a:is_redo ? [document.undone, document.past] : [document.past, document.undone]
  if !s:take_back(document, from, into)
    call s:tell(a:is_redo ? 'nothing of yours is left to be made again' : 'nothing of yours is left to be taken back')
  endif
endfunction

" ---- what comes

" The change of a text that is told in letters.
function! s:change_at(text, at, out, put) abort
  let from = byteidxcomp(a:text, a:at)
  let rest = strpart(a:text, from)
  return {'from': from, 'gone': strpart(rest, 0, byteidxcomp(rest, a:out)), 'put': a:put}
endfunction

" A text comes, or the whole of it again.
function! s:take_text(document, spelled) abort
  let text = s:read(a:spelled)
  call s:forget_rows(a:document)
  call setbufvar(a:document.buffer, '&modifiable', 1)
  if a:document.is_going_on
    call s:show_renewed(a:document, text)
  else
    call s:put_lines(a:document.buffer, 1, getbufline(a:document.buffer, 1, '$'), s:lines(text))
    call s:tell_left(a:document, '')
  endif
  call extend(a:document, {'text': text, 'has_text': 1, 'seen': 0, 'sent': [], 'is_open': 1})
  call setbufvar(a:document.buffer, '&modified', 0)
  let a:document.tick = getbufvar(a:document.buffer, 'changedtick')
endfunction

" A range was replaced, or not all of it.
function! s:take_replaced(document, rest) abort
  call remove(a:document.sent, 0)
  let reason = matchstr(a:rest, ' but \zs.*')
  if !empty(reason)
    let a:document.refusals += 1
    let a:document.reason = {'kind': 'denied', 'words': reason}
    call s:tell('not written: ' . s:refusal(a:document, reason))
  endif
  call s:show_kept(a:document)
endfunction

" A change comes. One that comes before what was sent is answered was meant for another text, and comes again.
function! s:take_changed(document, rest) abort
  if !a:document.is_open
    return
  endif
  call s:send(a:document)
  let is_undone = a:document.rows_undone > 0
  let a:document.rows_undone -= is_undone
  let a:document.reason = is_undone ? a:document.undoing : a:document.reason
  if !empty(a:document.sent)
    return
  endif
  if a:document.reason != a:document.rows_reason
    call s:show_rows(a:document)
  endif
  let space = stridx(a:rest, ' ')
  let end = stridx(a:rest, ' ', space + 1)
  let put = end < 0 ? '' : s:read(strpart(a:rest, end + 1))
  call add(a:document.rows, [str2nr(a:rest), str2nr(strpart(a:rest, space + 1)), put])
  let [a:document.rows_reason, a:document.reason] = [a:document.reason, {}]
endfunction

" Makes the changes that came in the buffer.
function! s:show_rows(document) abort
  if empty(a:document.rows)
    return
  endif
  call s:send(a:document)
  let [rows, reason] = [a:document.rows, a:document.rows_reason]
  let a:document.seen += len(rows)
  call s:forget_rows(a:document)
  for [at, out, put] in rows
    call s:show_row(a:document, s:change_at(a:document.text, at, out, put), reason)
  endfor
  call s:show_kept(a:document)
endfunction

function! s:show_row(document, change, reason) abort
  let change = s:difference(a:change.gone, a:change.put)
  let change.from += a:change.from
  call s:remember_row(a:document, strchars(strpart(a:document.text, 0, change.from)), change)
  let line = s:change_buffer(a:document, change).first
  if !empty(a:reason)
    call s:mark(a:document, line, change, a:reason)
  endif
endfunction

" Leaves out the changes that came and aren't in the buffer yet.
function! s:forget_rows(document) abort
  let [a:document.rows, a:document.rows_reason] = [[], {}]
endfunction

" How many edits the entry that came last undid, and in how many rows, which come next.
function! s:take_undone(document, rest) abort
  let [edits, rows] = split(a:rest, ' ')
  let a:document.undoing = {'kind': 'undone', 'version': a:document.rules.version}
  let a:document.rows_undone = str2nr(rows)
  call s:tell(edits . (edits == 1 ? ' edit was' : ' edits were') . ' undone: ' . s:why(a:document, a:document.undoing))
endfunction

function! s:take_linked(document, rest) abort
  let [site, person, role] = split(a:rest, ' ')
  call extend(a:document, {'state': 'linked', 'person': str2nr(person), 'role': role, 'tries': 0})
  redrawstatus!
endfunction

function! s:take_apart(document, rest) abort
  let a:document.state = 'apart'
  redrawstatus!
endfunction

function! s:take_closed(document, rest) abort
  let a:document.closed = matchstr(a:rest, ' \zs.*')
  call s:tell('the host closed the link: ' . a:rest)
endfunction

function! s:take_people(document, rest) abort
  let [a:document.people, a:document.devices] = [{}, {}]
endfunction

function! s:take_person(document, rest) abort
  let [_, person, role, name; _] = matchlist(a:rest, '\v^(\d+) (\S+) (.*)$')
  let a:document.people[person] = {'role': role, 'name': name}
endfunction

function! s:take_device(document, rest) abort
  let [site, person; _] = split(a:rest, ' ')
  let a:document.devices[site] = person
endfunction

function! s:take_here(document, rest) abort
  let a:document.here = split(a:rest, ' ')
endfunction

" A new document has the place of this one. The pieces that are left of what was written here come next.
function! s:take_renewed(document, rest) abort
  let a:document.is_renewed = 1
endfunction

function! s:take_left(document, rest) abort
  call add(a:document.told, s:read(a:rest))
endfunction

function! s:take_told(document, rest) abort
  call s:tell('the host did not take an edit: ' . a:rest)
endfunction

" What is done with the lines of the follower, by their first words. What others' carets do isn't shown.
let s:takers = {
      \ 'text': function('s:take_text'),
      \ 'replaced': function('s:take_replaced'),
      \ 'changed': function('s:take_changed'),
      \ 'undone': function('s:take_undone'),
      \ 'linked': function('s:take_linked'),
      \ 'apart': function('s:take_apart'),
      \ 'closed': function('s:take_closed'),
      \ 'people': function('s:take_people'),
      \ 'person': function('s:take_person'),
      \ 'device': function('s:take_device'),
      \ 'here': function('s:take_here'),
      \ 'renewed': function('s:take_renewed'),
      \ 'left': function('s:take_left'),
      \ 'told': function('s:take_told') }

function! s:take(document, line) abort
  let end = stridx(a:line, ' ')
  let [word, rest] = end < 0 ? [a:line, ''] : [strpart(a:line, 0, end), strpart(a:line, end + 1)]
  if word ==# 'entry'
    call s:take_entry(a:document.rules, rest)
  elseif has_key(s:takers, word)
    call s:takers[word](a:document, rest)
  endif
endfunction

" ---- the document was renewed
"
" A new document has the place of the old one then. The follower tells which pieces of what was written here the host hasn't, and
" ends. The files of the old document are put aside, and the device goes on in the new one. What is left of the old one stands in a
" file beside the document's, a line for each place, until it is put in or let go.

" A file and its folder in a message, of which a row may show the begin alone.
function! s:short_name(file) abort
  return fnamemodify(a:file, ':t') . ' of ' . fnamemodify(a:file, ':~:h')
endfunction

" What the file has that is left.
function! s:read_left(file) abort
  let lines = filereadable(a:file . '.left') ? readfile(a:file . '.left', 'b') : []
  return map(filter(lines, '!empty(v:val)'), 's:read(v:val)')
endfunction

" Keeps what is left in the file, which is gone where nothing is.
function! s:keep_left(document) abort
  let file = a:document.file . '.left'
  try
    if empty(a:document.left)
      call delete(file)
    elseif writefile(map(copy(a:document.left), 's:spelled(v:val)') + [''], file . '.new', 'bs') || rename(file . '.new', file)
      throw 'roastcliff: not written'
    endif
  catch
    call s:tell('this editor alone has what is left, since it can''t be written: ' . s:short_name(file))
  endtry
endfunction

" Pieces that were written one after another: those that stand side by side in a text are one.
function! s:joined(text, pieces) abort
  let [joined, at] = [[], 0]
  for piece in a:pieces
    let found = empty(joined) ? -1 : stridx(a:text, joined[-1] . piece, at)
    if found < 0
      call add(joined, piece)
    else
      let joined[-1] .= piece
    endif
    let at = max([found, 0])
  endfor
  return joined
endfunction

" What was written here that the follower hasn't taken: it didn't answer that, or wasn't told of it.
function! s:take_untaken(document) abort
  let text = s:buffer_text(a:document.buffer)
  let puts = a:document.sent
  if a:document.has_text && text !=# a:document.text
    let puts += map(reverse(s:differences(a:document.text, text)), 's:clean(v:val.put)')
  endif
  let [a:document.sent, a:document.text] = [[], text]
  return filter(puts, '!empty(v:val)')
endfunction

" Keeps what the follower told as left, where the text has it, and what it hasn't taken.
function! s:leave_behind(document, told) abort
  let untaken = s:take_untaken(a:document)
  let pieces = filter(copy(a:told), 'stridx(a:document.text, v:val) >= 0') + untaken
  if !empty(pieces)
    let a:document.left = a:document.left[:-2] + s:joined(a:document.text, a:document.left[-1:] + pieces)
    call s:keep_left(a:document)
  endif
endfunction

" Under which names the files of a document that was renewed are, from the oldest on. The last one is free.
function! s:names_aside(file) abort
  let names = [a:file . '.renewed']
  while !empty(getftype(names[-1])) || !empty(getftype(names[-1] . '.device'))
    call add(names, a:file . '.renewed' . (len(names) + 1))
  endwhile
  return names
endfunction

" Puts the files of the old document aside, the device behind the text: where that breaks off the follower tells of the renewal once
" more. Gives whether it was done.
function! s:put_aside(document) abort
  let [file, name] = [a:document.file, s:names_aside(a:document.file)[-1]]
  if rename(file, name)
    return 0
  elseif rename(file . '.device', name . '.device')
    call rename(name, file)
    return 0
  endif
  let a:document.aside = name
  return 1
endfunction

" The device of a file as an address has it, SITE.SECRET, or '' where there is none.
function! s:device_of(file) abort
  let lines = filereadable(a:file . '.device') ? readfile(a:file . '.device') : []
  return join(matchlist(get(lines, 0, ''), '\v^device (\d+) (\S+)$')[1:2], '.')
endfunction

" The address of a document by the device that had the one before it, where it has one.
function! s:address_again(address, file) abort
  return matchstr(a:address, '^[^#]*') . '#' . s:device_of(a:file)
endfunction

" Goes on in the new document. The buffer shows the text of the old one until the other comes.
function! s:go_on(document) abort
  call s:leave_behind(a:document, a:document.told)
  call setbufvar(a:document.buffer, '&modifiable', 0)
  let address = s:address_again(a:document.address, a:document.file)
  if !s:put_aside(a:document)
    return s:tell('the new document isn''t opened, since the old one can''t be put aside: ' . s:short_name(a:document.file))
  endif
  call timer_stop(a:document.timer)
  call extend(a:document, s:untold())
  call extend(a:document, {'address': address, 'is_going_on': 1, 'timer': -1, 'past': [], 'undone': [], 'is_typing': 0})
  call s:fetch(a:document)
endfunction

" Where words stand in a text from a place on, or -1 where they don't, or more than once.
function! s:place_once(text, words, from) abort
  let at = stridx(a:text, a:words, a:from)
  return at >= 0 && stridx(a:text, a:words, at + 1) < 0 ? at : -1
endfunction

" What stands in a new text in the place of words of an old one, by so many bytes on each side, as a list of one: [] where it can't be
" said.
function! s:in_place(new, old, words, near) abort
  let at = s:place_once(a:old, a:words, 0)
  let front = strpart(a:old, max([0, at - a:near]), min([at, a:near]))
  let start = at > 0 ? s:place_once(a:new, front, 0) : at
  let back = strpart(a:old, at + len(a:words), a:near)
  let end = start < 0 || empty(back) ? len(a:new) : s:place_once(a:new, back, start + len(front))
  let start += start < 0 ? 0 : len(front)
  return start < 0 || end < start ? [] : [strpart(a:new, start, end - start)]
endfunction

" What of words of an old text a new one lacks in their place. Words that were written into a piece are told with the whole of it. All
" of them are lacking where it can't be said.
function! s:lacking(new, old, words) abort
  let [words, size, found] = [a:words, len(a:words), []]
  for near in s:nears
    let found += s:in_place(a:new, a:old, words, near)
  endfor
  for there in found[:0]
    let end = s:alike_at_end(there, words, min([len(there), size]))
    while s:is_inside(words, size - end) || s:is_inside(there, len(there) - end)
      let end -= 1
    endwhile
    let change = s:difference(strpart(there, 0, len(there) - end), strpart(words, 0, size - end))
    return empty(change.put) || stridx(change.put, change.gone) >= 0 ? change.put : words
  endfor
  return words
endfunction

" Shows the text of the new document in place of the old one's. The cursors stay where they were, as near as it allows. The host may
" have taken what it didn't say it had.
function! s:show_renewed(document, text) abort
  call s:leave_behind(a:document, [])
  let old = a:document.text
  for change in old ==# a:text ? [] : s:differences(old, a:text)
    call s:change_buffer(a:document, change)
  endfor
  let a:document.left = filter(map(a:document.left, 's:lacking(a:text, old, v:val)'), '!empty(v:val)')
  call s:keep_left(a:document)
  call extend(a:document, {'is_going_on': 0, 'aside': ''})
  call s:tell_left(a:document, 'the document was renewed')
endfunction

" Tells how much is left, behind what happened.
function! s:tell_left(document, happened) abort
  let number = len(a:document.left)
  let left = number == 0 ? '' : ':RoastcliffLeft has ' . number . (number == 1 ? ' piece' : ' pieces') . ' that you wrote'
  let words = filter([a:happened, left], '!empty(v:val)')
  if !empty(words)
    call s:tell(join(words, '; '))
  endif
endfunction

" Puts a text in at the cursor: in front of the letter at which it stands, or behind that where it is the last of its line. Gives
" whether that was done.
function! s:put_in(document, text) abort
  call s:send(a:document)
  let [a:document.is_typing, refusals] = [0, a:document.refusals]
  let [first, line, at] = [line('.'), getline('.'), col('.') - 1]
  let at = at + len(matchstr(line, '.', at)) < len(line) ? at : len(line)
  let lines = s:lines(a:text)
  let lines[0] = strpart(line, 0, at) . lines[0]
  let end = len(lines[-1])
  let lines[-1] .= strpart(line, at)
  call s:put_lines(a:document.buffer, first, [line], lines)
  call cursor(first + len(lines) - 1, end + 1)
  call s:send(a:document)
  call s:wait_while({-> a:document.is_open && !empty(a:document.sent)})
  return a:document.is_open && empty(a:document.sent) && a:document.refusals == refusals
endfunction

" What is left that a word names: the number of a piece, or `all`.
function! s:named_left(document, word) abort
  if a:word ==# 'all'
    return copy(a:document.left)
  endif
  let number = a:word =~# '\v^[1-9]\d*$' ? str2nr(a:word) : 0
  return number > 0 && number <= len(a:document.left) ? [a:document.left[number - 1]] : []
endfunction

" Lets pieces go that were put in, or aren't wanted.
function! s:let_go(document, pieces) abort
  for piece in a:pieces
    let place = index(a:document.left, piece)
    if place >= 0
      call remove(a:document.left, place)
    endif
  endfor
  call s:keep_left(a:document)
endfunction

" Texts in one: each begins a line, but the first.
function! s:in_lines(texts) abort
  return join(map(a:texts[:-2], 'v:val =~# ''\n$'' ? v:val : v:val . "\n"') + a:texts[-1:], '')
endfunction

function! s:show_left(document) abort
  let lines = map(copy(a:document.left), '(v:key + 1) . ". " . s:separated(v:val, "\n", "⏎")')
  let how = ['`:RoastcliffLeft NUMBER` puts one in at the cursor, `:RoastcliffLeft all` all of it; with `!` they are let go.']
  let lines = empty(lines) ? ['Nothing is left that you wrote while a document was renewed.'] : ['You wrote this while the document was renewed:'] + lines + how
  let aside = get(s:names_aside(a:document.file), -2, '')
  call s:show('left', lines + (empty(aside) ? [] : ['The old document is ' . fnamemodify(aside, ':~') . '.']))
endfunction

" Goes from the list of what is left back to where it was asked for.
function! s:close_left() abort
  if bufname() ==# '[Roastcliff left]'
    let window = win_getid(winnr('#'))
    close
    call win_gotoid(window)
  endif
endfunction

function! s:left(word, is_let_go) abort
  call s:close_left()
  let document = s:here()
  if empty(a:word) && !a:is_let_go
    return s:show_left(document)
  endif
  let pieces = s:named_left(document, a:word)
  if empty(pieces)
    return s:tell(empty(document.left) ? 'nothing is left' : 'which? a number of the list, or all')
  elseif !a:is_let_go && !document.is_open
    return s:tell('the document isn''t open')
  elseif a:is_let_go || s:put_in(document, s:in_lines(pieces))
    call s:let_go(document, pieces)
    call s:tell_left(document, len(pieces) . (len(pieces) == 1 ? ' piece is ' : ' pieces are ') . (a:is_let_go ? 'let go' : 'put in'))
  endif
endfunction

" ---- the rules, as the entries of the administrator make them

function! s:no_rules() abort
  return {'version': 0, 'entries': {}, 'groups': {}, 'objects': {'0': ['all']}, 'list': []}
endfunction

" Takes an entry, which comes once or again: `VERSION OP`.
function! s:take_entry(rules, words) abort
  let [number, kind; words] = split(a:words, ' ')
  if number != a:rules.version + 1
    return
  endif
  let a:rules.version = str2nr(number)
  let entry = {'kind': kind, 'words': words}
  let a:rules.entries[number] = entry
  if kind ==# 'addauth'
    call insert(a:rules.list, entry, str2nr(words[0]))
  elseif kind ==# 'delauth'
    let entry.was = remove(a:rules.list, str2nr(words[0]))
  elseif kind ==# 'addobj'
    let a:rules.objects[words[0]] = words[1:]
  elseif kind ==# 'delobj'
    call remove(a:rules.objects, words[0])
  elseif kind ==# 'delgroup'
    call remove(a:rules.groups, words[0])
  elseif kind ==# 'addgroup'
    let a:rules.groups[words[0]] = []
  elseif kind ==# 'addmember'
    call add(a:rules.groups[words[0]], words[1])
  elseif kind ==# 'delmember'
    call filter(a:rules.groups[words[0]], 'v:val !=# words[1]')
  endif
endfunction

" Who a group of the rules is: a person of the host.
function! s:person(document, group) abort
  return has_key(a:document.people, a:group) ? a:document.people[a:group].name : 'group ' . a:group
endfunction

" Who a user of the rules is: the person whose device it is.
function! s:user(document, user) abort
  if a:user == 0
    return 'the administrator'
  endif
  return has_key(a:document.devices, a:user) ? s:person(a:document, a:document.devices[a:user]) : 'user ' . a:user
endfunction

function! s:users(document, word) abort
  if a:word ==# 'all'
    return 'everybody'
  elseif a:word[0] ==# '@'
    return join(map(split(a:word[1:], ','), 's:person(a:document, v:val)'), ', ')
  endif
  return join(map(split(a:word, ','), 's:user(a:document, v:val)'), ', ')
endfunction

function! s:object(document, number, sign) abort
  let extent = get(a:document.rules.objects, a:number, [''])
  if extent[0] ==# 'all'
    return a:sign ==# '+' ? 'everywhere' : 'anywhere'
  elseif extent[0] ==# 'by'
    return 'in what ' . s:user(a:document, extent[1]) . ' wrote'
  endif
  return 'in part ' . a:number
endfunction

let s:deed_words = {'i': 'add words', 'd': 'delete', 'u': 'change words'}

function! s:deeds(rights) abort
  return a:rights ==# 'idu' ? 'write' : join(map(split(a:rights, '\zs'), 's:deed_words[v:val]'), ' or ')
endfunction

" A rule as a sentence: `PLACE SIGN USERS RIGHTS OBJECTS`.
function! s:rule(document, entry) abort
  let [_, sign, users, rights, objects] = a:entry.words
  let where = join(map(split(objects, ','), 's:object(a:document, v:val, sign)'), ' or ')
  if sign ==# '-' && users ==# 'all'
    return 'nobody may ' . s:deeds(rights) . ' ' . where
  endif
  return s:users(a:document, users) . (sign ==# '+' ? ' may ' : ' may not ') . s:deeds(rights) . ' ' . where
endfunction

" What an entry changed, as a sentence.
function! s:entry(document, version) abort
  let entry = get(a:document.rules.entries, a:version, {'kind': 'version', 'words': [a:version]})
  if entry.kind ==# 'addauth'
    return 'the rule says: ' . s:rule(a:document, entry)
  elseif entry.kind ==# 'delauth'
    return 'this rule was taken away: ' . s:rule(a:document, entry.was)
  elseif entry.kind ==# 'delmember'
    return s:user(a:document, entry.words[1]) . ' is no member any more'
  elseif entry.kind ==# 'deluser'
    return s:user(a:document, entry.words[0]) . ' is no user any more'
  endif
  return 'the rules changed: ' . join([entry.kind] + entry.words, ' ')
endfunction

" Why an edit wasn't made, in words: an answer, as `denied 4 by 3`.
function! s:refusal(document, answer) abort
  let denied = matchlist(a:answer, '\v^denied (\d+) (by (\d+)|none)$')
  if empty(denied)
    return a:answer
  endif
  return empty(denied[3]) ? 'no rule allows it' : s:entry(a:document, denied[3])
endfunction

function! s:why(document, reason) abort
  return a:reason.kind ==# 'denied' ? s:refusal(a:document, a:reason.words) : s:entry(a:document, a:reason.version)
endfunction

" ---- what was denied or undone is marked

call sign_define('RoastcliffUndone', {'text': '✗', 'texthl': 'WarningMsg'})
if has('nvim')
  let s:space = nvim_create_namespace('roastcliff')
elseif s:has_virtual_text && empty(prop_type_get('RoastcliffUndone'))
  call prop_type_add('RoastcliffUndone', {'highlight': 'WarningMsg'})
endif

" Shows words behind a line, which aren't part of the text.
function! s:show_behind(buffer, line, words) abort
  if has('nvim')
    call nvim_buf_set_extmark(a:buffer, s:space, a:line - 1, 0, {'virt_text': [[' ' . a:words, 'WarningMsg']]})
  elseif s:has_virtual_text
    call prop_add(a:line, 0, {'bufnr': a:buffer, 'type': 'RoastcliffUndone', 'text': ' ' . a:words, 'text_align': 'after'})
  endif
endfunction

" Marks the line at which a change took something back: a sign, and behind the line what it was, and why.
function! s:mark(document, line, change, reason) abort
  let text = empty(a:change.gone) ? a:change.put : a:change.gone
  let deeds = a:reason.kind ==# 'denied' ? ['not deleted', 'not written'] : ['came back', 'undone']
  let deed = deeds[!empty(a:change.gone)]
  let why = s:why(a:document, a:reason)
  let shown = s:separated(strcharpart(text, 0, 40) . (strchars(text) > 40 ? '…' : ''), "\n", '⏎')
  call add(a:document.marks, {'line': a:line, 'text': text, 'deed': deed, 'why': why})
  call sign_place(0, 'roastcliff', 'RoastcliffUndone', a:document.buffer, {'lnum': a:line, 'priority': 20})
  call s:show_behind(a:document.buffer, a:line, '“' . shown . '” ' . deed . ': ' . why)
endfunction

function! s:unmark(document) abort
  call sign_unplace('roastcliff', {'buffer': a:document.buffer})
  if has('nvim')
    call nvim_buf_clear_namespace(a:document.buffer, s:space, 0, -1)
  elseif s:has_virtual_text
    call prop_remove({'type': 'RoastcliffUndone', 'bufnr': a:document.buffer, 'all': 1}, 1, len(getbufline(a:document.buffer, 1, '$')))
  endif
  let a:document.marks = []
endfunction

" ---- what is shown

" Tells something in one row, so that nobody has to press a key for it.
function! s:tell(words) abort
  echohl WarningMsg | echomsg strcharpart('roastcliff: ' . a:words, 0, v:echospace) | echohl None
endfunction

" Shows lines in a window of their own.
function! s:show(name, lines) abort
  execute 'silent keepalt botright' min([len(a:lines), 15]) . 'split' fnameescape('[Roastcliff ' . a:name . ']')
  setlocal buftype=nofile bufhidden=wipe noswapfile nobuflisted modifiable
  silent %delete _
  call setline(1, a:lines)
  setlocal nomodifiable nomodified
  nnoremap <buffer> <silent> q :close<CR>
endfunction

function! s:here() abort
  if has_key(s:documents, bufnr())
    return s:documents[bufnr()]
  endif
  throw 'roastcliff: this buffer is no document'
endfunction

" Whether somebody has a device among users of the rules.
function! s:has_device(document, person, users) abort
  return !empty(filter(copy(a:users), 'get(a:document.devices, v:val) == a:person'))
endfunction

" Whether somebody is in a group of the rules: it is his own, or a device of his is a member.
function! s:is_in(document, person, group) abort
  return a:group == a:person || s:has_device(a:document, a:person, get(a:document.rules.groups, a:group, []))
endfunction

" Whether the users of a rule are a person, or have a device of his.
function! s:is_for(document, person, word) abort
  if a:word ==# 'all'
    return 1
  elseif a:word[0] ==# '@'
    return !empty(filter(split(a:word[1:], ','), 's:is_in(a:document, a:person, v:val)'))
  endif
  return s:has_device(a:document, a:person, split(a:word, ','))
endfunction

" Whether one of the objects of a rule is the whole text.
function! s:is_everywhere(document, objects) abort
  return !empty(filter(split(a:objects, ','), 'get(a:document.rules.objects, v:val, [""])[0] ==# "all"'))
endfunction

" Whether somebody may do something everywhere: what the first rule says that is for him.
function! s:may(document, person, right) abort
  for entry in a:document.rules.list
    let [_, sign, users, rights, objects] = entry.words
    if stridx(rights, a:right) >= 0 && s:is_everywhere(a:document, objects) && s:is_for(a:document, a:person, users)
      return sign ==# '+'
    endif
  endfor
  return 0
endfunction

" What a person may do everywhere, in words. Devices of owners alone have the rights of site 0 at the host, by orders.
function! s:may_words(document, person) abort
  let deeds = map(filter(['i', 'd', 'u'], 's:may(a:document, a:person, v:val)'), 's:deed_words[v:val]')
  return len(deeds) == 3 ? 'may write' : empty(deeds) ? 'may only read' : 'may ' . join(deeds, ' and ')
endfunction

function! s:person_line(document, person) abort
  let known = a:document.people[a:person]
  let sites = filter(copy(a:document.here), 'get(a:document.devices, v:val) == a:person')
  let is_me = a:person == a:document.person ? ', which is you' : ''
  return '  ' . known.name . ' (' . known.role . is_me . (empty(sites) ? '' : ', is here') . ') ' . s:may_words(a:document, a:person)
endfunction

function! s:who() abort
  let document = s:here()
  let people = map(sort(keys(document.people), 'N'), 's:person_line(document, v:val)')
  let rules = map(copy(document.rules.list), '"  " . (v:key + 1) . ". " . s:rule(document, v:val)')
  call s:show('who', ['Who may do what, in version ' . document.rules.version . ' of the rules:'] + people + ['The rules, of which the first that is for somebody and for the place decides:'] + rules)
endfunction

function! s:reasons(is_forgotten) abort
  let document = s:here()
  let lines = []
  for mark in document.marks
    let lines += ['“' . mark.deed . '”: ' . mark.why] + map(s:lines(mark.text), '"    " . v:val')
  endfor
  if a:is_forgotten
    call s:unmark(document)
  endif
  call s:show('why', empty(lines) ? ['Nothing was denied or undone.'] : lines)
endfunction

" How it stands with the document of a buffer, for a status line.
function! RoastcliffStatus() abort
  if !has_key(s:documents, bufnr())
    return ''
  endif
  let document = s:documents[bufnr()]
  let state = document.is_going_on && document.state ==# 'linked' ? 'opening' : document.state
  let kept = !empty(document.sent) || &modified ? ', not kept yet' : ''
  return state . kept . (empty(document.left) ? '' : ', ' . len(document.left) . ' left')
endfunction

" ---- the follower

" Starts the follower, and takes its lines. `Ended` is called with the document and the status.
function! s:start(document, has_input, Ended) abort
  let words = g:roastcliff_program + [a:document.address, a:document.file]
  let [document, partial] = [a:document, ['']]
  if has('nvim')
    return jobstart(words, {
          \ 'stdin': a:has_input ? 'pipe' : 'null',
          \ 'on_stdout': {_, lines, event -> s:take_lines(document, partial, lines)},
          \ 'on_stderr': {_, lines, event -> s:take_error(document, join(lines, ' '))},
          \ 'on_exit': {_, status, event -> a:Ended(document, status)} })
  endif
  return job_start(words, {
        \ 'in_io': a:has_input ? 'pipe' : 'null',
        \ 'noblock': 1,
        \ 'out_cb': {channel, line -> s:take_line(document, line, ch_canread(channel))},
        \ 'err_cb': {_, line -> s:take_error(document, line)},
        \ 'exit_cb': {job, status -> s:when_read(job, 60, {-> a:Ended(document, status)})} })
endfunction

" Calls a function once all that a follower said was taken in Vim, or after so many looks.
function! s:when_read(job, looks, Then) abort
  let is_open = a:looks > 0 && ch_status(a:job, {'part': 'out'}) !~# 'closed\|fail'
  call timer_start(50, is_open ? {-> s:when_read(a:job, a:looks - 1, a:Then)} : {-> a:Then()})
endfunction

" Takes a line that came to Vim, with more behind it or not.
function! s:take_line(document, line, has_more) abort
  call s:take(a:document, a:line)
  if !a:has_more
    call s:show_rows(a:document)
  endif
endfunction

" Takes the lines that came to Neovim: the first goes on with the one that wasn't ended, and the last isn't ended yet.
function! s:take_lines(document, partial, lines) abort
  let a:partial[0] .= a:lines[0]
  for line in a:lines[1:]
    call s:take(a:document, a:partial[0])
    let a:partial[0] = line
  endfor
  call s:show_rows(a:document)
endfunction

function! s:take_error(document, words) abort
  if a:words =~# '\S'
    let a:document.error = a:words
    call s:tell(a:words)
  endif
endfunction

" Starts a follower that ends once all that the host has is in the file.
function! s:fetch(document) abort
  try
    let a:document.job = s:start(a:document, 0, function('s:fetched'))
  catch
    let a:document.error = v:exception
    call s:ended(a:document, -1)
  endtry
endfunction

" All that the host had is in the file, or it can't be had.
function! s:fetched(document, status) abort
  if a:status == 0
    call s:follow(a:document)
  else
    call s:ended(a:document, a:status)
  endif
endfunction

function! s:follow(document) abort
  if a:document.is_left
    return
  endif
  let a:document.address = matchstr(a:document.address, '^[^#]*')
  let a:document.job = s:start(a:document, 1, function('s:ended'))
  call s:say(a:document, 'text')
  call s:say(a:document, 'rules')
endfunction

" The follower has ended, so nothing that is written would be kept.
function! s:ended(document, status) abort
  let [was_open, a:document.job, a:document.state, a:document.is_open] = [a:document.is_open, v:null, 'ended', 0]
  if a:document.is_left || !bufexists(a:document.buffer)
    return
  elseif a:document.is_renewed && a:document.tries < s:most_tries
    let a:document.tries += 1
    return s:go_on(a:document)
  elseif a:status == s:is_locked && !was_open && a:document.tries < s:most_tries
    let a:document.tries += 1
    call timer_start(500, {-> s:follow(a:document)})
    return
  endif
  call setbufvar(a:document.buffer, '&modifiable', 0)
  let words = a:status == s:is_locked ? 'the disk failed, or another program has this document open here' : 'the follower ended with status ' . a:status
  let old = empty(a:document.aside) ? '' : 'the old document is ' . s:short_name(a:document.aside)
  call s:tell(join(filter([old, words, a:document.closed, a:document.error], '!empty(v:val)'), ': '))
endfunction

" Waits while something is so, but for 3 seconds at most.
function! s:wait_while(Is_so) abort
  for _ in range(150)
    if !a:Is_so()
      return
    endif
    sleep 20m
  endfor
endfunction

function! s:end_input(job) abort
  if has('nvim')
    call chanclose(a:job, 'stdin')
  else
    call ch_close_in(a:job)
  endif
endfunction

" Whether a follower may run. Vim tells nobody of its end while it ends itself.
function! s:runs(job) abort
  return has('nvim') || job_status(a:job) ==# 'run'
endfunction

function! s:stop(job) abort
  if has('nvim')
    call jobstop(a:job)
  else
    call job_stop(a:job)
  endif
endfunction

" Sends what was written, and ends the follower, once all is at the host, or at least in its file: what a lost link keeps back
" goes out when the document is opened again.
function! s:leave(buffer) abort
  let document = get(s:documents, a:buffer, {})
  if empty(document)
    return
  endif
  call s:send(document)
  if document.is_renewed || document.is_going_on
    call s:leave_behind(document, [])
  endif
  unlet s:documents[a:buffer]
  let [was_open, document.is_open, document.is_left] = [document.is_open, 0, 1]
  if was_open
    call s:wait_while({-> !empty(document.sent)})
    call s:end_input(document.job)
    call s:wait_while({-> document.state ==# 'linked' && s:runs(document.job)})
  endif
  if document.job isnot v:null
    call s:stop(document.job)
  endif
endfunction

" ---- commands

" What is known of a document before its follower says something.
function! s:untold() abort
  return {
        \ 'state': 'opening', 'closed': '', 'error': '', 'is_renewed': 0, 'told': [],
        \ 'seen': 0, 'sent': [], 'rows': [], 'rows_reason': {},
        \ 'reason': {}, 'undoing': {}, 'rows_undone': 0,
        \ 'person': 0, 'role': '', 'people': {}, 'devices': {}, 'here': [], 'rules': s:no_rules() }
endfunction

" What was sent and isn't answered yet is in `sent`. While the text of a new document is awaited it `is_going_on`, and the files of
" the old one are `aside`.
function! s:document(buffer, address, file) abort
  return extend(s:untold(), {
        \ 'buffer': a:buffer, 'address': a:address, 'file': a:file, 'job': v:null,
        \ 'is_open': 0, 'is_left': 0, 'is_going_on': 0, 'aside': '', 'tries': 0,
        \ 'text': '', 'has_text': 0, 'tick': 0, 'timer': -1,
        \ 'past': [], 'undone': [], 'is_typing': 0, 'refusals': 0, 'marks': [],
        \ 'left': s:read_left(a:file) })
endfunction

function! s:set_options() abort
  setlocal modifiable buftype=acwrite bufhidden=hide noswapfile undolevels=-1 fileformat=unix nofixendofline noendofline nomodifiable
  setlocal statusline=%f\ [%{RoastcliffStatus()}]%=%l,%c%V\ %P
  nnoremap <buffer> <silent> u :<C-U>call <SID>undo_times(v:count1, 0)<CR>
  nnoremap <buffer> <silent> <C-R> :<C-U>call <SID>undo_times(v:count1, 1)<CR>
  nmap <buffer> U u
  nmap <buffer> g- u
  nmap <buffer> g+ <C-R>
  autocmd! roastcliff * <buffer>
  autocmd roastcliff TextChanged,BufLeave,FocusLost <buffer> call s:changed()
  autocmd roastcliff TextChangedI,TextChangedP <buffer> call s:typed()
  autocmd roastcliff InsertLeave <buffer> call s:insert_left()
  autocmd roastcliff BufWriteCmd <buffer> call s:written(expand('<afile>'))
  autocmd roastcliff BufUnload <buffer> call s:leave(str2nr(expand('<abuf>')))
endfunction

function! s:changed() abort
  if has_key(s:documents, bufnr())
    call s:send(s:documents[bufnr()])
  endif
endfunction

function! s:insert_left() abort
  call s:changed()
  if has_key(s:documents, bufnr())
    let s:documents[bufnr()].is_typing = 0
  endif
endfunction

" What is written is kept by the follower, so that `:write` has nothing more to do, unless it names a file of its own.
function! s:written(file) abort
  call s:changed()
  if a:file ==# bufname()
    setlocal nomodified
  else
    execute 'noautocmd write' . (v:cmdbang ? '!' : '') fnameescape(a:file)
  endif
endfunction

function! s:undo_times(count, is_redo) abort
  for _ in range(a:count)
    call s:undo(a:is_redo)
  endfor
endfunction

" Opens the document of an address in a buffer of its own.
function! s:open(address) abort
  let place = matchstr(a:address, '\v^http\zs://[^/#]+(/[^#]*)?/d/[a-z0-9-]+\ze/?(#.*)?$')
  if empty(place)
    return s:tell('an address is http://HOST:PORT/d/DOCUMENT/#SECRET: put d/DOCUMENT/ in front of an invitation''s #')
  endif
  let s:addresses[place] = a:address
  execute 'edit' fnameescape('roastcliff' . place)
  if get(get(s:documents, bufnr(), {}), 'job', v:null) is v:null
    call s:read_buffer(bufnr(), bufname())
  endif
endfunction

" Opens a document in the buffer of its name. Without an address its device has to be there.
function! s:read_buffer(buffer, name) abort
  let place = matchstr(a:name, '://.*')
  call mkdir(g:roastcliff_folder, 'p', 0700)
  let file = g:roastcliff_folder . '/' . substitute(place[3:], '[^A-Za-z0-9.-]', '_', 'g')
  let document = s:document(a:buffer, get(s:addresses, place, 'http' . place . '/'), file)
  let s:documents[a:buffer] = document
  call s:set_options()
  if filereadable(file . '.device')
    return s:follow(document)
  endif
  " The last end came before the new document's device was there.
  let aside = get(s:names_aside(file), -2, '')
  if document.address !~# '#.' && !empty(aside)
    let document.address = s:address_again(document.address, aside)
  endif
  call s:fetch(document)
endfunction

command! -nargs=1 -bar Roastcliff call s:open(<q-args>)
command! -bar RoastcliffWho call s:who()
command! -bar -bang RoastcliffWhy call s:reasons(<bang>0)
command! -nargs=? -bar -bang RoastcliffLeft call s:left(<q-args>, <bang>0)
command! -bar RoastcliffUndo call s:undo_times(1, 0)
command! -bar RoastcliffRedo call s:undo_times(1, 1)

" What changed a buffer without an event is noticed soon.
function! s:look_after() abort
  for document in values(s:documents)
    if document.timer < 0
      call s:send(document)
    endif
  endfor
endfunction

call timer_start(1000, {-> s:look_after()}, {'repeat': -1})

augroup roastcliff
  autocmd!
  autocmd BufReadCmd roastcliff://* call s:read_buffer(str2nr(expand('<abuf>')), expand('<amatch>'))
  autocmd VimLeavePre * for buffer in keys(s:documents) | call s:leave(buffer) | endfor
augroup END
