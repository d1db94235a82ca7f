" Tries how steps of undo are carried over changes of others: two rows of steps that were meant for one text give the same text, whichever goes
" first and is followed by what becomes of the other. It ends with status 1 where they don't.

let s:number = matchstr(filter(split(execute('scriptnames'), "\n"), 'v:val =~# "plugin/roastcliff.vim"')[0], '\d\+')
let s:Cross = function('<SNR>' . s:number . '_cross')
let s:seed = 11

function! s:random(below) abort
  let s:seed = (s:seed * 1103515245 + 12345) % 2147483648
  return s:seed / 65536 % a:below
endfunction

" A random row of steps for a text of so many letters.
function! s:row(size, letter) abort
  let [row, size] = [[], a:size]
  for number in range(s:random(4))
    let at = s:random(size + 1)
    if at == size || s:random(2) == 0
      let put = repeat(nr2char(char2nr(a:letter) + number), 1 + s:random(3))
      call add(row, {'at': at, 'put': put})
      let size += len(put)
    else
      let out = 1 + s:random(min([4, size - at]))
      call add(row, {'at': at, 'out': out})
      let size -= out
    endif
  endfor
  return row
endfunction

function! s:made(text, row) abort
  let text = a:text
  for step in a:row
    let text = strpart(text, 0, step.at) . get(step, 'put', '') . strpart(text, step.at + get(step, 'out', 0))
  endfor
  return text
endfunction

for s:case in range(1000)
  let s:text = strpart('0123456789..', 0, s:random(12))
  let [s:ones, s:others] = [s:row(len(s:text), 'a'), s:row(len(s:text), 'A')]
  let [s:crossed, s:other_crossed] = s:Cross(s:ones, s:others)
  if s:made(s:made(s:text, s:ones), s:other_crossed) !=# s:made(s:made(s:text, s:others), s:crossed)
    call writefile(['steps that go wrong: ' . string([s:text, s:ones, s:others])], '/dev/stderr')
    cquit
  endif
endfor
qall!
