" Lets a check drive Vim and Neovim: it connects to the port $DRIVER_PORT, does what a line says, and answers in a line. A line is a list in
" JSON: ["do", COMMAND], or ["tell", EXPRESSION].

let s:rest = ''

" Puts lines in place of the letters from one place up to another, as a command does it.
function! DriverChange(start, end, lines) abort
  let text = join(getline(1, '$'), "\n")
  let front = strcharpart(text, 0, a:start)
  let behind = strcharpart(text, a:end) . "\n"
  let first = count(front, "\n") + 1
  let last = line('$') - count(behind, "\n") + 1
  let a:lines[0] = strpart(front, strridx(front, "\n") + 1) . a:lines[0]
  let a:lines[-1] .= strpart(behind, 0, stridx(behind, "\n"))
  call append(last, a:lines)
  call deletebufline('', first, last)
  doautocmd TextChanged
endfunction

function! s:answer(line) abort
  let [word, words] = json_decode(a:line)
  try
    let answer = word ==# 'tell' ? eval(words) : execute(words)
  catch
    let answer = {'wrong': v:exception . ' at ' . v:throwpoint}
  endtry
  call s:say(json_encode(answer) . "\n")
endfunction

function! s:take_all(lines) abort
  let s:rest .= a:lines[0]
  for line in a:lines[1:]
    let [whole, s:rest] = [s:rest, line]
    call s:answer(whole)
  endfor
endfunction

if has('nvim')
  let s:channel = sockconnect('tcp', 'localhost:' . $DRIVER_PORT, {'on_data': {_, lines, event -> s:take_all(lines)}})
  function! s:say(line) abort
    call chansend(s:channel, a:line)
  endfunction
else
  let s:channel = ch_open('localhost:' . $DRIVER_PORT, {'mode': 'nl', 'callback': {_, line -> s:answer(line)}})
  function! s:say(line) abort
    call ch_sendraw(s:channel, a:line)
  endfunction
endif
