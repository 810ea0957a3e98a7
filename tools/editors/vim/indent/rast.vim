" Indents files of rast: an item begins a line, branches stand two deeper than their case.
if exists("b:did_indent") | finish | endif
let b:did_indent = 1
setlocal indentexpr=RastIndent(v:lnum) indentkeys=o,O,*<Return>,0\|,0=type,0=decl,0=proc,0=exec
let b:undo_indent = "setlocal indentexpr< indentkeys<"
if exists("*RastIndent") | finish | endif

" How many parentheses are open before a line, counted from the item that it belongs to.
function s:Open(line)
  let open = 0
  let at = prevnonblank(a:line - 1)
  while at > 0
    let text = substitute(getline(at), '%.*$', '', '')
    let open += len(substitute(text, '[^(]', '', 'g')) - len(substitute(text, '[^)]', '', 'g'))
    if text =~# '^\s*\%(type\|decl\|proc\|eq\|exec\)\>' | break | endif
    let at = prevnonblank(at - 1)
  endwhile
  return open
endfunction

function RastIndent(line)
  let text = getline(a:line)
  let before = prevnonblank(a:line - 1)
  if text =~# '^\s*\%(explicit\|type\|decl\|proc\|eq\|exec\)\>' || before == 0
    return 0
  endif
  let open = s:Open(a:line)
  if open > 0
    return 2 * open + (text =~# '^\s*|' ? 0 : 2)
  endif
  return getline(before) =~# '[;=]\s*\%(%.*\)\?$' ? 2 : 0
endfunction
