" Indentation of Sather: a level for each block that is open, and one more for a statement that goes on behind its first line.
if exists('b:did_indent')
  finish
endif
let b:did_indent = 1

setlocal indentexpr=GetSatherIndent()
setlocal indentkeys=o,O,!^F,0=end,0=else,0=elsif,0=when,0=pre,0=post
let b:undo_indent = 'setlocal indentexpr< indentkeys<'

if exists('*GetSatherIndent')
  finish
endif

" Words that open a block, and those that begin a line one level further out than what stands before them in their block.
let s:opens = '\<\%(is\|if\|loop\|case\|typecase\|protect\)\>!\@!'
let s:ends = '\<end\>!\@!'
let s:parts = '^\s*\<\%(else\|elsif\|when\)\>!\@!'

" The line without its comment, and with nothing inside its literals.
function! s:Code(number) abort
  let literal = '"\%(\\.\|[^"\\]\)*"\|''\%(\\.\|[^''\\]\)*''\|--.*'
  return substitute(getline(a:number), literal, '\=submatch(0)[0] ==# "-" ? "" : "0"', 'g')
endfunction

" The last line before this one that holds more than a comment, or 0.
function! s:LineBefore(number) abort
  let number = prevnonblank(a:number - 1)
  while number > 0 && s:Code(number) =~# '^\s*$'
    let number = prevnonblank(number - 1)
  endwhile
  return number
endfunction

" Whether the statement of the first line goes on in the second one. A | behind a sign, return or yield opens an array.
function! s:GoesOn(before, number) abort
  let sign = '[-+*/%^~=<>#,.({[]'
  let opened = '\%(' . sign . '\|\<\%(return\|yield\)\>\)\s*|'
  let last = '\%(' . sign . '\|\<\%(and\|or\)\>\|' . opened . '\)\s*$'
  let first = '^\s*\%([-+*/%^=<>.,|)}\]]\|\<\%(and\|or\|pre\|post\)\>\)'
  return a:before > 0 && (s:Code(a:before) =~# last || s:Code(a:number) =~# first)
endfunction

" The line in which the statement of this line begins.
function! s:StatementStart(number) abort
  let start = a:number
  let before = s:LineBefore(start)
  while s:GoesOn(before, start)
    let start = before
    let before = s:LineBefore(start)
  endwhile
  return start
endfunction

function! s:Count(code, pattern) abort
  return len(split(a:code, a:pattern, 1)) - 1
endfunction

" How many levels more are open behind the line than where it stands itself.
function! s:Levels(number) abort
  let code = s:Code(a:number)
  let inside = substitute(code, '^\s*\<end\>!\@!', '', '')
  return s:Count(inside, s:opens) - s:Count(inside, s:ends) + (code =~# s:parts)
endfunction

function! GetSatherIndent() abort
  let before = s:LineBefore(v:lnum)
  if before == 0
    return 0
  endif
  let start = s:StatementStart(before)
  if s:GoesOn(before, v:lnum)
    return indent(start) + shiftwidth()
  endif
  let levels = 0
  for number in range(start, before)
    let levels += s:Levels(number)
  endfor
  let code = s:Code(v:lnum)
  let levels -= code =~# s:parts || code =~# '^\s*' . s:ends
  return max([0, indent(start) + levels * shiftwidth()])
endfunction
