" Listings of dired: the nine letters of a mode and all behind the date may be edited; the rest, and the number of lines, stays.
" Nothing is typed into a fixed column; a command that changed one, or the lines, is undone at once.
if exists('b:did_ftplugin')
  finish
endif
let b:did_ftplugin = 1

setlocal textwidth=0 nofixendofline fileformat=unix nobomb

" The columns of a line up to the mode and behind it up to the name.
let s:entry = '^\(..[-dl]\)\S*\( \+\d\+ \+\S\+ \+\S\+ \+\d\+ \d\{4}-\d\d-\d\d \d\d:\d\d \)'
" In a listing of more lines than this, only those that a command names as changed are compared.
let s:few = 20000

function! s:Fixed(line) abort
  let l:parts = matchlist(a:line, s:entry)
  return empty(l:parts) ? a:line : l:parts[1] . l:parts[2]
endfunction

" The column of a name's first byte, or 0 where this is no line of a file.
function! s:Name(line) abort
  return matchend(a:line, s:entry) + 1
endfunction

" Whether the cursor stands where text may be typed.
function! s:Free() abort
  let l:name = s:Name(getline('.'))
  let l:column = col('.')
  return l:name > 0 && (l:column >= l:name || (l:column >= 4 && l:column <= 12))
endfunction

" Whether the fixed columns of the lines from one to another, and the number of lines, are those of the listing as it was read.
function! s:Stands(from, to) abort
  return line('$') == len(b:dired_fixed) && map(getline(a:from, a:to), 's:Fixed(v:val)') ==# b:dired_fixed[a:from - 1 : a:to - 1]
endfunction

function! s:Check() abort
  let [l:from, l:to] = line('$') <= s:few ? [1, line('$')] : [line("'["), line("']")]
  if !s:Stands(l:from, l:to)
    silent undo
    echohl WarningMsg | echo 'dired: only modes, names and targets may be changed; each line stays' | echohl None
  endif
endfunction

" In insert mode nothing is deleted in front of a name, and no line begun.
function! s:Back(key) abort
  return col('.') > s:Name(getline('.')) || col('.') <= 12 && col('.') > 4 ? a:key : ''
endfunction
inoremap <buffer> <expr> <BS> <SID>Back("\<BS>")
inoremap <buffer> <expr> <C-H> <SID>Back("\<C-H>")
inoremap <buffer> <expr> <C-W> <SID>Back("\<C-W>")
inoremap <buffer> <C-U> <Nop>
inoremap <buffer> <CR> <Nop>
inoremap <buffer> <NL> <Nop>

let b:dired_fixed = map(getline(1, '$'), 's:Fixed(v:val)')
augroup dired_listing
  autocmd! * <buffer>
  autocmd InsertCharPre <buffer> if !s:Free() | let v:char = '' | endif
  autocmd TextChanged,InsertLeave <buffer> call s:Check()
augroup END
let b:undo_ftplugin = 'setlocal textwidth< fixendofline< fileformat< bomb< | autocmd! dired_listing * <buffer>'
      \ . ' | iunmap <buffer> <BS>| iunmap <buffer> <C-H>| iunmap <buffer> <C-W>| iunmap <buffer> <C-U>| iunmap <buffer> <CR>| iunmap <buffer> <NL>'
