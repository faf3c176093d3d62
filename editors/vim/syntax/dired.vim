" Listings of dired.
if exists('b:current_syntax')
  finish
endif
syntax match diredFirst /\%1l.*/
syntax match diredHeader /^  [^ ].*:\( \.\.\.\)\?$/
syntax match diredTotal /^  total \d\+$/
syntax match diredFixed /^..[-dl][-rwxsStT]\{9} \+\d\+ \+\S\+ \+\S\+ \+\d\+ \d\{4}-\d\d-\d\d \d\d:\d\d / contains=diredMode
syntax match diredMode /\%4c[-rwxsStT]\{9}/ contained
syntax match diredTarget / -> .*$/
highlight default link diredFirst Comment
highlight default link diredHeader Directory
highlight default link diredTotal Comment
highlight default link diredFixed Comment
highlight default link diredMode Special
highlight default link diredTarget Identifier
let b:current_syntax = 'dired'
