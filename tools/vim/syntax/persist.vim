" The notation of persist (*.persist): a program, a line %%, and a script.
if exists('b:current_syntax')
  finish
endif

" The program.
syntax keyword persistWord record root val ptr proc query var nextgroup=persistName skipwhite
syntax keyword persistDo new call print if else while return and or not
syntax keyword persistType int
syntax keyword persistNull null
syntax match persistLanguage /\%^\_s*language 2\>/
syntax match persistName /\h\w*/ contained contains=persistWrong
syntax match persistNumber /\<\%(0\|[1-9]\d*\)\>/
" What a program may not have: bytes that begin no token, words that are no numbers, names of more than 32 bytes.
syntax match persistWrong /[][&|"'$?@\\^`~]\|!=\@!/
syntax match persistWrong /\<\d\+\h\w*\|\<0\d\+\>\|\<\h\w\{32,}/
syntax match persistComment /#.*$/

" The script.
syntax region persistScript start=/^%%[ \t\r]*$/ end=/\%$/ contains=persistSeparator,persistCommand,persistNote,persistArgument
syntax match persistSeparator /^%%[ \t\r]*$/ contained
syntax match persistCommand /^[ \t]*\zs\%(run\|query\|open\|call\|step\|close\|drop\|budget\|versions\|stats\)\>/ contained
syntax match persistArgument /\%(^\|[ \t]\)\zs-\?\d\+\ze\%([ \t\r]\|$\)/ contained
syntax match persistNote /^[ \t]*#.*$/ contained

highlight default link persistWord Structure
highlight default link persistDo Statement
highlight default link persistType Type
highlight default link persistNull Constant
highlight default link persistLanguage PreProc
highlight default link persistName Function
highlight default link persistNumber Number
highlight default link persistWrong Error
highlight default link persistComment Comment
highlight default link persistSeparator PreProc
highlight default link persistCommand Statement
highlight default link persistArgument Number
highlight default link persistNote Comment
let b:current_syntax = 'persist'
