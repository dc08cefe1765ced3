" Highlighting of rc, the shell of Plan 9, for scripts.
" Made from editors/vim.template, the keywords and the built-in commands by `make editors`.
if exists('b:current_syntax')
  finish
endif

" here documents and quoted words go over many lines
syntax sync fromstart

" a character of a word, the end of a word, and where a command begins
let s:word = '[^ \t#;&|^$=`''{}()<>]'
let s:end = s:word . '\@!'
let s:start = '\%(\\\n\s*\)\@80<!\%(\%(^\|[;&({]\||\%(\[[12]\]\)\=\)\s*\)\@80<='
" a line on which no further here document begins
let s:last = '\%(\%([^''#]\|''[^'']*''\)*<<\)\@!'

syntax cluster rcWords contains=rcList,rcQuote,rcVariable,rcBackquote,rcPattern,rcOperator,rcComment
syntax cluster rcFirst contains=rcNextKeyword,rcNextBuiltin

syntax match rcComment /#.*/ contains=@Spell
syntax region rcQuote start=/'/ skip=/''/ end=/'/
syntax match rcPattern /[*?]/
syntax match rcPattern /\[[^]' \t]*\]/
syntax match rcOperator /[;&^=]/
syntax match rcOperator /|\%(\[[12]\]\)\=/
syntax match rcOperator />>\=\%(\[[12]\%(=[12]\)\=\]\)\=\|<\%(\[0\]\)\=/
syntax match rcDelimiter /[(){}]/

" variables and their subscripts, lists, and what commands write
syntax match rcVariable /\$[#"]\=\$*\%([A-Za-z0-9_*]\+\|'\%([^']\|''\)*'\)/ nextgroup=rcSubscript
syntax region rcSubscript contained matchgroup=rcDelimiter start=/(/ end=/)/ contains=@rcWords
syntax region rcList matchgroup=rcDelimiter start=/(/ end=/)/ contains=@rcWords
syntax region rcBackquote matchgroup=rcDelimiter start=/`\s*{/ end=/}/ contains=TOP,rcBraces
syntax region rcBraces contained matchgroup=rcDelimiter start=/{/ end=/}/ contains=TOP,rcBraces

" an unquoted = stands after the name of a variable alone
execute 'syntax match rcAssigned /' . s:word . '\@1<![A-Za-z0-9_*]\+\ze\s*=/'

" keywords and built-in commands, where a command begins or after the beginning of another
for [s:group, s:flags, s:before] in [['rc', '', s:start], ['rcNext', 'contained', '']]
  let s:keyword = 'syntax match ' . s:group . 'Keyword ' . s:flags . ' /' . s:before
  execute s:keyword . '\%(for\|in\|while\|if\|not\|switch\|fn\)' . s:end . '/'
  execute s:keyword . 'case' . s:end . '/'
  execute s:keyword . '[~!@]' . s:end . '/ nextgroup=@rcFirst skipwhite'
  execute s:keyword . '\%(if\|while\)' . s:end . '/ nextgroup=rcCondition,rcNot skipwhite'
  execute s:keyword . 'for' . s:end . '/ nextgroup=rcHead skipwhite'
  execute s:keyword . 'fn' . s:end . '/ nextgroup=rcFunction skipwhite'
  let s:builtin = 'syntax match ' . s:group . 'Builtin ' . s:flags . ' /' . s:before
  execute s:builtin . '\%(\.\|builtin\|cd\|eval\|exec\|exit\|shift\|wait\|whatis\)' . s:end . '/'
endfor
execute 'syntax match rcNot contained /not' . s:end . '/ nextgroup=@rcFirst skipwhite'
execute 'syntax match rcFunction contained /' . s:word . '\+/ nextgroup=rcFunction skipwhite'
syntax region rcCondition contained matchgroup=rcDelimiter start=/(/ end=/)/ contains=TOP nextgroup=@rcFirst skipwhite
syntax region rcHead contained matchgroup=rcDelimiter start=/(/ end=/)/ contains=rcIn,@rcWords
      \ nextgroup=@rcFirst skipwhite
execute 'syntax match rcIn contained /\%((\s*' . s:word . '\+\s\+\)\@<=in' . s:end . '/'

" The bodies of a line's here documents are one region, up to the mark of the last one. The rest of the line of its `<<`
" is commands.
let s:here = '<<\%(\[0\]\|\[\@!\)\s*'
let s:mark = s:here . '\%(' . s:word . '\+\|''[^'']*''\)'
execute 'syntax region rcHere matchgroup=rcMark start=/' . s:here . '\z(' . s:word . '\+\)' . s:last . '/ end=/^\z1$/'
      \ 'contains=rcRest,rcHereVariable'
execute 'syntax region rcHere matchgroup=rcMark start=/' . s:here . '''\z([^'']*\)''' . s:last . '/ end=/^\z1$/'
      \ 'contains=rcRest'
execute 'syntax match rcMark /' . s:mark . '\%(.*<<\)\@=/'
execute 'syntax match rcRest contained transparent contains=TOP /\%(' . s:mark . '\)\@<=' . s:end . '.\+/'
syntax match rcHereVariable contained /\$[A-Za-z0-9_*]\+\^\=\|\$\$/

highlight default link rcComment Comment
highlight default link rcQuote String
highlight default link rcPattern SpecialChar
highlight default link rcOperator Operator
highlight default link rcDelimiter Delimiter
highlight default link rcVariable Identifier
highlight default link rcAssigned Identifier
highlight default link rcKeyword Statement
highlight default link rcNextKeyword rcKeyword
highlight default link rcNot rcKeyword
highlight default link rcIn rcKeyword
highlight default link rcBuiltin Special
highlight default link rcNextBuiltin rcBuiltin
highlight default link rcFunction Function
highlight default link rcMark PreProc
highlight default link rcHere String
highlight default link rcHereVariable rcVariable

unlet s:word s:end s:start s:last s:here s:mark s:group s:flags s:before s:keyword s:builtin
let b:current_syntax = 'rcshell'
