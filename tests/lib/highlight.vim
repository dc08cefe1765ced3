" Writes what Vim shows its arguments as, which are scripts, to the directory g:directory. tests/editors sources it.
" The file of that name has the lines of the script, with the letter of what it is shown as in place of each character.
let s:letters = {'rcComment': 'c', 'rcQuote': 'q', 'rcHere': 'h', 'rcAssigned': 'a', 'rcVariable': 'v',
      \ 'rcHereVariable': 'v', 'rcKeyword': 'k', 'rcNextKeyword': 'k', 'rcNot': 'k', 'rcIn': 'k', 'rcOperator': 'o',
      \ 'rcBuiltin': 'b', 'rcNextBuiltin': 'b', 'rcFunction': 'f', 'rcMark': 'm', 'rcPattern': 'p', 'rcDelimiter': 'd'}

function! s:Line(number) abort
  let l:groups = map(range(1, len(getline(a:number))), 'synIDattr(synID(a:number, v:val, 0), "name")')
  return join(map(l:groups, 'get(s:letters, v:val, ".")'), '')
endfunction

for s:file in argv()
  execute 'edit' fnameescape(s:file)
  let s:lines = map(range(1, line('$')), 's:Line(v:val)')
  call writefile(s:lines, g:directory . '/' . fnamemodify(s:file, ':t'))
endfor
qall!
