" Scripts of rc: those whose first line names it, as rc or as rc.rattle, and *.rc whose first line is a comment. Vim
" takes every *.rc for a resource of Windows, in which # begins no comment.
function! s:Detect() abort
  let line = getline(1)
  if line =~# '^#!.*[/ ]rc\%(\.rattle\)\?\%(\s\|$\)' || (expand('<afile>:e') ==# 'rc' && line =~# '^#\%(\s\|$\)')
    setlocal filetype=rcshell
  endif
endfunction
autocmd BufNewFile,BufRead * call s:Detect()
