au BufRead,BufNewFile *.lw setfiletype lw
au BufRead,BufNewFile *.lwformula setfiletype lwformula
au BufRead,BufNewFile *.lwcertificate setfiletype lwcertificate
" a certificate is known by its first line, whatever the file's name is
au BufRead * if getline(1) ==# 'certificate 1' | set filetype=lwcertificate | endif
" a script, by its first line that is neither empty nor a comment, where that begins a statement
let s:statement = '\v^\s*([A-Z]\w*\s*:\=|print(\s*$|.*[;("])|for\s+[A-Z]\w*\s+(in>|:\=)|(if|while)>.*<(then|do)>)'
function! s:is_script()
  let l:lines = filter(getline(1, 100), "v:val !~# '\\v^\\s*(#.*)?$'")
  return len(l:lines) > 0 && l:lines[0] =~# s:statement
endfunction
au BufRead *.txt if s:is_script() | set filetype=lw | endif
