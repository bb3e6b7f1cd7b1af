" A file `*.rules` is a rule text where a line of it begins a context; Snort, udev and others have such files too. Vim takes
" it for one of Snort first, whose settings would keep out those of rule texts.
function! s:detect() abort
  if search('^\s*context\s\+\h', 'nw')
    unlet! b:did_ftplugin
    set filetype=ocl_rules
  endif
endfunction

autocmd BufRead,BufNewFile *.rules call s:detect()
