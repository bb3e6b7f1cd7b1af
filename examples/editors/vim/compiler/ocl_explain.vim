" ocl_explain as the compiler of rule texts: `:make` compiles the open text, or judges by it.
"
" g:ocl_model     the class model (model.json)
" g:ocl_delivery  a delivery; where it is given, `:make` judges it

if exists('current_compiler')
  finish
endif
let current_compiler = 'ocl_explain'

let s:model = shellescape(get(g:, 'ocl_model', 'model.json'))
if exists('g:ocl_delivery')
  let s:command = 'ocl_explain judge --text ' .. s:model .. ' ' .. shellescape(g:ocl_delivery) .. ' %:S'
else
  let s:command = 'ocl_explain compile ' .. s:model .. ' %:S %:r:S.code'
endif
execute 'CompilerSet makeprg=' .. escape(s:command, ' \|"')

" Notes with a place and warnings first, then those of a whole file; all other lines belong to one of them.
CompilerSet errorformat=
      \%-G\ %.%#,
      \%W%f:%l:%c:\ %m\ (warning),
      \%E%f:%l:%c:\ %m,
      \%W%f:\ %m\ (warning),
      \%E%f:\ %m\ (%*[a-z]\ %*[0-9\ ]),
      \%-G%.%#
