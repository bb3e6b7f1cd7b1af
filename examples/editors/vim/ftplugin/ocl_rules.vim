" Rule texts: comments, and the compiler.
if exists('b:did_ftplugin')
  finish
endif
let b:did_ftplugin = 1

setlocal commentstring=--\ %s comments=sr:/*,mb:*,ex:*/,:--
compiler ocl_explain

let b:undo_ftplugin = 'setlocal commentstring< comments< makeprg< errorformat<'
