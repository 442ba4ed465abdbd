" Vim compiler file of caf: put it into ~/.vim/compiler/, and then :compiler caf, :make, :copen.
" :make checks the file; `:make run -n 4 --order 0 %` would be `:set makeprg=caf` first.
if exists('current_compiler')
  finish
endif
let current_compiler = 'caf'
CompilerSet makeprg=caf\ check\ %
CompilerSet errorformat=%f:%l:%c:\ %trror:\ %m,%f:%l:%c:\ %tote:\ %m,%-G%.%#
