" Vim compiler file
" Compiler: kc96. Its notes on standard error are taken (docs/GUIDE.md, "Refusals in words"), not its lines on standard output.

if exists("current_compiler")
  finish
endif
let current_compiler = "kc96"

if exists(":CompilerSet") != 2
  command -nargs=* CompilerSet setlocal <args>
endif

if filereadable("Makefile") || filereadable("makefile")
  CompilerSet makeprg=make
else
  CompilerSet makeprg=kc96\ asm\ %:S\ --out\ %:r:S.obj
endif

" What stands on standard output.
CompilerSet errorformat=%-Gsource\ %f:%l:\ E%\\d%\\+
CompilerSet errorformat+=%-Ginput\ %f:%l:\ %\\u%[0-9A-Z]%#
CompilerSet errorformat+=%-Goutput\ %f:0:\ LONG
CompilerSet errorformat+=%-Gmissing\ %.%#
CompilerSet errorformat+=%-Gread\ %f
CompilerSet errorformat+=%-Glink\ %.%#
CompilerSet errorformat+=%-Gusage
" A note, and behind it the line that it is about; where a macro has the fault, a second pair.
CompilerSet errorformat+=%E%f:%l:\ error\ %m
CompilerSet errorformat+=%I%f:%l:\ note:\ %m
CompilerSet errorformat+=%E%f:%l:\ undefined\ use\ %m
CompilerSet errorformat+=%Ekc96:\ error:\ %m
CompilerSet errorformat+=%Ekc96:\ undefined\ use\ %m
CompilerSet errorformat+=%Ekc96:\ error\ %m
CompilerSet errorformat+=%Ikc96:\ note:\ %m
CompilerSet errorformat+=%E%f:\ error:\ %m
CompilerSet errorformat+=%E%f:\ error\ %m
" Makefiles in other folders.
CompilerSet errorformat+=%Dmake[%*\\d]:\ Entering\ directory\ '%f'
CompilerSet errorformat+=%Xmake[%*\\d]:\ Leaving\ directory\ '%f'
CompilerSet errorformat+=%-Z%.%#
CompilerSet errorformat+=%-G%.%#
