" vim: `:make` checks the file, and goes to the place of a refusal
" put it into ~/.vim/after/ftplugin/tla.vim
setlocal makeprg=pcal\ check\ %:S
setlocal errorformat=pcal:\ %f:%l:%v:\ %m,%-Gok
