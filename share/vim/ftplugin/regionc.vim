" RC, the region dialect of C: comments and the like are as in C.
if exists("b:did_ftplugin")
  finish
endif
runtime! ftplugin/c.vim
