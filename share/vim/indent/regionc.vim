" RC, the region dialect of C: it is indented as C.
if exists("b:did_indent")
  finish
endif
runtime! indent/c.vim
