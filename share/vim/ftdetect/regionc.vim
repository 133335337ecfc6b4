" RC, the region dialect of C. Files *.c stay C; a file *.rc.c is RC.
autocmd BufNewFile,BufRead *.rc.c set filetype=regionc
