" Vim syntax file
" Language: RC, the region dialect of C
" Files:    *.rc.c, and others by :set syntax=regionc

if exists("b:current_syntax")
  finish
endif
let s:cpo_save = &cpo
set cpo&vim

syntax case match
syntax iskeyword a-z,A-Z,48-57,_

" Words that steer, and types.
syntax keyword regioncConditional if else
syntax keyword regioncRepeat      while for do
syntax keyword regioncStatement   break continue return
syntax keyword regioncType        int unsigned char void region
syntax keyword regioncStructure   struct

" Where pointers lead, and which functions delete regions.
syntax keyword regioncAnnotation  sameregion parentptr traditional
syntax keyword regioncDeletes     deletes

" What makes regions and objects, and the other built-in functions.
syntax keyword regioncRegionCall  newregion newsubregion deleteregion regionof ralloc rarrayalloc
syntax keyword regioncBuiltIn     putchar getchar

syntax keyword regioncConstant    NULL EOF

" Words of C that are reserved, and part of no rule of RC.
syntax keyword regioncNotInRC     auto case const default double enum extern float goto inline long
syntax keyword regioncNotInRC     register restrict short signed sizeof static switch typedef union
syntax keyword regioncNotInRC     volatile

" What begins with a digit: a number, or none where something follows it at once.
syntax match   regioncNotANumber  "\<\d[0-9A-Za-z_.]*"
syntax match   regioncNumber      "\<\%(0[xX]\x\+\|0\o*\|[1-9]\d*\)[uU]\=[0-9A-Za-z_.]\@!"

" Characters and strings end on their line. A character is one byte; an octal escape is at most 255.
syntax match   regioncNotAnEscape contained "\\."
syntax match   regioncEscape      contained +\\\%([abfnrtv\\'"?]\|[0-3]\o\o\|\o\{1,2}\o\@!\|x\x\{1,2}\x\@!\)+
syntax match   regioncNotAChar    "'"
syntax match   regioncCharacter   +'\%([\t -&(-[\]-~]\|\\[^x0-7]\|\\\o\{1,3}\|\\x\x\{1,2}\)'+ contains=regioncEscape,regioncNotAnEscape
syntax match   regioncNotAString  +"+
syntax match   regioncString      +"\%([^\\"]\|\\.\)*"+ contains=regioncEscape,regioncNotAnEscape

" Bytes that begin no word. A line #include is skipped whole, and no other line has a #.
syntax match   regioncNotAWord    "[#$@`\\]\|[^\x01-\x7f]"
syntax match   regioncInclude     "^[ \t]*#[ \t]*include\>.*$" contains=regioncIncluded
syntax match   regioncIncluded    contained +\%(include[ \t]*\)\@<=\%("[^"]*"\|<[^>]*>\)+

syntax match   regioncComment     "//.*$" contains=regioncTodo,@Spell
syntax region  regioncComment     start="/\*" end="\*/" contains=regioncTodo,@Spell
syntax keyword regioncTodo        contained TODO FIXME XXX

syntax sync ccomment regioncComment minlines=50

highlight default link regioncConditional Conditional
highlight default link regioncRepeat      Repeat
highlight default link regioncStatement   Statement
highlight default link regioncType        Type
highlight default link regioncStructure   Structure
highlight default link regioncAnnotation  StorageClass
highlight default link regioncDeletes     StorageClass
highlight default link regioncRegionCall  Keyword
highlight default link regioncBuiltIn     Function
highlight default link regioncConstant    Constant
highlight default link regioncNotInRC     Error
highlight default link regioncNumber      Number
highlight default link regioncNotANumber  Error
highlight default link regioncCharacter   Character
highlight default link regioncNotAChar    Error
highlight default link regioncString      String
highlight default link regioncNotAString  Error
highlight default link regioncEscape      SpecialChar
highlight default link regioncNotAnEscape Error
highlight default link regioncNotAWord    Error
highlight default link regioncInclude     PreProc
highlight default link regioncIncluded    String
highlight default link regioncComment     Comment
highlight default link regioncTodo        Todo

let b:current_syntax = "regionc"
let &cpo = s:cpo_save
unlet s:cpo_save
