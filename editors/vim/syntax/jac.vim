" Vim syntax file. Language: applications of Jacqueline. tools/editors.py writes this file from editors/forms.txt.
if exists("b:current_syntax")
  finish
endif
silent! syn include @jacHtml syntax/html.vim
unlet! b:current_syntax
syn case match
" HTML begins anew at each tag, and a text of an application doesn't
syn sync clear
syn sync fromstart

" what may be in a view, a model or a tag
syn cluster jacForms contains=jacDeclaration,jacMark,jacMethod,jacStatement,jacExpression,jacQuery,jacOrder
syn cluster jacForms add=jacConstant,jacNumber,jacPairs,jacComment,jacPart

syn match jacDeclaration "(\@1<=\%(app\|viewer\|model\|group\|guards\|policy\|view\)\>-\@!"
syn match jacMark "\<\%(nested\|hides\)\>-\@!\ze\_s*("
syn match jacMethod "\%((view\s\+\)\@<=\%(get\|post\)\>-\@!"
syn match jacStatement "(\@1<=\%(put\|esc\|let\|assign\|if\|for\|create\|update\|delete\|missing\|redirect\|template\|set\)\>-\@!"
syn match jacExpression "(\@1<=\%(none\|get\|live\|add\|sub\|mul\|eq\|lt\|and\|or\|not\|cat\|str\|pick\|count\|sum\|some\|first\)\>-\@!"
syn match jacQuery "(\@1<=\%(from\)\>-\@!"
syn match jacOrder "(\@1<=\%(up\|down\)\>-\@!"
syn match jacOrder "\%()\|\<true\|\<false\)\@5<=\_s\+\%(key\))"hs=e-3,he=e-1
syn match jacConstant "(\@1<!\<\%(true\|false\|this\|viewer\)\>-\@!"
syn match jacNumber "\%(^\|[ \t(]\)\@1<=-\=\d\+\%([ \t)]\|$\)\@="

" fields and parameters: the kinds are words of the language there alone
syn region jacPairs matchgroup=jacDeclaration start="(\@1<=\%(fields\|params\)\>" matchgroup=NONE end=")"
  \ contains=jacPair
syn region jacPair contained start="(" end=")" contains=jacPair,jacKind
syn match jacKind contained "\%([ \t]\)\@1<=\%(int\|text\|bool\)\ze\_s*)"
syn match jacKind contained "(\@1<=\%(ref\)\>"

syn region jacText start=+"+ skip=+\\\\\|\\"+ end=+"+ contains=jacEscape,jacName
syn match jacEscape contained +\\[nrt\\"]+
syn match jacName contained "{[A-Za-z][A-Za-z0-9_-]*}"

" a template is a page of HTML with tags
syn region jacTemplate start=+\%((template\_s\+\)\@<="+ skip=+\\\\\|\\"+ end=+"+ keepend
  \ contains=@jacHtml,jacEscape,jacTag
syn region jacTag contained matchgroup=jacDelimiter start="{{" end="}}"
  \ contains=@jacForms,jacTagText
syn region jacTag contained matchgroup=jacDelimiter start="{%" end="%}"
  \ contains=@jacForms,jacTagText,jacTagWord
syn cluster htmlPreproc add=jacTag
syn match jacTagWord contained "\<\%(else\|end\)\>"
syn region jacTagText contained start=+\\"+ end=+\\"+

" parts of a folder that are put together
syn region jacComment start="\[#" end="#\]"
syn region jacPart matchgroup=jacDelimiter start="\[%" end="%\]"
syn region jacPart matchgroup=jacDelimiter start="\[\[" end="\]\]"

hi def link jacDeclaration Structure
hi def link jacMark StorageClass
hi def link jacMethod StorageClass
hi def link jacStatement Statement
hi def link jacExpression Function
hi def link jacQuery Repeat
hi def link jacOrder Keyword
hi def link jacConstant Constant
hi def link jacNumber Number
hi def link jacKind Type
hi def link jacText String
hi def link jacTagText String
hi def link jacTagWord Statement
hi def link jacEscape SpecialChar
hi def link jacName Identifier
hi def link jacDelimiter Delimiter
hi def link jacComment Comment
hi def link jacPart PreProc
let b:current_syntax = "jac"
