" tools/editors.py writes this file from editors/forms.txt.
if exists("b:did_ftplugin")
  finish
endif
let b:did_ftplugin = 1
setlocal iskeyword+=- expandtab shiftwidth=1 autoindent commentstring=[#\ %s\ #]
let b:undo_ftplugin = "setlocal iskeyword< expandtab< shiftwidth< autoindent< commentstring<"
